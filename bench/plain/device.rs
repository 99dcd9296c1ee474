//! What the device tells, and what that does. A load's device tells two of these events; the others are
//! what the refusals and times of a load's calls ask about.

use crate::code::{Code, Gives, Stop, Tried};
use crate::machine::Machine;
use crate::session::State;

/// The state that the device wishes its session to be in.
#[derive(Clone, Copy, PartialEq, Eq)]
pub enum Wish {
    Rest,
    Ready,
    Visible,
    Focused,
}

#[derive(Clone, Copy)]
pub enum DeviceEvent {
    Clock(i64),
    Grid { base: i64, period: i64 },
    Wish(Wish),
    Loss,
    Lost,
    Stage(bool),
    Mark(u8),
    Await(u8),
}

/// What the device has told of itself, times in ns.
pub struct Device {
    pub clock: i64,
    pub base: i64,
    pub period: i64,
    pub wish: Wish,
    pub has_stage: bool,
}

impl Device {
    pub fn new() -> Device {
        Device { clock: 0, base: 0, period: 11_111_111, wish: Wish::Rest, has_stage: false }
    }

    /// The least time of the grid that is later than this one and the clock.
    pub fn predict(&self, last: i64) -> i64 {
        let time = last.max(self.clock);
        if time < self.base {
            self.base
        } else {
            time.saturating_add(self.period - (time - self.base) % self.period)
        }
    }
}

impl Machine {
    pub fn device_event(&mut self, event: DeviceEvent) -> Tried {
        match event {
            DeviceEvent::Clock(time) => self.device.clock = self.device.clock.max(time),
            DeviceEvent::Grid { base, period } => {
                self.device.base = base;
                self.device.period = period;
            }
            DeviceEvent::Wish(wish) => {
                self.device.wish = wish;
                self.settle();
            }
            DeviceEvent::Loss => self.lose(),
            DeviceEvent::Lost => {
                if let Some(session) = &mut self.session {
                    session.is_lost = true;
                }
            }
            DeviceEvent::Stage(on) => self.device.has_stage = on,
            DeviceEvent::Mark(mark) => self.set_mark(mark, 0),
            DeviceEvent::Await(mark) if !self.is_marked(mark) => return Err(Stop::Waits),
            DeviceEvent::Await(_) => {}
        }
        Ok((Code::Success, Gives::Nothing))
    }

    /// The loss of the live session is pending.
    fn lose(&mut self) {
        if let (Some(session), Some(instance)) = (&mut self.session, &mut self.instance) {
            if session.state != State::LossPending {
                session.enter(State::LossPending, |event| instance.tell(event));
            }
        }
    }
}
