//! The machine: what a core keeps, and the calls that make an instance and a session.

use crate::code::{Code, Gives, Reply, Stop, Tried};
use crate::device::Device;
use crate::frames::Frame;
use crate::images::{Cell, Image, MOST_IMAGES};
use crate::ops::{Form, RefKind, View};
use crate::session::{usable, Event, Session, Space, State};
use std::collections::VecDeque;

const MOST_EVENTS: usize = 32;
const MOST_SPACES: usize = 64;
const MOST_MARKS: usize = 64;

/// The one system there is.
const SYSTEM: u64 = 1;

/// The instance, its events that wait, and how many were dropped.
pub struct Instance {
    handle: u64,
    events: VecDeque<Event>,
    lost_events: u64,
}

impl Instance {
    /// An event more; a full queue drops its oldest.
    pub fn tell(&mut self, event: Event) {
        if self.events.len() == MOST_EVENTS {
            self.events.pop_front();
            self.lost_events = self.lost_events.saturating_add(1);
        }
        self.events.push_back(event);
    }
}

/// How many handles were given in the run.
#[derive(Default)]
pub struct Handles(u64);

impl Handles {
    /// A new handle, the count that it makes.
    pub fn give(&mut self) -> u64 {
        self.0 += 1;
        self.0
    }
}

pub struct Machine {
    /// How many locked calls were decided.
    calls: u64,
    pub handles: Handles,
    pub instance: Option<Instance>,
    /// The session below it, and how many were created in the run.
    pub session: Option<Session>,
    sessions: u64,
    /// The frames that were ended and not taken, the oldest first, and how many were ended in the run.
    pub pending: VecDeque<Frame>,
    pub ended: u64,
    /// The images of the frame taken last that are not given back.
    pub held: VecDeque<Image>,
    pub cells: [Cell; MOST_IMAGES],
    marks: [Option<u64>; MOST_MARKS + 1],
    pub left: Vec<bool>,
    pub device: Device,
}

impl Machine {
    pub fn new(applications: usize) -> Machine {
        Machine {
            calls: 0,
            handles: Handles::default(),
            instance: None,
            session: None,
            sessions: 0,
            pending: VecDeque::new(),
            ended: 0,
            held: VecDeque::new(),
            cells: [Cell::default(); MOST_IMAGES],
            marks: [None; MOST_MARKS + 1],
            left: vec![false; applications],
            device: Device::new(),
        }
    }

    pub fn calls(&self) -> u64 {
        self.calls
    }

    /// A reply, which counts its call.
    pub fn reply(&mut self, code: Code, gives: Gives) -> Reply {
        self.calls += 1;
        Reply { code, gives, place: self.calls }
    }

    /// The reply to a call, or nothing where it has to wait.
    pub fn answer(&mut self, tried: Tried) -> Option<Reply> {
        match tried {
            Ok((code, gives)) => Some(self.reply(code, gives)),
            Err(Stop::Refused(code)) => Some(self.reply(code, Gives::Nothing)),
            Err(Stop::Waits) => None,
        }
    }

    fn live_instance(&self, handle: u64) -> Result<(), Code> {
        match &self.instance {
            Some(instance) if instance.handle == handle => Ok(()),
            _ => Err(Code::HandleInvalid),
        }
    }

    /// The session follows the wish.
    pub fn settle(&mut self) {
        if let (Some(session), Some(instance)) = (&mut self.session, &mut self.instance) {
            session.settle(self.device.wish, |event| instance.tell(event));
        }
    }

    /// The session enters a state, and follows the wish from there.
    pub fn enter(&mut self, state: State) {
        if let (Some(session), Some(instance)) = (&mut self.session, &mut self.instance) {
            session.enter(state, |event| instance.tell(event));
        }
        self.settle();
    }

    pub fn create_instance(&mut self, major: u32, minor: u32) -> Tried {
        if (major, minor) != (1, 0) {
            return Err(Code::ApiVersionUnsupported.into());
        }
        if self.instance.is_some() {
            return Err(Code::LimitReached.into());
        }
        let handle = self.handles.give();
        self.instance = Some(Instance { handle, events: VecDeque::new(), lost_events: 0 });
        Ok((Code::Success, Gives::Handle(handle)))
    }

    pub fn get_system(&mut self, instance: u64, form: Form) -> Tried {
        self.live_instance(instance)?;
        match form {
            Form::Head => Ok((Code::Success, Gives::Number(SYSTEM))),
            Form::Hand => Err(Code::FormFactorUnsupported.into()),
        }
    }

    pub fn create_session(&mut self, instance: u64, system: u64) -> Tried {
        self.live_instance(instance)?;
        if system != SYSTEM {
            return Err(Code::SystemInvalid.into());
        }
        if self.session.is_some() {
            return Err(Code::LimitReached.into());
        }
        let handle = self.handles.give();
        self.sessions += 1;
        self.session = Some(Session::new(handle, self.sessions));
        self.enter(State::Idle);
        Ok((Code::Success, Gives::Handle(handle)))
    }

    pub fn create_reference_space(&mut self, session: u64, kind: RefKind, offset: u64) -> Tried {
        let session = usable(&mut self.session, session)?;
        if matches!(kind, RefKind::Stage) && !self.device.has_stage {
            return Err(Code::ReferenceSpaceUnsupported.into());
        }
        if offset == 0 {
            return Err(Code::PoseInvalid.into());
        }
        if session.spaces.len() == MOST_SPACES {
            return Err(Code::LimitReached.into());
        }
        let handle = self.handles.give();
        session.spaces.push(Space { handle, kind, offset });
        Ok((session.success(), Gives::Handle(handle)))
    }

    pub fn begin_session(&mut self, session: u64, view: View) -> Tried {
        let session = usable(&mut self.session, session)?;
        if session.is_running {
            return Err(Code::SessionRunning.into());
        }
        if session.state != State::Ready {
            return Err(Code::SessionNotReady.into());
        }
        if matches!(view, View::Mono) {
            return Err(Code::ViewConfigurationTypeUnsupported.into());
        }
        session.is_running = true;
        session.frames.has_waited = false;
        session.frames.has_begun = false;
        Ok((session.success(), Gives::Nothing))
    }

    pub fn set_mark(&mut self, mark: u8, value: u64) {
        self.marks[usize::from(mark)] = Some(value);
    }

    pub fn is_marked(&self, mark: u8) -> bool {
        self.marks[usize::from(mark)].is_some()
    }

    pub fn mark(&mut self, mark: u8, value: u64) -> Tried {
        self.set_mark(mark, value);
        Ok((Code::Success, Gives::Nothing))
    }

    pub fn await_mark(&mut self, mark: u8) -> Tried {
        match self.marks[usize::from(mark)] {
            Some(value) => Ok((Code::Success, Gives::Number(value))),
            None => Err(Stop::Waits),
        }
    }

    pub fn leave(&mut self, application: usize) -> Reply {
        self.left[application] = true;
        self.reply(Code::Success, Gives::Nothing)
    }
}
