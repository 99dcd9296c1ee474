//! A session: its state, its frame loop, and what stands under it.

use crate::code::Code;
use crate::device::Wish;
use crate::images::Swapchain;
use crate::ops::RefKind;

/// XrSessionState. No call of a load asks for an exit, so EXITING never comes.
#[derive(Clone, Copy, PartialEq, Eq)]
pub enum State {
    Idle,
    Ready,
    Synchronized,
    Visible,
    Focused,
    Stopping,
    LossPending,
}

/// A session is in this state from here on.
#[derive(Clone, Copy)]
pub struct Event {
    pub ordinal: u64,
    pub session: u64,
    pub state: State,
}

pub struct Space {
    pub handle: u64,
    pub kind: RefKind,
    pub offset: u64,
}

/// The time predicted last, whether a frame is waited for, and whether one is begun.
#[derive(Default)]
pub struct FrameLoop {
    pub predicted: i64,
    pub has_waited: bool,
    pub has_begun: bool,
}

pub struct Session {
    pub handle: u64,
    pub ordinal: u64,
    pub state: State,
    pub is_running: bool,
    pub is_lost: bool,
    pub frames: FrameLoop,
    pub spaces: Vec<Space>,
    pub chains: Vec<Swapchain>,
}

/// Where the wish takes a session from a state, if it does.
fn next_state(state: State, wish: Wish) -> Option<State> {
    match (state, wish) {
        (State::Idle, Wish::Rest) => None,
        (State::Idle, _) => Some(State::Ready),
        (State::Synchronized, Wish::Rest) => Some(State::Stopping),
        (State::Synchronized, Wish::Visible | Wish::Focused) => Some(State::Visible),
        (State::Visible, Wish::Rest | Wish::Ready) => Some(State::Synchronized),
        (State::Visible, Wish::Focused) => Some(State::Focused),
        (State::Focused, Wish::Rest | Wish::Ready | Wish::Visible) => Some(State::Visible),
        _ => None,
    }
}

impl Session {
    pub fn new(handle: u64, ordinal: u64) -> Session {
        Session {
            handle,
            ordinal,
            state: State::Idle,
            is_running: false,
            is_lost: false,
            frames: FrameLoop::default(),
            spaces: Vec::new(),
            chains: Vec::new(),
        }
    }

    /// What a plain success answers: a pending loss is told.
    pub fn success(&self) -> Code {
        if self.state == State::LossPending {
            Code::SessionLossPending
        } else {
            Code::Success
        }
    }

    pub fn has_space(&self, handle: u64) -> bool {
        self.spaces.iter().any(|space| space.handle == handle)
    }

    /// Enters a state, of which an event tells.
    pub fn enter(&mut self, state: State, mut tell: impl FnMut(Event)) {
        self.state = state;
        tell(Event { ordinal: self.ordinal, session: self.handle, state });
    }

    /// Follows the wish until no row fits.
    pub fn settle(&mut self, wish: Wish, mut tell: impl FnMut(Event)) {
        while let Some(state) = next_state(self.state, wish) {
            self.enter(state, &mut tell);
        }
    }
}

/// The live session of a handle, unless its device is lost.
pub fn usable(session: &mut Option<Session>, handle: u64) -> Result<&mut Session, Code> {
    match session {
        Some(session) if session.handle == handle => {
            if session.is_lost {
                Err(Code::SessionLost)
            } else {
                Ok(session)
            }
        }
        _ => Err(Code::HandleInvalid),
    }
}

/// The same, if it runs.
pub fn running(session: &mut Option<Session>, handle: u64) -> Result<&mut Session, Code> {
    let session = usable(session, handle)?;
    if session.is_running {
        Ok(session)
    } else {
        Err(Code::SessionNotRunning)
    }
}
