//! The round robin: a turn to each script, the device and the compositor, until nobody can go on.

use crate::code::{CallName, Reply, Tried};
use crate::device::DeviceEvent;
use crate::frames::Shown;
use crate::machine::Machine;
use crate::ops::{Layer, Op, Scenario, SubImage, Use};

/// A call that was made: its place from 1, the mark of an `await` and the start of a `wait_image`, else 0.
pub struct Made {
    pub op: u32,
    pub name: CallName,
    pub mark: u8,
    pub start: i64,
    pub reply: Reply,
}

/// Who can't go on: the op's place and name, of the device the mark that it awaits.
pub enum Waiting {
    Script { number: usize, op: u32, name: CallName },
    Device { mark: u8 },
    Compositor,
}

/// What a run has made, as a report would print it.
pub struct Lists {
    pub applications: Vec<Vec<Made>>,
    pub device: Vec<Made>,
    pub events: Vec<DeviceEvent>,
    pub frames: Vec<Shown>,
    pub shown: Vec<Reply>,
    /// How many locked calls came before each image that was given back.
    pub done: Vec<u64>,
    pub ended: Option<Reply>,
    pub next: Vec<Waiting>,
}

/// An application: its script, its calls, one for each op and `leave`, the clock after the last, and whether it left.
struct Application<'a> {
    ops: &'a [Op],
    calls: Vec<Made>,
    clock: i64,
    has_left: bool,
}

impl<'a> Application<'a> {
    fn new(ops: &'a [Op]) -> Application<'a> {
        let calls = Vec::with_capacity(ops.len() + 1);
        Application { ops, calls, clock: 0, has_left: false }
    }

    /// What a field stands for: a handle, a system or a mark's value.
    fn value(&self, field: Use) -> u64 {
        match field {
            Use::Number(n) => n.max(0) as u64,
            Use::Of(place) => self.calls[place as usize - 1].reply.gives.value(),
        }
    }

    fn time(&self, field: Use) -> i64 {
        match field {
            Use::Number(n) => n,
            Use::Of(_) => self.value(field).min(i64::MAX as u64) as i64,
        }
    }

    fn part(&self, part: &SubImage<Use>) -> SubImage<u64> {
        let SubImage { chain, x, y, w, h } = *part;
        SubImage { chain: self.value(chain), x, y, w, h }
    }

    fn layer(&self, layer: &Layer<Use>) -> Layer<u64> {
        match layer {
            Layer::Projection { space, views } => Layer::Projection {
                space: self.value(*space),
                views: views.iter().map(|view| self.part(view)).collect(),
            },
            Layer::Quad { space, image, pose } => {
                Layer::Quad { space: self.value(*space), image: self.part(image), pose: *pose }
            }
        }
    }

    /// Makes the call of an op.
    fn try_op(&self, machine: &mut Machine, layers: &mut Vec<Layer<u64>>, op: &Op) -> Tried {
        let value = |field| self.value(field);
        match *op {
            Op::CreateInstance { major, minor } => machine.create_instance(major, minor),
            Op::GetSystem { instance, form } => machine.get_system(value(instance), form),
            Op::CreateSession { instance, system } => {
                machine.create_session(value(instance), value(system))
            }
            Op::CreateReferenceSpace { session, kind, offset } => {
                machine.create_reference_space(value(session), kind, offset)
            }
            Op::CreateSwapchain { session, format, width, height, fixed } => {
                machine.create_swapchain(value(session), format, width, height, fixed)
            }
            Op::BeginSession { session, view } => machine.begin_session(value(session), view),
            Op::WaitFrame { session } => machine.wait_frame(value(session)),
            Op::BeginFrame { session } => machine.begin_frame(value(session)),
            Op::EndFrame { session, time, blend, layers: ref list } => {
                layers.clear();
                layers.extend(list.iter().map(|layer| self.layer(layer)));
                machine.end_frame(value(session), self.time(time), blend, layers)
            }
            Op::AcquireImage { chain } => machine.acquire_image(value(chain)),
            Op::WaitImage { chain, timeout } => {
                machine.wait_image(value(chain), timeout, self.clock)
            }
            Op::Paint { chain, stamp } => machine.paint(value(chain), stamp),
            Op::ReleaseImage { chain } => machine.release_image(value(chain)),
            Op::Mark { mark, value: field } => machine.mark(mark, value(field)),
            Op::Await { mark } => machine.await_mark(mark),
        }
    }

    fn keep(&mut self, name: CallName, mark: u8, start: i64, reply: Reply) {
        let op = self.calls.len() as u32 + 1;
        self.calls.push(Made { op, name, mark, start, reply });
    }

    /// A turn; whether a call was made.
    fn turn(&mut self, machine: &mut Machine, layers: &mut Vec<Layer<u64>>, number: usize) -> bool {
        if self.has_left {
            return false;
        }
        let Some(op) = self.ops.get(self.calls.len()) else {
            let reply = machine.leave(number);
            self.keep(CallName::Leave, 0, 0, reply);
            self.has_left = true;
            return true;
        };
        let tried = self.try_op(machine, layers, op);
        let Some(reply) = machine.answer(tried) else {
            return false;
        };
        let (mark, start) = match *op {
            Op::Await { mark } => (mark, 0),
            Op::WaitImage { .. } => (0, self.clock),
            _ => (0, 0),
        };
        self.keep(op.name(), mark, start, reply);
        self.clock = machine.device.clock;
        true
    }

    /// The next call, unless it has left.
    fn next(&self, number: usize) -> Option<Waiting> {
        if self.has_left {
            return None;
        }
        let place = self.calls.len();
        let name = self.ops.get(place).map_or(CallName::Leave, Op::name);
        Some(Waiting::Script { number, op: place as u32 + 1, name })
    }
}

/// The device: its events, and the calls of those that happened.
struct Side<'a> {
    events: &'a [DeviceEvent],
    calls: Vec<Made>,
}

impl Side<'_> {
    fn turn(&mut self, machine: &mut Machine) -> bool {
        let Some(&event) = self.events.get(self.calls.len()) else {
            return false;
        };
        let tried = machine.device_event(event);
        let Some(reply) = machine.answer(tried) else {
            return false;
        };
        let op = self.calls.len() as u32 + 1;
        self.calls.push(Made { op, name: CallName::Device, mark: 0, start: 0, reply });
        true
    }

    fn next(&self) -> Option<Waiting> {
        match self.events.get(self.calls.len())? {
            DeviceEvent::Await(mark) => Some(Waiting::Device { mark: *mark }),
            _ => None,
        }
    }
}

/// The compositor: the frames that it was shown, with its replies, and what it gave back.
#[derive(Default)]
struct Compositor {
    frames: Vec<Shown>,
    shown: Vec<Reply>,
    done: Vec<u64>,
    ended: Option<Reply>,
}

impl Compositor {
    fn turn(&mut self, machine: &mut Machine) -> bool {
        if self.ended.is_some() {
            return false;
        }
        if !machine.held.is_empty() {
            self.done.push(machine.calls());
            machine.image_done();
            return true;
        }
        match machine.next_frame() {
            Some((reply, Some(frame))) => {
                self.frames.push(frame);
                self.shown.push(reply);
            }
            Some((reply, None)) => self.ended = Some(reply),
            None => return false,
        }
        true
    }
}

/// The next calls of those that aren't done.
fn waiting(scripts: &[Application], side: &Side, compositor: &Compositor) -> Vec<Waiting> {
    let mut next: Vec<Waiting> = Vec::new();
    for (number, script) in scripts.iter().enumerate() {
        next.extend(script.next(number));
    }
    next.extend(side.next());
    if compositor.ended.is_none() {
        next.push(Waiting::Compositor);
    }
    next
}

/// Runs a scenario until nobody can go on.
pub fn run(scenario: &Scenario) -> Lists {
    let mut machine = Machine::new(scenario.scripts.len());
    let mut scripts: Vec<Application> =
        scenario.scripts.iter().map(|ops| Application::new(ops)).collect();
    let mut side = Side { events: &scenario.events, calls: Vec::new() };
    let mut compositor = Compositor::default();
    let mut layers = Vec::new();
    let mut goes_on = true;
    while goes_on {
        goes_on = false;
        for (number, script) in scripts.iter_mut().enumerate() {
            goes_on |= script.turn(&mut machine, &mut layers, number);
        }
        goes_on |= side.turn(&mut machine);
        goes_on |= compositor.turn(&mut machine);
    }
    Lists {
        next: waiting(&scripts, &side, &compositor),
        applications: scripts.into_iter().map(|script| script.calls).collect(),
        events: side.events[..side.calls.len()].to_vec(),
        device: side.calls,
        frames: compositor.frames,
        shown: compositor.shown,
        done: compositor.done,
        ended: compositor.ended,
    }
}
