//! The ops of scripts, and the load: the scenario that is made from a number of frames.

use crate::code::CallName;
use crate::device::{DeviceEvent, Wish};

/// A value of an op: a number, or what the op at this place of the script, from 1, gave.
#[derive(Clone, Copy)]
pub enum Use {
    Number(i64),
    Of(u32),
}

#[derive(Clone, Copy)]
pub enum Form {
    Head,
    Hand,
}

#[derive(Clone, Copy)]
pub enum View {
    Mono,
    Stereo,
}

#[derive(Clone, Copy)]
pub enum RefKind {
    View,
    Local,
    Stage,
}

#[derive(Clone, Copy)]
pub enum Blend {
    Opaque,
    Additive,
    Alpha,
}

/// A part of a swapchain's image, in pixels. The swapchain is a value of an op, or a handle.
#[derive(Clone, Copy)]
pub struct SubImage<H> {
    pub chain: H,
    pub x: i32,
    pub y: i32,
    pub w: i32,
    pub h: i32,
}

/// A layer of a frame.
pub enum Layer<H> {
    Projection { space: H, views: Vec<SubImage<H>> },
    Quad { space: H, image: SubImage<H>, pose: u64 },
}

/// An op of a script: those that a load has, and `mark`.
pub enum Op {
    CreateInstance { major: u32, minor: u32 },
    GetSystem { instance: Use, form: Form },
    CreateSession { instance: Use, system: Use },
    CreateReferenceSpace { session: Use, kind: RefKind, offset: u64 },
    CreateSwapchain { session: Use, format: u64, width: u32, height: u32, fixed: bool },
    BeginSession { session: Use, view: View },
    WaitFrame { session: Use },
    BeginFrame { session: Use },
    EndFrame { session: Use, time: Use, blend: Blend, layers: Vec<Layer<Use>> },
    AcquireImage { chain: Use },
    WaitImage { chain: Use, timeout: i64 },
    Paint { chain: Use, stamp: u64 },
    ReleaseImage { chain: Use },
    Mark { mark: u8, value: Use },
    Await { mark: u8 },
}

impl Op {
    pub fn name(&self) -> CallName {
        match self {
            Op::CreateInstance { .. } => CallName::CreateInstance,
            Op::GetSystem { .. } => CallName::GetSystem,
            Op::CreateSession { .. } => CallName::CreateSession,
            Op::CreateReferenceSpace { .. } => CallName::CreateReferenceSpace,
            Op::CreateSwapchain { .. } => CallName::CreateSwapchain,
            Op::BeginSession { .. } => CallName::BeginSession,
            Op::WaitFrame { .. } => CallName::WaitFrame,
            Op::BeginFrame { .. } => CallName::BeginFrame,
            Op::EndFrame { .. } => CallName::EndFrame,
            Op::AcquireImage { .. } => CallName::AcquireImage,
            Op::WaitImage { .. } => CallName::WaitImage,
            Op::Paint { .. } => CallName::Paint,
            Op::ReleaseImage { .. } => CallName::ReleaseImage,
            Op::Mark { .. } => CallName::Mark,
            Op::Await { .. } => CallName::Await,
        }
    }
}

/// Scripts, and what the device tells beside them.
pub struct Scenario {
    pub scripts: Vec<Vec<Op>>,
    pub events: Vec<DeviceEvent>,
}

// What the ops at these places of a load give.
const INSTANCE: Use = Use::Of(2);
const SYSTEM: Use = Use::Of(3);
const SESSION: Use = Use::Of(4);
const SPACE: Use = Use::Of(5);
const CHAIN: Use = Use::Of(6);

/// A session with a space and a swapchain is made and begun.
fn opening() -> [Op; 7] {
    [
        Op::Await { mark: 1 },
        Op::CreateInstance { major: 1, minor: 0 },
        Op::GetSystem { instance: INSTANCE, form: Form::Head },
        Op::CreateSession { instance: INSTANCE, system: SYSTEM },
        Op::CreateReferenceSpace { session: SESSION, kind: RefKind::Local, offset: 1 },
        Op::CreateSwapchain { session: SESSION, format: 1, width: 64, height: 64, fixed: false },
        Op::BeginSession { session: SESSION, view: View::Stereo },
    ]
}

fn end_frame(time: Use, layers: Vec<Layer<Use>>) -> Op {
    Op::EndFrame { session: SESSION, time, blend: Blend::Opaque, layers }
}

/// A quad of the whole image.
fn whole_quad() -> Layer<Use> {
    let image = SubImage { chain: CHAIN, x: 0, y: 0, w: 64, h: 64 };
    Layer::Quad { space: SPACE, image, pose: 1 }
}

/// The ops of a frame. Each tenth is begun twice, and each seventh is first ended at a wrong time.
fn push_frame(ops: &mut Vec<Op>, number: u32) {
    let rounds = if number % 10 == 0 { 2 } else { 1 };
    for _ in 0..rounds {
        ops.push(Op::WaitFrame { session: SESSION });
        ops.push(Op::BeginFrame { session: SESSION });
    }
    let last_wait = ops.len() as u32 - 1;
    ops.push(Op::AcquireImage { chain: CHAIN });
    ops.push(Op::WaitImage { chain: CHAIN, timeout: i64::MAX });
    ops.push(Op::Paint { chain: CHAIN, stamp: u64::from(number) });
    ops.push(Op::ReleaseImage { chain: CHAIN });
    if number % 7 == 0 {
        ops.push(end_frame(Use::Number(0), Vec::new()));
    }
    ops.push(end_frame(Use::Of(last_wait), vec![whole_quad()]));
}

/// The scenario of a load of so many frames.
pub fn load(frames: u32) -> Scenario {
    let n = frames as usize;
    let mut ops = Vec::with_capacity(7 + 7 * n + 2 * (n / 10) + n / 7);
    ops.extend(opening());
    for number in 1..=frames {
        push_frame(&mut ops, number);
    }
    Scenario {
        scripts: vec![ops],
        events: vec![DeviceEvent::Wish(Wish::Focused), DeviceEvent::Mark(1)],
    }
}
