//! Frames: waited for, begun and ended with layers, and shown by the compositor.

use crate::code::{Code, FrameState, Gives, Reply, Stop, Tried};
use crate::images::Image;
use crate::machine::Machine;
use crate::ops::{Blend, Layer, SubImage};
use crate::session::{running, Session, State};

const MOST_LAYERS: usize = 16;

/// A wait is held back while more frames than these are pending or begun.
const MOST_AHEAD: usize = 2;

/// A layer by its images.
enum FrameLayer {
    Projection(Image, Image),
    Quad(Image),
}

/// A frame that was ended, with the images that it uses, each once.
pub struct Frame {
    number: u64,
    time: i64,
    layers: Vec<FrameLayer>,
    images: Vec<Image>,
}

/// A layer by its images' stamps.
pub enum ShownLayer {
    Projection(u64, u64),
    Quad(u64),
}

/// A frame that the compositor is shown.
pub struct Shown {
    pub number: u64,
    pub time: i64,
    pub layers: Vec<ShownLayer>,
}

impl SubImage<u64> {
    /// It has a pixel and lies within an image of this size.
    fn is_within(&self, width: u32, height: u32) -> bool {
        self.x >= 0
            && self.y >= 0
            && self.w >= 1
            && self.h >= 1
            && i64::from(self.x) + i64::from(self.w) <= i64::from(width)
            && i64::from(self.y) + i64::from(self.h) <= i64::from(height)
    }
}

impl Session {
    /// The image that a part shows, or what refuses it.
    fn part_image(&self, part: &SubImage<u64>) -> Result<Image, Code> {
        let place = self.place_of(part.chain).ok_or(Code::HandleInvalid)?;
        let chain = &self.chains[place];
        if !part.is_within(chain.width(), chain.height()) {
            return Err(Code::SwapchainRectInvalid);
        }
        chain.last_image(place).ok_or(Code::LayerInvalid)
    }

    /// A layer by the images that it shows, or what refuses it.
    fn frame_layer(&self, layer: &Layer<u64>) -> Result<FrameLayer, Code> {
        match layer {
            Layer::Projection { space, views } => {
                self.check_space(*space)?;
                let [left, right] = views.as_slice() else {
                    return Err(Code::ValidationFailure);
                };
                let left = self.part_image(left)?;
                Ok(FrameLayer::Projection(left, self.part_image(right)?))
            }
            Layer::Quad { space, image, pose } => {
                self.check_space(*space)?;
                let image = self.part_image(image)?;
                if *pose == 0 {
                    return Err(Code::PoseInvalid);
                }
                Ok(FrameLayer::Quad(image))
            }
        }
    }

    fn check_space(&self, space: u64) -> Result<(), Code> {
        if self.has_space(space) {
            Ok(())
        } else {
            Err(Code::HandleInvalid)
        }
    }
}

/// The images of layers, each once, in the order of their first use.
fn images_of(layers: &[FrameLayer]) -> Vec<Image> {
    let mut images = Vec::with_capacity(layers.len());
    let mut add = |image| {
        if !images.contains(&image) {
            images.push(image);
        }
    };
    for layer in layers {
        match *layer {
            FrameLayer::Projection(left, right) => {
                add(left);
                add(right);
            }
            FrameLayer::Quad(image) => add(image),
        }
    }
    images
}

impl Machine {
    pub fn wait_frame(&mut self, session: u64) -> Tried {
        let session = running(&mut self.session, session)?;
        let ahead = self.pending.len() + usize::from(session.frames.has_begun);
        if session.frames.has_waited || ahead > MOST_AHEAD {
            return Err(Stop::Waits);
        }
        let time = self.device.predict(session.frames.predicted);
        session.frames.predicted = time;
        session.frames.has_waited = true;
        let render = matches!(session.state, State::Visible | State::Focused);
        let state = FrameState { time, period: self.device.period, render };
        Ok((session.success(), Gives::Frame(state)))
    }

    pub fn begin_frame(&mut self, session: u64) -> Tried {
        let session = running(&mut self.session, session)?;
        if !session.frames.has_waited {
            return Err(Code::CallOrderInvalid.into());
        }
        session.frames.has_waited = false;
        if session.frames.has_begun {
            return Ok((Code::FrameDiscarded, Gives::Nothing));
        }
        session.frames.has_begun = true;
        Ok((session.success(), Gives::Nothing))
    }

    pub fn end_frame(
        &mut self,
        session: u64,
        time: i64,
        blend: Blend,
        layers: &[Layer<u64>],
    ) -> Tried {
        let session = running(&mut self.session, session)?;
        if !session.frames.has_begun {
            return Err(Code::CallOrderInvalid.into());
        }
        if time <= 0 {
            return Err(Code::TimeInvalid.into());
        }
        if !matches!(blend, Blend::Opaque) {
            return Err(Code::EnvironmentBlendModeUnsupported.into());
        }
        if layers.len() > MOST_LAYERS {
            return Err(Code::LayerLimitExceeded.into());
        }
        let mut shown = Vec::with_capacity(layers.len());
        for layer in layers {
            shown.push(session.frame_layer(layer)?);
        }
        session.frames.has_begun = false;
        let success = session.success();
        let is_first = session.state == State::Ready;
        self.submit(time, shown);
        if is_first {
            self.enter(State::Synchronized);
        }
        Ok((success, Gives::Nothing))
    }

    /// A frame more is pending, and uses its images.
    fn submit(&mut self, time: i64, layers: Vec<FrameLayer>) {
        let images = images_of(&layers);
        for image in &images {
            self.cells[image.number()].uses += 1;
        }
        self.ended += 1;
        self.pending.push_back(Frame { number: self.ended, time, layers, images });
    }

    fn stamp(&self, image: Image) -> u64 {
        self.cells[image.number()].stamp
    }

    /// A frame is shown, and its images are held.
    fn show(&mut self, frame: Frame) -> Shown {
        let shown = |layer: &FrameLayer| match *layer {
            FrameLayer::Projection(left, right) => {
                ShownLayer::Projection(self.stamp(left), self.stamp(right))
            }
            FrameLayer::Quad(image) => ShownLayer::Quad(self.stamp(image)),
        };
        let layers = frame.layers.iter().map(shown).collect();
        self.held = frame.images.into();
        Shown { number: frame.number, time: frame.time, layers }
    }

    /// The compositor's call: the oldest pending frame, or the end, or nothing where it has to wait.
    pub fn next_frame(&mut self) -> Option<(Reply, Option<Shown>)> {
        if !self.held.is_empty() {
            return Some((self.reply(Code::CallOrderInvalid, Gives::Nothing), None));
        }
        match self.pending.pop_front() {
            Some(frame) => {
                let shown = self.show(frame);
                Some((self.reply(Code::Success, Gives::Shown), Some(shown)))
            }
            None if self.left.iter().all(|&left| left) => {
                Some((self.reply(Code::Success, Gives::Ended), None))
            }
            None => None,
        }
    }

    /// The compositor gives back the image that it has held longest. Its reply isn't counted.
    pub fn image_done(&mut self) -> Reply {
        let code = match self.held.pop_front() {
            Some(image) => {
                self.cells[image.number()].uses -= 1;
                Code::Success
            }
            None => Code::CallOrderInvalid,
        };
        Reply { code, gives: Gives::Nothing, place: 0 }
    }
}
