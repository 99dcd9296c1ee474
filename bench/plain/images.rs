//! Swapchains and their images.

use crate::code::{Code, Gives, Stop, Tried};
use crate::machine::Machine;
use crate::session::{usable, Session};
use std::collections::VecDeque;

const MOST_CHAINS: usize = 16;
const CHAIN_IMAGES: u8 = 3;

/// How many images there are: three for each place of a swapchain.
pub const MOST_IMAGES: usize = MOST_CHAINS * CHAIN_IMAGES as usize;

/// The most pixels on a side.
const MOST_SIZE: u32 = 8192;

/// An image, by its number among all.
#[derive(Clone, Copy, PartialEq, Eq)]
pub struct Image(u8);

impl Image {
    /// The image of an index of the swapchain at a place.
    fn at(place: usize, index: u8) -> Image {
        Image(place as u8 * CHAIN_IMAGES + index)
    }

    pub fn number(self) -> usize {
        usize::from(self.0)
    }
}

/// The content of an image, and how many pending frames use it, with one more where the compositor holds it.
#[derive(Clone, Copy, Default)]
pub struct Cell {
    pub stamp: u64,
    pub uses: u8,
}

pub struct Swapchain {
    handle: u64,
    width: u32,
    height: u32,
    is_static: bool,
    /// The indices that are acquired, the oldest first, and whether that one was waited for.
    acquired: VecDeque<u8>,
    has_waited: bool,
    /// The index that was released last and isn't acquired again, and the one that is acquired next.
    last: Option<u8>,
    next: u8,
}

impl Swapchain {
    pub fn handle(&self) -> u64 {
        self.handle
    }

    pub fn width(&self) -> u32 {
        self.width
    }

    pub fn height(&self) -> u32 {
        self.height
    }

    /// The image that a frame shows, of the swapchain at this place.
    pub fn last_image(&self, place: usize) -> Option<Image> {
        self.last.map(|index| Image::at(place, index))
    }

    /// No image is left to be acquired.
    fn is_used_up(&self) -> bool {
        if self.is_static {
            self.next != 0
        } else {
            self.acquired.len() == usize::from(CHAIN_IMAGES)
        }
    }

    fn acquire(&mut self) -> u8 {
        let index = self.next;
        self.acquired.push_back(index);
        self.next = if self.is_static { 1 } else { (index + 1) % CHAIN_IMAGES };
        if self.last == Some(index) {
            self.last = None;
        }
        index
    }

    /// The oldest acquired index, if it was waited for.
    fn waited(&self) -> Option<u8> {
        self.acquired.front().copied().filter(|_| self.has_waited)
    }
}

/// The live swapchain of a handle and its place, unless its session is lost; and what a success answers.
fn usable_chain(
    session: &mut Option<Session>,
    chain: u64,
) -> Result<(usize, &mut Swapchain, Code), Code> {
    let session = session.as_mut().ok_or(Code::HandleInvalid)?;
    let place = session.place_of(chain).ok_or(Code::HandleInvalid)?;
    if session.is_lost {
        return Err(Code::SessionLost);
    }
    let success = session.success();
    Ok((place, &mut session.chains[place], success))
}

impl Session {
    pub fn place_of(&self, chain: u64) -> Option<usize> {
        self.chains.iter().position(|c| c.handle == chain)
    }
}

impl Machine {
    pub fn create_swapchain(
        &mut self,
        session: u64,
        format: u64,
        width: u32,
        height: u32,
        is_static: bool,
    ) -> Tried {
        let session = usable(&mut self.session, session)?;
        if !(1..=3).contains(&format) {
            return Err(Code::SwapchainFormatUnsupported.into());
        }
        if !(1..=MOST_SIZE).contains(&width) || !(1..=MOST_SIZE).contains(&height) {
            return Err(Code::ValidationFailure.into());
        }
        if session.chains.len() == MOST_CHAINS {
            return Err(Code::LimitReached.into());
        }
        let handle = self.handles.give();
        session.chains.push(Swapchain {
            handle,
            width,
            height,
            is_static,
            acquired: VecDeque::with_capacity(usize::from(CHAIN_IMAGES)),
            has_waited: false,
            last: None,
            next: 0,
        });
        Ok((session.success(), Gives::Handle(handle)))
    }

    pub fn acquire_image(&mut self, chain: u64) -> Tried {
        let (_, chain, success) = usable_chain(&mut self.session, chain)?;
        if chain.is_used_up() {
            return Err(Code::CallOrderInvalid.into());
        }
        let index = chain.acquire();
        Ok((success, Gives::Number(u64::from(index))))
    }

    /// Waits while the image is used, until the timeout has passed since the start.
    pub fn wait_image(&mut self, chain: u64, timeout: i64, start: i64) -> Tried {
        let (place, chain, success) = usable_chain(&mut self.session, chain)?;
        let oldest = match chain.acquired.front() {
            Some(&index) if !chain.has_waited => index,
            _ => return Err(Code::CallOrderInvalid.into()),
        };
        if self.cells[Image::at(place, oldest).number()].uses > 0 {
            let is_up = timeout != i64::MAX && self.device.clock - start >= timeout;
            return Err(if is_up { Code::TimeoutExpired.into() } else { Stop::Waits });
        }
        chain.has_waited = true;
        Ok((success, Gives::Nothing))
    }

    pub fn paint(&mut self, chain: u64, stamp: u64) -> Tried {
        let (place, chain, success) = usable_chain(&mut self.session, chain)?;
        let index = chain.waited().ok_or(Code::CallOrderInvalid)?;
        self.cells[Image::at(place, index).number()].stamp = stamp;
        Ok((success, Gives::Nothing))
    }

    pub fn release_image(&mut self, chain: u64) -> Tried {
        let (_, chain, success) = usable_chain(&mut self.session, chain)?;
        let index = chain.waited().ok_or(Code::CallOrderInvalid)?;
        chain.acquired.pop_front();
        chain.has_waited = false;
        chain.last = Some(index);
        Ok((success, Gives::Nothing))
    }
}
