//! The summary of a load: counts of its calls by their results, and what was shown.

use crate::code::CODE_NAMES;
use crate::frames::{Shown, ShownLayer};
use crate::run::{Lists, Made};
use std::fmt::Write;

/// How many of these calls had each result.
fn counts(calls: &[Made]) -> [usize; CODE_NAMES.len()] {
    let mut counts = [0; CODE_NAMES.len()];
    for made in calls {
        counts[made.reply.code as usize] += 1;
    }
    counts
}

/// The sum of the stamps of all layers, modulo 2^64.
fn stamps(frames: &[Shown]) -> u64 {
    let mut sum: u64 = 0;
    for layer in frames.iter().flat_map(|frame| &frame.layers) {
        sum = sum.wrapping_add(match *layer {
            ShownLayer::Projection(left, right) => left.wrapping_add(right),
            ShownLayer::Quad(stamp) => stamp,
        });
    }
    sum
}

/// The exit status of a run: 7 where it was stuck.
pub fn status(lists: &Lists) -> u8 {
    if lists.next.is_empty() {
        0
    } else {
        7
    }
}

pub fn summary(frames: u32, lists: &Lists) -> Result<String, std::fmt::Error> {
    let mut text = String::new();
    let calls = lists.applications.first().map_or(&[][..], Vec::as_slice);
    writeln!(text, "xrsim load {frames}")?;
    writeln!(text, "calls {}", calls.len())?;
    for (name, count) in CODE_NAMES.iter().zip(counts(calls)) {
        if count > 0 {
            writeln!(text, "{name} {count}")?;
        }
    }
    writeln!(text, "frames {}", lists.frames.len())?;
    writeln!(text, "stamps {}", stamps(&lists.frames))?;
    writeln!(text, "last time {}", lists.frames.last().map_or(0, |frame| frame.time))?;
    writeln!(text, "status {}", status(lists))?;
    Ok(text)
}
