//! A plain program, without contracts or proofs, that does what `xrsim load N` does: it makes the scenario of N
//! frames, runs it on a machine by the rules of docs/MACHINE.md, and prints its summary. `bench/load` measures
//! xrsim beside it.
//!
//! It knows the calls that a load makes, and answers each by all of its refusals, in their order. Nothing is ever
//! destroyed, no event is polled and no input described. It keeps each call with its reply, and each frame that was
//! shown, until the end. It is built by `rustc -O --edition 2021 load.rs`.

// The summary prints a part of what is kept for a report.
#![allow(dead_code)]

mod code;
mod device;
mod frames;
mod images;
mod machine;
mod ops;
mod run;
mod session;
mod summary;

use std::io::Write;
use std::process::ExitCode;

const MOST_FRAMES: u32 = 200_000;

/// The number of frames of the words `load N`.
fn frames_of(words: &[String]) -> Option<u32> {
    match words {
        [load, number] if load == "load" => {
            number.parse().ok().filter(|frames| (1..=MOST_FRAMES).contains(frames))
        }
        _ => None,
    }
}

fn main() -> ExitCode {
    let words: Vec<String> = std::env::args().skip(1).collect();
    let Some(frames) = frames_of(&words) else {
        eprintln!("usage: load N, from 1 to {MOST_FRAMES}");
        return ExitCode::from(1);
    };
    let scenario = ops::load(frames);
    // All of the lists is kept until here, as for a report.
    let lists = std::hint::black_box(run::run(&scenario));
    let written =
        summary::summary(frames, &lists).map(|text| std::io::stdout().write_all(text.as_bytes()));
    match written {
        Ok(Ok(())) => ExitCode::from(summary::status(&lists)),
        _ => ExitCode::from(8),
    }
}
