//! A plain meshing heap without proofs, for the times of `meshrun replay` and `meshrun threads`.
//!
//!     plain replay [--echo] FILE
//!     plain draw --text [--from N] [--to N] FILE
//!     plain threads FILE ROUNDS PROBE SEED
//!
//! FILE is a job file of either version. `replay` prints the answer to each line of the plan. With `--echo` it prints
//! the line, the command that a worker attempts at the line, and ` -> ` before the answer; lines and commands are
//! copied from FILE. `threads` runs each script on a thread of its own, while another thread searches and meshes ROUNDS
//! times, with at most PROBE rounds of tries in a search. It prints what `meshrun threads` prints.
//!
//! `draw` prints the lines of the plan with their answers, and after each line the heap as rows of text (`frames.rs`).
//! `--from` and `--to` name the first and the last printed line, counted from 1; by default all lines are printed.
//!
//! The status is 1 if FILE can't be read or the output fails, and 2 if the arguments or the text have a fault.
//! tools/bench/replay.sh and tools/bench/lock.sh build and run it. tools/gen/echo_golden.sh and
//! tools/gen/frames_golden.sh write golden files with it.
mod answers;
mod book;
mod class;
mod echo;
mod frames;
mod heap;
mod job;
mod mesh;
mod number_set;
mod reader;
mod replay;
mod search;
mod threads;

use echo::Echo;
use std::fs::File;
use std::io::{self, Read, Write};
use std::ops::RangeInclusive;
use std::process::ExitCode;
use threads::Meshing;

/// The greatest number of a line of the plan.
const MAX_LINES: usize = 1 << 20;

/// What ends the program without its output.
enum Failure {
    Usage,
    Device(io::Error),
    Text(reader::Fault),
}

impl From<io::Error> for Failure {
    fn from(error: io::Error) -> Failure {
        Failure::Device(error)
    }
}

/// What the arguments ask for.
enum Way {
    Replay,
    Echo,
    /// The numbers of the lines of the plan, counted from 1.
    Frames(RangeInclusive<usize>),
    Threads(Meshing),
}

fn main() -> ExitCode {
    match run() {
        Ok(()) => ExitCode::SUCCESS,
        Err(Failure::Usage) => {
            eprintln!(
                "usage: plain replay [--echo] FILE, plain draw --text [--from N] [--to N] FILE, or"
            );
            eprintln!("       plain threads FILE ROUNDS PROBE SEED");
            ExitCode::from(2)
        }
        Err(Failure::Text(fault)) => {
            eprintln!("line {}: {}", fault.line, fault.kind.name());
            ExitCode::from(2)
        }
        Err(Failure::Device(error)) => {
            eprintln!("{error}");
            ExitCode::from(1)
        }
    }
}

fn run() -> Result<(), Failure> {
    let words: Vec<String> = std::env::args().skip(1).collect();
    let (way, path) = asked(&words).ok_or(Failure::Usage)?;
    let text = read_text(path)?;
    let job = reader::read(&text).map_err(Failure::Text)?;
    let mut out = io::stdout();
    match way {
        Way::Replay => out.write_all(&replay::replayed(&job))?,
        Way::Echo => out.write_all(&replay::echoed(&job, &Echo::of(&text)))?,
        Way::Frames(shown) => replay::write_frames(&job, &Echo::of(&text), &shown, &mut out)?,
        Way::Threads(meshing) => out.write_all(&threads::run(&job, &meshing))?,
    }
    Ok(())
}

/// Reads the arguments. Returns the way and the path of the job file.
fn asked(words: &[String]) -> Option<(Way, &str)> {
    let words: Vec<&str> = words.iter().map(String::as_str).collect();
    match words[..] {
        ["replay", path] => Some((Way::Replay, path)),
        ["replay", "--echo", path] => Some((Way::Echo, path)),
        ["draw", "--text", ref options @ .., path] => Some((Way::Frames(shown(options)?), path)),
        ["threads", path, rounds, probe, seed] => {
            let meshing = Meshing {
                rounds: rounds.parse().ok()?,
                probe: probe.parse().ok()?,
                seed: seed.parse().ok()?,
            };
            Some((Way::Threads(meshing), path))
        }
        _ => None,
    }
}

/// Reads `--from N` and `--to N`, each of which may be missing. Returns the numbers of the lines to print.
fn shown(options: &[&str]) -> Option<RangeInclusive<usize>> {
    let (mut from, mut to) = (None, None);
    for option in options.chunks(2) {
        let [name, number] = option else {
            return None;
        };
        let line = match *name {
            "--from" => &mut from,
            "--to" => &mut to,
            _ => return None,
        };
        let number = number
            .parse()
            .ok()
            .filter(|n| (1..=MAX_LINES).contains(n))?;
        if line.replace(number).is_some() {
            return None;
        }
    }
    Some(from.unwrap_or(1)..=to.unwrap_or(MAX_LINES))
}

/// Reads a file, at most to one byte past the greatest length of a job file.
fn read_text(path: &str) -> io::Result<Vec<u8>> {
    let most = reader::MAX_BYTES as u64 + 1;
    let file = File::open(path)?;
    let length = file.metadata()?.len();
    let mut text = Vec::with_capacity(length.min(most) as usize + 1);
    file.take(most).read_to_end(&mut text)?;
    Ok(text)
}
