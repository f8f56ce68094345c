//! Runs two programs on the same cases and compares their answers byte for
//! byte. On the first difference it prints the shortest beginning of that case
//! on which the two still differ, and exits with 1.
//!
//! `compare OURS SECOND SEED COUNT` makes COUNT lists of commands to one line.
//!
//! `compare --units OURS SECOND SEED COUNT` makes COUNT lists of calls on a
//! unit. SECOND is started with `--check`, and breaking the law counts as a
//! difference.
//!
//! `compare --places OURS SECOND listed|all` goes through all places where a
//! call can be broken off, all events at all states of the terminals (with
//! `listed`, the listed values and their neighbours only), and all pairs of
//! refusals.
//!
//! `compare --commands SEED COUNT plain|losing` writes COUNT commands, with
//! what they need besides, to standard output; `--calls` writes calls.

mod line_cases;
mod places;
mod running;
mod spoil;
mod unit_cases;
mod unit_maker;

use std::io;
use std::process::ExitCode;

use running::{Pair, Program};

fn main() -> ExitCode {
    let arguments: Vec<String> = std::env::args().skip(1).collect();
    let arguments: Vec<&str> = arguments.iter().map(String::as_str).collect();
    match perform(&arguments) {
        None => {
            eprintln!("usage: compare OURS SECOND SEED COUNT");
            eprintln!("       compare --units OURS SECOND SEED COUNT");
            eprintln!("       compare --places OURS SECOND listed|all");
            eprintln!("       compare --commands|--calls SEED COUNT plain|losing");
            ExitCode::from(2)
        }
        Some(Ok(true)) => ExitCode::SUCCESS,
        Some(Ok(false)) => ExitCode::from(1),
        Some(Err(error)) => {
            eprintln!("compare: {error}");
            ExitCode::from(2)
        }
    }
}

/// Whether there was no difference; nothing if the arguments are wrong.
fn perform(arguments: &[&str]) -> Option<io::Result<bool>> {
    Some(match *arguments {
        ["--units", ours, second, seed, count] => {
            let (seed, count): (u64, u64) = (seed.parse().ok()?, count.parse().ok()?);
            let cases = (0..count).map(|number| unit_cases::case(seed, number));
            checked(ours, second).compare(&format!("units, seed {seed}"), cases)
        }
        ["--places", ours, second, which @ ("listed" | "all")] => {
            checked(ours, second).compare("places", places::cases(which == "all"))
        }
        ["--commands", seed, count, kind @ ("plain" | "losing")] => {
            let (seed, count) = (seed.parse().ok()?, count.parse().ok()?);
            line_cases::write_commands(seed, count, kind == "losing").map(|()| true)
        }
        ["--calls", seed, count, kind @ ("plain" | "losing")] => {
            let (seed, count) = (seed.parse().ok()?, count.parse().ok()?);
            unit_cases::write_calls(seed, count, kind == "losing").map(|()| true)
        }
        [ours, second, seed, count] => {
            let (seed, count): (u64, u64) = (seed.parse().ok()?, count.parse().ok()?);
            let cases = (0..count).map(|number| line_cases::case(seed, number));
            let pair = Pair {
                ours: Program::plain(ours),
                second: Program::plain(second),
            };
            pair.compare(&format!("lines, seed {seed}"), cases)
        }
        _ => return None,
    })
}

/// The second program looks after the law as well.
fn checked<'a>(ours: &'a str, second: &'a str) -> Pair<'a> {
    Pair {
        ours: Program::plain(ours),
        second: Program {
            path: second,
            arguments: &["--check"],
        },
    }
}
