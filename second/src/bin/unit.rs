//! Reads calls on one unit as text on standard input and answers each on
//! standard output, as docs/UNITRUN.md says.
//!
//! With `--check` it also counts what the answers tell, and checks the law on
//! the counts after every call at every port; it says on standard error how
//! that went, and ends badly if the law was broken.

use std::process::ExitCode;

use second::{stream, unitrun};

fn main() -> ExitCode {
    let arguments: Vec<String> = std::env::args().skip(1).collect();
    let checking = match &arguments[..] {
        [] => false,
        [flag] if flag == "--check" => true,
        _ => {
            eprintln!("usage: unit [--check]");
            return ExitCode::from(2);
        }
    };
    let mut session = unitrun::Session::new(checking);
    if let Err(error) = stream::run_standard(&mut session) {
        eprintln!("unit: {error}");
        return ExitCode::FAILURE;
    }
    match session.verdict() {
        None => ExitCode::SUCCESS,
        Some(Ok(calls)) => {
            eprintln!("unit: the law held after each of {calls} calls");
            ExitCode::SUCCESS
        }
        Some(Err(fault)) => {
            eprintln!("unit: the law is broken {fault}");
            ExitCode::FAILURE
        }
    }
}
