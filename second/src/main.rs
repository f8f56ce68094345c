//! Reads commands to one line as text on standard input and answers each on
//! standard output, as docs/LINERUN.md says.

use std::process::ExitCode;

use second::{linerun, stream};

fn main() -> ExitCode {
    match stream::run_standard(&mut linerun::Session::new()) {
        Ok(()) => ExitCode::SUCCESS,
        Err(error) => {
            eprintln!("second: {error}");
            ExitCode::FAILURE
        }
    }
}
