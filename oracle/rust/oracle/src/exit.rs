//! How the programs end.

use std::io;
use std::process::ExitCode;

/// Success, or a message. A reader that has seen enough of the output is no failure.
pub fn after(program: &str, outcome: io::Result<()>) -> ExitCode {
    match outcome {
        Err(error) if error.kind() != io::ErrorKind::BrokenPipe => {
            eprintln!("{program}: {error}");
            ExitCode::FAILURE
        }
        _ => ExitCode::SUCCESS,
    }
}
