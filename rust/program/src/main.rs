//! The program `pudeyan`: plans, mosts and verdicts for records in files, and
//! networks as text. Every answer is the proved library's; here are words,
//! files, exit statuses and hints.

mod args;
mod failure;
mod files;
mod hints;
mod jobs;
mod json;
mod listing;
mod reply;
mod sheet;
mod system;
mod text;

use failure::Failure;
use std::io::Write;
use std::process::ExitCode;

/// The name that begins every message.
const PROGRAM: &str = "pudeyan";

/// Wrong usage, a file that cannot be read or written, output lost.
const FAILED: u8 = 3;

fn main() -> ExitCode {
    system::have_size_limit_answered();
    let words = std::env::args_os().skip(1);
    match args::parse(words).and_then(jobs::run) {
        Ok(status) => ExitCode::from(status as u8),
        Err(failure) => {
            tell(&failure);
            ExitCode::from(FAILED)
        }
    }
}

/// Tells a failure on standard error. If that is lost too, the status is left.
fn tell(failure: &Failure) {
    let mut error = std::io::stderr().lock();
    let _ = error.write_all(format!("{PROGRAM}: {failure}\n").as_bytes());
}
