//! What ends the program with status 3, in words.

use std::fmt;
use std::io;

#[derive(Debug)]
pub struct Failure(String);

impl Failure {
    pub fn new(words: impl Into<String>) -> Failure {
        Failure(words.into())
    }

    /// What could not be read or written, and the system's reason.
    pub fn of(what: impl fmt::Display, error: &io::Error) -> Failure {
        let reason = error.to_string();
        // The number that the standard library adds says nothing more.
        let reason = reason.split(" (os error ").next().unwrap_or(&reason);
        Failure(format!("{what}: {reason}"))
    }
}

impl fmt::Display for Failure {
    fn fmt(&self, f: &mut fmt::Formatter<'_>) -> fmt::Result {
        f.write_str(&self.0)
    }
}
