//! What a job answers, in words or as an object, and on which stream.

use crate::failure::Failure;
use crate::hints::Hint;
use crate::json::Object;
use crate::system;
use pudeyan::Refusal;
use std::io::{self, Write};

/// The exit status of a job that came to an answer.
#[derive(Clone, Copy, Debug, PartialEq)]
pub enum Status {
    Answered = 0,
    /// Examined or replayed, with a verdict or finding other than 0.
    NotRight = 1,
    Refused = 2,
}

pub struct Reply {
    pub status: Status,
    /// Lines, each with its end.
    pub words: String,
    pub object: Object,
}

/// Where a reply goes: standard output, unless a record goes there.
#[derive(Clone, Copy, PartialEq)]
pub enum Stream {
    Output,
    Error,
}

impl Reply {
    pub fn answered(words: String, object: Object) -> Reply {
        Reply { status: Status::Answered, words, object }
    }

    /// A refusal with its number and words, and where the fault is.
    pub fn refused(object: Object, refusal: Refusal, hint: Option<Hint>) -> Reply {
        let object = object.put("refused", refusal.number()).put("words", refusal.words());
        Reply { status: Status::Refused, words: format!("{refusal}\n"), object }.with_hint(hint)
    }

    /// Adds a hint, which is told as one.
    pub fn with_hint(mut self, hint: Option<Hint>) -> Reply {
        if let Some(hint) = hint {
            self.words += &format!("hint: {hint}\n");
            self.object = self.object.put("hint", hint.object());
        }
        self
    }

    /// Tells the reply, and answers the exit status.
    pub fn tell(self, json: bool, stream: Stream) -> Result<Status, Failure> {
        let text = match (json, stream) {
            (true, _) => format!("{}\n", self.object),
            (false, Stream::Output) => self.words,
            (false, Stream::Error) => named(&self.words),
        };
        match stream {
            Stream::Output => print(&text)?,
            Stream::Error => io::stderr().write_all(text.as_bytes()).map_err(|e| Failure::of("standard error", &e))?,
        }
        Ok(self.status)
    }
}

/// The lines, each with the program's name before it.
fn named(words: &str) -> String {
    words.lines().map(|line| format!("{}: {line}\n", crate::PROGRAM)).collect()
}

/// Prints text on standard output; text that is lost is a failure.
pub fn print(text: &str) -> Result<(), Failure> {
    let written = system::standard_output().and_then(|mut file| file.write_all(text.as_bytes()));
    written.map_err(|error| Failure::of("standard output", &error))
}
