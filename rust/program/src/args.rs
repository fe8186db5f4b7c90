//! The words of the command line.

use crate::failure::Failure;
use crate::files::Name;
use std::ffi::OsString;

/// What is asked for.
pub struct Command {
    pub job: Job,
    /// Answers as one object a line.
    pub json: bool,
}

pub enum Job {
    Help,
    Version,
    Plan { network: Name, amount: u64, out: Name },
    Most { network: Name, horizon: u64 },
    Examine { network: Name, plan: Name },
    Show { network: Name, plan: Name },
    Replay { network: Name, log: Name },
    Sheet { network: Name, plan: Name },
    Pack { text: Name, out: Name },
    Print { network: Name },
}

/// How a job is asked for: its name, the words it takes, and what it does.
struct Form {
    name: &'static [&'static str],
    takes: &'static [&'static str],
    does: &'static str,
    read: fn(&mut Words) -> Result<Job, Failure>,
}

const FORMS: [Form; 8] = [
    Form {
        name: &["plan"],
        takes: &["NETWORK", "AMOUNT", "OUT"],
        does: "write a plan with the least horizon",
        read: |words| Ok(Job::Plan { network: words.name(), amount: words.number("AMOUNT")?, out: words.name() }),
    },
    Form {
        name: &["most"],
        takes: &["NETWORK", "HORIZON"],
        does: "the most blocks, and a proving cut",
        read: |words| Ok(Job::Most { network: words.name(), horizon: words.number("HORIZON")? }),
    },
    Form {
        name: &["examine"],
        takes: &["NETWORK", "PLAN"],
        does: "the plan's verdict and bound",
        read: |words| words.two_inputs().map(|(network, plan)| Job::Examine { network, plan }),
    },
    Form {
        name: &["show"],
        takes: &["NETWORK", "PLAN"],
        does: "the plan as text, with verdict and bound",
        read: |words| words.two_inputs().map(|(network, plan)| Job::Show { network, plan }),
    },
    Form {
        name: &["replay"],
        takes: &["NETWORK", "LOG"],
        does: "what a link log shows, and what was delivered",
        read: |words| words.two_inputs().map(|(network, log)| Job::Replay { network, log }),
    },
    Form {
        name: &["sheet"],
        takes: &["NETWORK", "PLAN"],
        does: "the blocks of the plan's rows, and their total",
        read: |words| words.two_inputs().map(|(network, plan)| Job::Sheet { network, plan }),
    },
    Form {
        name: &["network", "pack"],
        takes: &["TEXT", "OUT"],
        does: "make a network's record from its text",
        read: |words| Ok(Job::Pack { text: words.name(), out: words.name() }),
    },
    Form {
        name: &["network", "print"],
        takes: &["NETWORK"],
        does: "a network's record as text",
        read: |words| Ok(Job::Print { network: words.name() }),
    },
];

const NOTES: &str = "
NETWORK, PLAN, LOG and OUT name files of one record each, TEXT one of text;
- is standard input or output.

  --json     answer with one JSON object a line
  --help     print this text
  --version  print the version
  --         what follows is no option

Exit status: 0 answered, and examined with verdict 0 or replayed with finding
0; 1 examined or replayed with another; 2 refused; 3 wrong usage, a file that
cannot be read or written, output lost.
";

/// The text of `--help`.
pub fn help() -> String {
    let asked: Vec<String> = FORMS.iter().map(Form::asked).collect();
    let width = asked.iter().map(String::len).max().unwrap_or(0);
    let lines = asked.iter().zip(&FORMS).map(|(asked, form)| format!("{asked:width$}  {}\n", form.does));
    lines.collect::<String>() + NOTES
}

impl Form {
    /// The line that asks for the job.
    fn asked(&self) -> String {
        [&[crate::PROGRAM], self.name, self.takes].concat().join(" ")
    }

    fn named_by(&self, operands: &[OsString]) -> bool {
        operands.len() >= self.name.len() && self.name.iter().zip(operands).all(|(name, word)| word == name)
    }
}

/// What the words ask for.
pub fn parse(words: impl Iterator<Item = OsString>) -> Result<Command, Failure> {
    let (options, operands) = apart(words);
    let mut json = false;
    for option in options {
        match option.to_str() {
            Some("--json") => json = true,
            Some("--help") => return Ok(Command { job: Job::Help, json }),
            Some("--version") => return Ok(Command { job: Job::Version, json }),
            _ => return Err(wrong(&format!("there is no option {}", option.to_string_lossy()))),
        }
    }
    job(&operands).map(|job| Command { job, json })
}

/// Options, and the words that are none.
fn apart(words: impl Iterator<Item = OsString>) -> (Vec<OsString>, Vec<OsString>) {
    let (mut options, mut operands) = (Vec::new(), Vec::new());
    let mut ended = false;
    for word in words {
        let octets = word.as_encoded_bytes();
        if !ended && octets == b"--" {
            ended = true;
        } else if !ended && octets.len() > 1 && octets[0] == b'-' {
            options.push(word);
        } else {
            operands.push(word);
        }
    }
    (options, operands)
}

fn job(operands: &[OsString]) -> Result<Job, Failure> {
    let Some(form) = FORMS.iter().find(|form| form.named_by(operands)) else {
        return Err(match operands.first() {
            Some(word) if word == "network" => wrong("network is followed by pack or print"),
            Some(word) => wrong(&format!("there is no job {}", word.to_string_lossy())),
            None => wrong("a job is missing"),
        });
    };
    let rest = &operands[form.name.len()..];
    if rest.len() != form.takes.len() {
        return Err(Failure::new(format!("the words are: {}", form.asked())));
    }
    (form.read)(&mut Words(rest))
}

fn wrong(words: &str) -> Failure {
    Failure::new(format!("{words}; {} --help tells the usage", crate::PROGRAM))
}

/// The words that a job takes, as many as its form says.
struct Words<'a>(&'a [OsString]);

impl Words<'_> {
    fn word(&mut self) -> &OsString {
        let (first, rest) = self.0.split_first().expect("the words were counted");
        self.0 = rest;
        first
    }

    fn name(&mut self) -> Name {
        Name::of(self.word())
    }

    /// Two files to be read: standard input has only one.
    fn two_inputs(&mut self) -> Result<(Name, Name), Failure> {
        match (self.name(), self.name()) {
            (Name::Standard, Name::Standard) => Err(Failure::new("standard input can be read only once")),
            both => Ok(both),
        }
    }

    /// One or more decimal digits, below 2^64.
    fn number(&mut self, what: &str) -> Result<u64, Failure> {
        let digits = self.word().to_str().filter(|word| word.bytes().all(|octet| octet.is_ascii_digit()));
        let number = digits.and_then(|word| word.parse().ok());
        number.ok_or_else(|| Failure::new(format!("{what} is not a decimal number below 2^64")))
    }
}
