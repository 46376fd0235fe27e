//! How a use ends: its exit status, and what it says on standard error.

use crate::canceller::Refusal;
use crate::refusals;
use std::io::Write;
use std::process::ExitCode;

/// The exit statuses, the worst last.
#[derive(Clone, Copy, Debug, PartialEq, Eq, PartialOrd, Ord)]
pub enum Status {
    /// Done; for judging: all pass.
    Done = 0,
    /// Some signature fails.
    Fails = 1,
    /// The library declined; or the words of a plan aren't those of a set.
    Refused = 2,
    /// Usage, or input that can't be read or written.
    Unusable = 3,
}

/// Why a use stopped.
#[derive(Debug)]
pub enum Stop {
    /// The library declined what it was asked about this file or signature.
    Refused { of: String, number: u64 },
    /// Usage, or input that can't be read or written.
    Unusable(String),
    /// Nobody reads the output any more.
    ClosedPipe,
}

pub type Outcome<T = Status> = Result<T, Stop>;

pub fn unusable<T>(message: impl Into<String>) -> Outcome<T> {
    Err(Stop::Unusable(message.into()))
}

/// A reply of the library about this file.
pub fn of<T>(file: &str, reply: Result<T, Refusal>) -> Outcome<T> {
    reply.map_err(|Refusal(number)| Stop::Refused {
        of: file.to_string(),
        number,
    })
}

/// A line on standard error. Where that can't be written there is nobody to tell.
pub fn say(message: &str) {
    let _ = writeln!(std::io::stderr(), "canceller: {message}");
}

/// The number, its sentence, and where more stands.
pub fn say_refused(of: &str, number: u64) {
    say(&format!(
        "{of}: refused {number}: {}",
        refusals::sentence(number)
    ));
    say(&format!("for what to do: canceller explain {number}"));
}

pub fn exit_code(outcome: Outcome) -> ExitCode {
    let status = match outcome {
        Ok(status) => status,
        Err(Stop::Refused { of, number }) => {
            say_refused(&of, number);
            Status::Refused
        }
        Err(Stop::Unusable(message)) => {
            say(&message);
            Status::Unusable
        }
        Err(Stop::ClosedPipe) => Status::Unusable,
    };
    ExitCode::from(status as u8)
}
