use std::error::Error;
use std::fmt::{self, Display, Formatter};
use std::io;

pub const COLLECTED: u64 = 8;
pub const PRECONDITION: u64 = 9;
pub const UNSURE: u64 = 12;
pub const FULL: u64 = 15;
/// Busy, Aborted, NoMemory, Full: nothing was done, and the same may be sent again.
pub const AGAIN: [u64; 4] = [10, 11, 14, FULL];

/// Why there is no answer. After `Gone` and `NoAnswer` nobody knows whether a write stands.
#[derive(Debug)]
pub enum Fault {
    /// The server refused the request, by a number and a name. After any number but 12 a write was not made.
    Refused(u64, String),
    /// There is no connection, it ended, or the answer was late.
    Gone(io::Error),
    /// The server sent a line that is no answer.
    NoAnswer(String),
    /// What a function was given is no id, tuple or token.
    Text(String),
}

impl Display for Fault {
    fn fmt(&self, out: &mut Formatter) -> fmt::Result {
        match self {
            Fault::Refused(number, name) => write!(out, "{number} {name}"),
            Fault::Gone(error) => write!(out, "{error}"),
            Fault::NoAnswer(line) => write!(out, "not an answer: {line:?}"),
            Fault::Text(text) => write!(out, "{text}"),
        }
    }
}

impl Error for Fault {
    fn source(&self) -> Option<&(dyn Error + 'static)> {
        match self {
            Fault::Gone(error) => Some(error),
            _ => None,
        }
    }
}

impl Fault {
    /// Whether the same request may be sent again. `may_repeat`: also where the first one may have been done.
    pub(crate) fn helps(&self, op: &str, may_repeat: bool) -> bool {
        match self {
            // It has met too many usersets, and would meet them again.
            Fault::Refused(FULL, _) if op == "check" => false,
            Fault::Refused(number, _) => AGAIN.contains(number) || may_repeat && *number == UNSURE,
            Fault::Gone(_) => may_repeat,
            Fault::NoAnswer(_) | Fault::Text(_) => false,
        }
    }
}
