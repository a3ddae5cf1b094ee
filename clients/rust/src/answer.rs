//! What answers say.
use crate::json::Part;
use std::fmt::{self, Display, Formatter};

/// Whether the user of the tuple is in the userset, and the token of the place that was looked at.
#[derive(Clone, Debug, PartialEq, Eq)]
pub struct Checked {
    pub member: bool,
    pub zookie: String,
}

/// Whether each is so, in their order, and the token of the one place that was looked at.
#[derive(Clone, Debug, PartialEq, Eq)]
pub struct CheckedMany {
    pub members: Vec<bool>,
    pub zookie: String,
}

/// The tuples of each tupleset, and the token of the place that was read.
#[derive(Clone, Debug, PartialEq, Eq)]
pub struct Read {
    pub sets: Vec<Vec<String>>,
    pub zookie: String,
}

/// The tuples from the object to the user, or `None`; each userset that was looked into; and the token of the place.
#[derive(Clone, Debug, PartialEq, Eq)]
pub struct Why {
    pub path: Option<Vec<String>>,
    pub walked: Vec<String>,
    pub zookie: String,
}

#[derive(Clone, Copy, Debug, PartialEq, Eq)]
pub enum Change {
    Touch,
    Delete,
}

impl Display for Change {
    fn fmt(&self, out: &mut Formatter) -> fmt::Result {
        out.write_str(match self {
            Change::Touch => "touch",
            Change::Delete => "delete",
        })
    }
}

#[derive(Clone, Debug, PartialEq, Eq)]
pub struct Event {
    pub place: u64,
    pub change: Change,
    pub tuple: String,
}

/// Events, and the token to go on from once they are used.
#[derive(Clone, Debug, PartialEq, Eq)]
pub struct Watched {
    pub events: Vec<Event>,
    pub heartbeat: String,
}

/// What a request is answered by, where it is not refused.
pub trait Answer: Sized {
    fn of(answer: &Part) -> Option<Self>;
}

/// The token of a write.
impl Answer for String {
    fn of(answer: &Part) -> Option<String> {
        answer.get("zookie")?.text()
    }
}

impl Answer for Checked {
    fn of(answer: &Part) -> Option<Checked> {
        Some(Checked { member: answer.get("member")?.truth()?, zookie: String::of(answer)? })
    }
}

impl Answer for Read {
    fn of(answer: &Part) -> Option<Read> {
        let sets = answer.get("sets")?.list(|set| set.list(Part::text))?;
        Some(Read { sets, zookie: String::of(answer)? })
    }
}

impl Answer for Event {
    fn of(event: &Part) -> Option<Event> {
        let change = match event.get("change")?.text()?.as_str() {
            "touch" => Change::Touch,
            "delete" => Change::Delete,
            _ => return None,
        };
        Some(Event { place: event.get("place")?.number()?, change, tuple: event.get("tuple")?.text()? })
    }
}

impl Answer for Watched {
    fn of(answer: &Part) -> Option<Watched> {
        Some(Watched { events: answer.get("events")?.list(Event::of)?, heartbeat: answer.get("heartbeat")?.text()? })
    }
}
