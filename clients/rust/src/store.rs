use crate::answer::Answer;
use crate::connection::Connection;
use crate::fault::{COLLECTED, FULL, PRECONDITION};
use crate::json::Json;
use crate::texts::{sides, Who};
use crate::{Checked, CheckedMany, Fault, Read, Watch, Why, Write};
use std::collections::HashMap;
use std::slice;
use std::thread::sleep;
use std::time::Duration;

/// How many lines are sent before their answers are read, so few that those always fit on the way.
const AHEAD: usize = 64;
/// How many tuplesets a read has, and usersets a check.
const SETS: usize = 16;
const USERSETS: usize = 4096;

/// Which place answers: the latest, one at least as late as that of a token, or exactly that.
#[derive(Clone, Copy, Debug, PartialEq, Eq)]
pub enum Freshness<'a> {
    Latest,
    AtLeast(&'a str),
    Exact(&'a str),
}

impl<'a> Freshness<'a> {
    fn member(self) -> Option<(&'a str, Json)> {
        match self {
            Freshness::Latest => None,
            Freshness::AtLeast(token) => Some(("at_least", Json::text(token))),
            Freshness::Exact(token) => Some(("exact", Json::text(token))),
        }
    }
}

fn check_request(tuple: &str, fresh: Freshness) -> Json {
    Json::object([("op", Json::text("check")), ("tuple", Json::text(tuple))].into_iter().chain(fresh.member()))
}

/// A session with a server, whose connection is made anew where it ended. One thread at a time may ask, as `&mut self` says: others have a `Store` of
/// their own, or share one in a `Mutex`.
pub struct Store {
    host: String,
    port: u16,
    /// The limit of a connection, and of each wait for more of an answer: 30 seconds.
    pub limit: Duration,
    /// How often a request is sent at most: 8.
    pub tries: u32,
    kept: Option<Connection>,
}

impl Store {
    pub fn new(host: &str, port: u16) -> Store {
        Store { host: host.to_string(), port, limit: Duration::from_secs(30), tries: 8, kept: None }
    }

    /// Ends the connection. A later request makes another.
    pub fn close(&mut self) {
        self.kept = None;
    }

    /// The answer to each of some requests, or its refusal. The connection is put back only after whole answers.
    fn ask<T: Answer>(&mut self, lines: &[&str]) -> Result<Vec<Result<T, Fault>>, Fault> {
        let mut connection = match self.kept.take().and_then(Connection::quiet) {
            Some(connection) => connection,
            None => Connection::new(&self.host, self.port, self.limit).map_err(Fault::Gone)?,
        };
        connection.limit(self.limit).map_err(Fault::Gone)?;
        connection.send(&lines.concat()).map_err(Fault::Gone)?;
        let answers: Result<Vec<_>, _> =
            (1..=lines.len()).map(|number| connection.answer(number == lines.len())).collect();
        let answers = answers?;
        self.kept = Some(connection);
        Ok(answers)
    }

    /// Asks, and again after a pause where that helps. `may_repeat`: also where the first one may have been done.
    fn patiently<T: Answer>(&mut self, op: &str, requests: &[Json], may_repeat: bool) -> Result<Vec<T>, Fault> {
        let lines: Vec<String> = requests.iter().map(Json::line).collect();
        let mut answers: Vec<Option<T>> = lines.iter().map(|_| None).collect();
        for number in 1.. {
            let waiting: Vec<usize> = (0..lines.len()).filter(|index| answers[*index].is_none()).collect();
            let mut faults = Vec::new();
            match self.ask(&waiting.iter().map(|index| lines[*index].as_str()).collect::<Vec<_>>()) {
                Ok(came) => waiting.into_iter().zip(came).for_each(|(index, answer)| match answer {
                    Ok(answer) => answers[index] = Some(answer),
                    Err(refused) => faults.push(refused),
                }),
                Err(fault) => faults.push(fault),
            }
            if faults.is_empty() {
                break;
            }
            let worst = faults.iter().position(|fault| !fault.helps(op, may_repeat));
            if worst.is_some() || number >= self.tries {
                return Err(faults.swap_remove(worst.unwrap_or(0)));
            }
            sleep(Duration::from_millis(25 << number.min(7)).min(Duration::from_secs(2)));
        }
        Ok(answers.into_iter().flatten().collect())
    }

    pub(crate) fn one<T: Answer>(&mut self, op: &str, request: Json, may_repeat: bool) -> Result<T, Fault> {
        let answers = self.patiently(op, &[request], may_repeat)?;
        Ok(answers.into_iter().next().expect("one request has one answer"))
    }

    /// Does work that reads at one place, and anew if the horizon passes that meanwhile.
    fn at_one_place<T>(&mut self, fresh: Freshness, work: impl Fn(&mut Store) -> Result<T, Fault>) -> Result<T, Fault> {
        for _ in 1..self.tries {
            match work(self) {
                Err(Fault::Refused(COLLECTED, _)) if !matches!(fresh, Freshness::Exact(_)) => {}
                ended => return ended,
            }
        }
        work(self)
    }

    /// The token of the write. Only with a condition `since` on a tuple that it touches it is sent again after `12 Unsure` or a lost connection: it then
    /// stands once at most, and `9` may mean that it stands.
    pub fn write(&mut self, write: &Write) -> Result<String, Fault> {
        self.one("write", write.request(), write.is_once())
    }

    /// Whether the user of the tuple is in the userset of its object and relation.
    pub fn check(&mut self, tuple: &str, fresh: Freshness) -> Result<Checked, Fault> {
        self.one("check", check_request(tuple, fresh), true)
    }

    /// The checks of one or more tuples at one place: that of the first, which the others name, and are sent without a wait between them.
    pub fn check_many<T: AsRef<str>>(&mut self, tuples: &[T], fresh: Freshness) -> Result<CheckedMany, Fault> {
        let [first, others @ ..] = tuples else { return Err(Fault::Text("no tuple to check".to_string())) };
        self.at_one_place(fresh, |store| {
            let Checked { member, zookie } = store.check(first.as_ref(), fresh)?;
            let mut members = vec![member];
            for some in others.chunks(AHEAD) {
                let some: Vec<_> =
                    some.iter().map(|one| check_request(one.as_ref(), Freshness::Exact(&zookie))).collect();
                members.extend(store.patiently::<Checked>("check", &some, true)?.iter().map(|one| one.member));
            }
            Ok(CheckedMany { members, zookie })
        })
    }

    /// The stored tuples of 1 to 16 tuplesets.
    pub fn read<T: AsRef<str>>(&mut self, sets: &[T], fresh: Freshness) -> Result<Read, Fault> {
        let members = [("op", Json::text("read")), ("sets", Json::texts(sets))];
        self.one("read", Json::object(members.into_iter().chain(fresh.member())), true)
    }

    /// What a check goes by: a shortest way of stored tuples from the object to the user, read at one place. Past 4,096 usersets it is refused, as a check is.
    pub fn why(&mut self, tuple: &str, fresh: Freshness) -> Result<Why, Fault> {
        let (first, user) = sides(tuple)?;
        self.at_one_place(fresh, |store| store.way(first, user, fresh))
    }

    fn way(&mut self, first: &str, user: Who, fresh: Freshness) -> Result<Why, Fault> {
        // Each userset that was met, with the way to it, which is shortest as the nearest are looked into first.
        let mut met = vec![first.to_string()];
        let mut ways = HashMap::from([(first.to_string(), Vec::new())]);
        let (mut walked, mut place) = (0, None::<String>);
        loop {
            if met.len() > USERSETS {
                return Err(Fault::Refused(FULL, "Full".to_string()));
            }
            let end = met.len().min(walked + SETS);
            let read = self.read(&met[walked..end], place.as_deref().map_or(fresh, Freshness::Exact))?;
            walked = end;
            for row in read.sets.into_iter().flatten() {
                let (left, who) = sides(&row)?;
                let path = [ways.get(left).map_or(&[][..], Vec::as_slice), slice::from_ref(&row)].concat();
                if who == user {
                    return Ok(Why { path: Some(path), walked: met[..walked].to_vec(), zookie: read.zookie });
                }
                let text = who.to_string();
                if matches!(who, Who::Userset(..)) && !ways.contains_key(&text) {
                    ways.insert(text.clone(), path);
                    met.push(text);
                }
            }
            if walked == met.len() {
                return Ok(Why { path: None, walked: met, zookie: read.zookie });
            }
            place = Some(read.zookie);
        }
    }

    /// The events after the token, for ever.
    pub fn watch<T: AsRef<str>>(&mut self, token: &str, namespaces: &[T]) -> Watch<'_> {
        Watch::new(self, token, namespaces)
    }

    /// Reads a list, lets `change` choose what to write, and writes that if nobody else has edited the list since; else again.
    pub fn edit(&mut self, object: &str, lock: &str, change: impl Fn(&[String]) -> Write) -> Result<String, Fault> {
        loop {
            let read = self.read(&[object], Freshness::Latest)?;
            let rows = read.sets.first().map_or(&[][..], Vec::as_slice);
            match self.write(&change(rows).touch(lock).since(lock, &read.zookie)) {
                Err(Fault::Refused(PRECONDITION, _)) => {}
                ended => return ended,
            }
        }
    }
}
