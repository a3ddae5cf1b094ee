// The keys of the stub's rows, its records, and its answers as they are spelled.
use crate::request::{Refusal, Tupleset};
use crate::stub_rows::{text_of, Set};
use crate::texts::log::{self, Object, Tuple, User, Want};
use crate::token;

#[derive(Clone)]
pub struct Change {
    pub key: String,
    pub is_touch: bool,
}

pub struct Condition {
    pub key: String,
    pub want: Want,
}

pub enum Answer {
    Token(u64),
    Sets(Vec<Vec<String>>, u64),
    Member(bool, u64),
    Events(Vec<(u64, Change)>, u64),
    Refused(Refusal),
}

/// A name or an id, which is ASCII.
pub fn word(bytes: &[u8]) -> &str {
    std::str::from_utf8(bytes).expect("a text")
}

fn object_key(object: &Object) -> String {
    format!("{}\0{}\0", word(&object.namespace), word(&object.id))
}

fn user_key(user: &User) -> String {
    match user {
        User::Id(id) => format!("0{}", word(id)),
        User::Set { object, relation } => format!("1{}{}\0", object_key(object), word(relation)),
    }
}

pub fn key_of(tuple: &Tuple) -> String {
    format!("{}{}\0{}", object_key(&tuple.object), word(&tuple.relation), user_key(&tuple.user))
}

pub fn changed(change: &log::Change) -> Change {
    Change { key: key_of(change.tuple()), is_touch: matches!(change, log::Change::Touch(_)) }
}

pub fn set_of(asked: &Tupleset) -> Set {
    let (object, relation, user) = match asked {
        Tupleset::Key(tuple) => (Some(&tuple.object), Some(&tuple.relation), Some(&tuple.user)),
        Tupleset::OfObject(object, relation) => (Some(object), relation.as_ref(), None),
        Tupleset::OfUser(_, user, relation) => (None, relation.as_ref(), Some(user)),
    };
    let (object, relation) = (object.map(object_key), relation.map(|name| word(name).to_string()));
    let start = match (asked, &object, &relation) {
        (Tupleset::OfUser(namespace, ..), ..) => format!("{}\0", word(namespace)),
        (_, Some(object), Some(relation)) => format!("{object}{relation}\0"),
        (_, object, _) => object.clone().unwrap_or_default(),
    };
    Set { object, start, relation, user: user.map(user_key) }
}

/// The changes as a record: a sign and a text each.
pub fn body_of<'a>(changes: impl Iterator<Item = &'a Change>) -> Vec<u8> {
    let mut body = Vec::new();
    for change in changes {
        body.push(if change.is_touch { b'+' } else { b'-' });
        body.extend(change.key.bytes());
        body.push(b'\n');
    }
    body
}

pub fn changes_of(body: &[u8]) -> Vec<Change> {
    let text = String::from_utf8_lossy(body);
    text.lines().map(|line| Change { key: line[1..].to_string(), is_touch: line.starts_with('+') }).collect()
}

fn spell_events(events: &[(u64, Change)], out: &mut Vec<u8>) {
    out.extend(b"{\"events\":[");
    for (at, (place, change)) in events.iter().enumerate() {
        let (comma, kind) = (if at > 0 { "," } else { "" }, if change.is_touch { "touch" } else { "delete" });
        out.extend(format!("{comma}{{\"change\":\"{kind}\",\"place\":{place},\"tuple\":\"{}\"}}", text_of(&change.key)).bytes());
    }
}

fn spell_sets(sets: &[Vec<String>], out: &mut Vec<u8>) {
    let of_set = |set: &Vec<String>| format!("[{}]", set.iter().map(|key| format!("\"{}\"", text_of(key))).collect::<Vec<_>>().join(","));
    out.extend(format!("{{\"sets\":[{}]", sets.iter().map(of_set).collect::<Vec<_>>().join(",")).bytes());
}

pub fn spell(answer: &Answer, store: u64, out: &mut Vec<u8>) {
    let (name, place) = match answer {
        Answer::Refused((number, name)) => return out.extend(format!("{{\"error\":{number},\"name\":\"{name}\"}}\n").bytes()),
        Answer::Token(place) => {
            out.push(b'{');
            ("zookie", place)
        }
        Answer::Sets(sets, place) => {
            spell_sets(sets, out);
            (",zookie", place)
        }
        Answer::Member(is_so, place) => {
            out.extend(format!("{{\"member\":{is_so}").bytes());
            (",zookie", place)
        }
        Answer::Events(events, place) => {
            spell_events(events, out);
            ("],heartbeat", place)
        }
    };
    let (before, name) = name.split_at(name.find(char::is_alphabetic).unwrap());
    out.extend(format!("{before}\"{name}\":\"{}\"}}\n", token::encode(store, *place)).bytes());
}
