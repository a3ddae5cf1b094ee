// Requests, from their lines, with the tests of crates/json_lines in their order: shape, sizes, texts, tokens, repeats. Who
// has this module says by `json` how a line is read as JSON.
use crate::json::{self, Members, Value};
use crate::texts::log::{Change, Condition, Object, Tuple, User, Want};
use crate::texts::{self, name};
use crate::token;
use std::collections::HashSet;

/// The number and the name of a refusal.
pub type Refusal = (u8, &'static str);

const BAD_REQUEST: Refusal = (1, "BadRequest");
const BAD_TUPLE: Refusal = (2, "BadTuple");
pub const TOO_LARGE: Refusal = (3, "TooLarge");

#[allow(dead_code)]
pub struct Write {
    pub changes: Vec<Change>,
    pub conditions: Vec<Condition>,
}

/// From which place on, or at which, by tokens or by numbers.
#[allow(dead_code)]
pub enum Freshness<T> {
    Latest,
    AtLeast(T),
    Exact(T),
}

#[allow(dead_code)]
pub enum Tupleset {
    Key(Tuple),
    OfObject(Object, Option<Vec<u8>>),
    OfUser(Vec<u8>, User, Option<Vec<u8>>),
}

#[allow(dead_code)]
pub enum Request {
    Write(Write),
    Read(Freshness<u64>, Vec<Tupleset>),
    Check(Freshness<u64>, Tuple),
    Watch(u64, u64, Vec<Vec<u8>>),
}

fn only(members: &Members, keys: &[&str]) -> Result<(), Refusal> {
    if members.keys().all(|key| keys.contains(&key.as_str())) { Ok(()) } else { Err(BAD_REQUEST) }
}

fn string(value: &Value) -> Result<&str, Refusal> {
    value.as_str().ok_or(BAD_REQUEST)
}

fn text<'a>(members: &'a Members, key: &str) -> Result<&'a str, Refusal> {
    members.get(key).ok_or(BAD_REQUEST).and_then(string)
}

fn list<'a>(members: &'a Members, key: &str) -> Result<&'a [Value], Refusal> {
    let values = members.get(key).and_then(Value::as_array).ok_or(BAD_REQUEST)?;
    if values.is_empty() { Err(BAD_REQUEST) } else { Ok(values) }
}

fn texts<'a>(members: &'a Members, key: &str) -> Result<Vec<&'a str>, Refusal> {
    let texts: Vec<_> = list(members, key)?.iter().map(string).collect::<Result<_, _>>()?;
    if texts.len() > 16 { Err(TOO_LARGE) } else { Ok(texts) }
}

fn place_of(zookie: &str, store: u64) -> Result<u64, Refusal> {
    match token::decode(zookie) {
        Some((of, place)) if of == store => Ok(place),
        Some(_) => Err((6, "WrongStore")),
        None => Err((5, "BadZookie")),
    }
}

fn tuple_of(text: &str) -> Result<Tuple, Refusal> {
    texts::tuple_of(text.as_bytes()).ok_or(BAD_TUPLE)
}

fn freshness<'a>(members: &'a Members, asked: &str) -> Result<Freshness<&'a str>, Refusal> {
    only(members, &["op", asked, "at_least", "exact"])?;
    match (members.get("at_least"), members.get("exact")) {
        (None, None) => Ok(Freshness::Latest),
        (Some(zookie), None) => string(zookie).map(Freshness::AtLeast),
        (None, Some(zookie)) => string(zookie).map(Freshness::Exact),
        (Some(_), Some(_)) => Err(BAD_REQUEST),
    }
}

impl Freshness<&str> {
    fn placed(&self, store: u64) -> Result<Freshness<u64>, Refusal> {
        match self {
            Freshness::Latest => Ok(Freshness::Latest),
            Freshness::AtLeast(zookie) => place_of(zookie, store).map(Freshness::AtLeast),
            Freshness::Exact(zookie) => place_of(zookie, store).map(Freshness::Exact),
        }
    }
}

fn change_shape(value: &Value) -> Result<(bool, &str), Refusal> {
    let members = value.as_object().ok_or(BAD_REQUEST)?;
    only(members, &["op", "tuple"])?;
    let tuple = text(members, "tuple")?;
    match text(members, "op")? {
        "touch" => Ok((true, tuple)),
        "delete" => Ok((false, tuple)),
        _ => Err(BAD_REQUEST),
    }
}

/// What a condition asks for, or the token of the place behind which nothing may have changed.
type Wanted<'a> = Result<Want, &'a str>;

fn condition_shape(value: &Value) -> Result<(&str, Wanted<'_>), Refusal> {
    let members = value.as_object().ok_or(BAD_REQUEST)?;
    only(members, &["since", "tuple", "want"])?;
    let tuple = text(members, "tuple")?;
    match (members.get("since"), members.get("want").map(Value::as_str)) {
        (Some(zookie), None) => Ok((tuple, Err(string(zookie)?))),
        (None, Some(Some("exists"))) => Ok((tuple, Ok(Want::Exists))),
        (None, Some(Some("absent"))) => Ok((tuple, Ok(Want::Absent))),
        _ => Err(BAD_REQUEST),
    }
}

fn key_of(tuple: &Tuple) -> Vec<u8> {
    let mut text = Vec::new();
    texts::write_tuple(tuple, &mut text);
    text
}

fn are_distinct<'a>(tuples: impl Iterator<Item = &'a Tuple>) -> bool {
    let mut seen = HashSet::new();
    tuples.map(key_of).all(|key| seen.insert(key))
}

fn write_of(members: &Members, store: u64) -> Result<Request, Refusal> {
    only(members, &["changes", "conditions", "op"])?;
    let changes: Vec<_> = list(members, "changes")?.iter().map(change_shape).collect::<Result<_, _>>()?;
    let conditions: Vec<_> = match members.get("conditions") {
        None => Vec::new(),
        Some(value) => value.as_array().ok_or(BAD_REQUEST)?.iter().map(condition_shape).collect::<Result<_, _>>()?,
    };
    if changes.len() > 64 || conditions.len() > 16 {
        return Err(TOO_LARGE);
    }
    let touched: Vec<Tuple> = changes.iter().map(|(_, text)| tuple_of(text)).collect::<Result<_, _>>()?;
    let asked: Vec<Tuple> = conditions.iter().map(|(text, _)| tuple_of(text)).collect::<Result<_, _>>()?;
    let since = |zookie| place_of(zookie, store).map(Want::NotAfter);
    let wants: Vec<Want> = conditions.into_iter().map(|(_, want)| want.or_else(since)).collect::<Result<_, _>>()?;
    if !are_distinct(touched.iter()) || !are_distinct(asked.iter()) {
        return Err((4, "Repeated"));
    }
    let changes = changes.iter().zip(touched).map(|((is_touch, _), tuple)| if *is_touch { Change::Touch(tuple) } else { Change::Delete(tuple) }).collect();
    let conditions = asked.into_iter().zip(wants).map(|(tuple, want)| Condition { tuple, want }).collect();
    Ok(Request::Write(Write { changes, conditions }))
}

fn read_of(members: &Members, store: u64) -> Result<Request, Refusal> {
    let fresh = freshness(members, "sets")?;
    let sets = texts(members, "sets")?;
    let sets = sets.iter().map(|text| set_of(text.as_bytes()).ok_or(BAD_TUPLE)).collect::<Result<_, _>>()?;
    Ok(Request::Read(fresh.placed(store)?, sets))
}

fn with_relation(text: &[u8]) -> Option<(&[u8], Option<Vec<u8>>)> {
    match text.iter().position(|b| *b == b'#') {
        Some(at) => Some((&text[..at], Some(name(&text[at + 1..])?))),
        None => Some((text, None)),
    }
}

fn set_of(text: &[u8]) -> Option<Tupleset> {
    match text.iter().position(|b| *b == b'@') {
        None => {
            let (object, relation) = with_relation(text)?;
            Some(Tupleset::OfObject(texts::object_of(object)?, relation))
        }
        Some(at) if text[..at].contains(&b':') => Some(Tupleset::Key(texts::tuple_of(text)?)),
        Some(at) => {
            let (namespace, relation) = with_relation(&text[..at])?;
            Some(Tupleset::OfUser(name(namespace)?, texts::user_of(&text[at + 1..])?, relation))
        }
    }
}

fn watch_of(members: &Members, store: u64) -> Result<Request, Refusal> {
    only(members, &["from", "limit", "namespaces", "op"])?;
    let from = text(members, "from")?;
    let limit = match members.get("limit").and_then(Value::as_u64) {
        Some(limit @ 1..=256) => limit,
        _ => return Err(BAD_REQUEST),
    };
    let namespaces = texts(members, "namespaces")?;
    let namespaces = namespaces.iter().map(|text| name(text.as_bytes()).ok_or(BAD_TUPLE)).collect::<Result<_, _>>()?;
    Ok(Request::Watch(place_of(from, store)?, limit, namespaces))
}

/// The request of a line at this store.
pub fn parse(line: &[u8], store: u64) -> Result<Request, Refusal> {
    let value = json::read(line).ok_or(BAD_REQUEST)?;
    let members = value.as_object().ok_or(BAD_REQUEST)?;
    match text(members, "op")? {
        "write" => write_of(members, store),
        "read" => read_of(members, store),
        "check" => {
            let fresh = freshness(members, "tuple")?;
            let tuple = tuple_of(text(members, "tuple")?)?;
            Ok(Request::Check(fresh.placed(store)?, tuple))
        }
        "watch" => watch_of(members, store),
        _ => Err(BAD_REQUEST),
    }
}
