// The measure of crates/bench/src/texts.rt in plain Rust: the same grammar, texts and passes.
pub mod log;

use log::{Object, Tuple, User, is_id, is_name, run, tell};
use std::time::Instant;

const TEXTS: u64 = 1000;

fn split_first(text: &[u8], mark: u8) -> Option<(&[u8], &[u8])> {
    let at = text.iter().position(|b| *b == mark)?;
    Some((&text[..at], &text[at + 1..]))
}

pub fn name(bytes: &[u8]) -> Option<Vec<u8>> {
    is_name(bytes).then(|| bytes.to_vec())
}

fn id(bytes: &[u8]) -> Option<Vec<u8>> {
    is_id(bytes).then(|| bytes.to_vec())
}

pub fn object_of(text: &[u8]) -> Option<Object> {
    let (namespace, rest) = split_first(text, b':')?;
    Some(Object { namespace: name(namespace)?, id: id(rest)? })
}

fn userset_of(text: &[u8]) -> Option<(Object, Vec<u8>)> {
    let (object, relation) = split_first(text, b'#')?;
    Some((object_of(object)?, name(relation)?))
}

pub fn user_of(text: &[u8]) -> Option<User> {
    match text.contains(&b':') {
        true => userset_of(text).map(|(object, relation)| User::Set { object, relation }),
        false => id(text).map(User::Id),
    }
}

pub fn tuple_of(text: &[u8]) -> Option<Tuple> {
    let (front, user) = split_first(text, b'@')?;
    let (object, relation) = userset_of(front)?;
    Some(Tuple { object, relation, user: user_of(user)? })
}

fn write_userset(object: &Object, relation: &[u8], out: &mut Vec<u8>) {
    out.extend_from_slice(&object.namespace);
    out.push(b':');
    out.extend_from_slice(&object.id);
    out.push(b'#');
    out.extend_from_slice(relation);
}

pub fn write_tuple(tuple: &Tuple, out: &mut Vec<u8>) {
    write_userset(&tuple.object, &tuple.relation, out);
    out.push(b'@');
    match &tuple.user {
        User::Id(id) => out.extend_from_slice(id),
        User::Set { object, relation } => write_userset(object, relation, out),
    }
}

fn texts() -> Vec<Vec<u8>> {
    let text = |n| match n % 2 {
        0 => format!("doc:d{n}#viewer@u{n}"),
        _ => format!("doc:d{n}#viewer@group:g{n}#member"),
    };
    (0..TEXTS).map(|n| text(n).into_bytes()).collect()
}

#[inline(never)]
fn parse_all(texts: &[Vec<u8>], tuples: &mut Vec<Tuple>) -> Option<()> {
    tuples.clear();
    for text in texts {
        tuples.push(tuple_of(text)?);
    }
    Some(())
}

#[inline(never)]
fn write_all(tuples: &[Tuple], out: &mut Vec<u8>) {
    out.clear();
    for tuple in tuples {
        write_tuple(tuple, out);
    }
}

fn measure(count: u64) -> Option<()> {
    let passes = count / TEXTS;
    let all = count - count % TEXTS;
    let texts = texts();
    let mut tuples = Vec::new();
    let start = Instant::now();
    for _ in 0..passes {
        parse_all(&texts, &mut tuples)?;
    }
    let parsed = start.elapsed();
    let mut out = Vec::new();
    let start = Instant::now();
    for _ in 0..passes {
        write_all(&tuples, &mut out);
    }
    let written = start.elapsed();
    tell("parse", all, parsed, tuples.len() as u64);
    tell("write", all, written, out.len() as u64);
    Some(())
}

fn main() {
    run(|name, count| if name == "texts" { measure(count) } else { None })
}
