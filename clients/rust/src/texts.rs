//! The texts of tuples and tokens, made of their parts and taken apart.
use crate::Fault;
use std::fmt::{self, Display, Formatter};

const SIGNS: &[u8; 64] = b"ABCDEFGHIJKLMNOPQRSTUVWXYZabcdefghijklmnopqrstuvwxyz0123456789+/";

/// Who stands in a tuple: a user by an id, or the userset of an object and a relation.
#[derive(Clone, Copy, Debug, PartialEq, Eq)]
pub enum Who<'a> {
    User(&'a str),
    Userset(&'a str, &'a str),
}

impl Display for Who<'_> {
    fn fmt(&self, out: &mut Formatter) -> fmt::Result {
        match self {
            Who::User(id) => write!(out, "{id}"),
            Who::Userset(object, relation) => write!(out, "{object}#{relation}"),
        }
    }
}

/// Whether it is a namespace or a relation.
fn is_name(text: &str) -> bool {
    (1..=64).contains(&text.len()) && text.bytes().all(|byte| matches!(byte, b'a'..=b'z' | b'0'..=b'9' | b'_'))
}

/// Whether it is the id of an object or a user: printable ASCII without `#`, `@`, `:` and `+`.
fn is_id(text: &str) -> bool {
    (1..=128).contains(&text.len()) && text.bytes().all(|byte| byte.is_ascii_graphic() && !b"#@:+".contains(&byte))
}

impl<'a> Who<'a> {
    /// Itself, where its ids are valid.
    fn tested(self) -> Result<Who<'a>, Fault> {
        match self {
            Who::User(id) if is_id(id) => Ok(self),
            Who::User(id) => Err(Fault::Text(format!("not the id of a user: {id:?}"))),
            Who::Userset(object, relation) => match object.split_once(':') {
                Some((namespace, id)) if is_name(namespace) && is_id(id) && is_name(relation) => Ok(self),
                _ => Err(Fault::Text(format!("not an object and a relation: {object:?}, {relation:?}"))),
            },
        }
    }
}

/// The text of a tuple. An id of any other form than the valid one is a [`Fault::Text`].
pub fn tuple(object: &str, relation: &str, of: Who) -> Result<String, Fault> {
    Ok(format!("{}@{}", Who::Userset(object, relation).tested()?, of.tested()?))
}

fn userset(text: &str) -> Option<Who<'_>> {
    let (object, relation) = text.split_once('#')?;
    Who::Userset(object, relation).tested().ok()
}

/// The userset of a tuple's object and relation, and its user.
pub(crate) fn sides(text: &str) -> Result<(&str, Who<'_>), Fault> {
    let parts = text.split_once('@').and_then(|(left, right)| {
        userset(left)?;
        let who = if right.contains(':') { userset(right)? } else { Who::User(right).tested().ok()? };
        Some((left, who))
    });
    parts.ok_or_else(|| Fault::Text(format!("not a tuple: {text:?}")))
}

/// The store and the place of a token: 18 bytes in base64, of which the first two are 1 and 0.
fn parts(token: &str) -> Result<(u64, u64), Fault> {
    let bits = |sign| SIGNS.iter().position(|other| *other == sign).map(|bits| bits as u128);
    let bits: Option<Vec<u128>> = token.bytes().map(bits).collect();
    match bits {
        Some(bits) if token.len() == 24 && bits[0] << 10 | bits[1] << 4 | bits[2] >> 2 == 0x100 => {
            let numbers = bits.iter().fold(0, |all, bits| all << 6 | bits); // the first two bytes are shifted out
            Ok(((numbers >> 64) as u64, numbers as u64))
        }
        _ => Err(Fault::Text(format!("not a token: {token:?}"))),
    }
}

/// The place of a token: the number of a write in the log.
pub fn place(token: &str) -> Result<u64, Fault> {
    Ok(parts(token)?.1)
}

/// The token of the later place, of two of one store.
pub fn newest<'a>(one: &'a str, other: &'a str) -> Result<&'a str, Fault> {
    let ((store, place), (other_store, other_place)) = (parts(one)?, parts(other)?);
    if store != other_store {
        return Err(Fault::Text(format!("tokens of two stores: {one}, {other}")));
    }
    Ok(if other_place > place { other } else { one })
}

/// The token of place 0 of a store, which is before its first write.
pub fn start(store: u64) -> String {
    let sign = |number: u32| {
        // The 144 bits are 0x0100, the store, and a place of 64 zeros.
        let bits = (0..6).map(|bit| match 6 * number + bit {
            7 => 1,
            at @ 16..=79 => (store >> (79 - at) & 1) as usize,
            _ => 0,
        });
        SIGNS[bits.fold(0, |all, bit| all << 1 | bit)] as char
    };
    (0..24).map(sign).collect()
}

#[cfg(test)]
mod tests {
    use super::*;

    #[test]
    fn tokens() {
        assert_eq!(start(1), "AQAAAAAAAAAAAQAAAAAAAAAA");
        for store in [0, 7, 1 << 40, u64::MAX] {
            assert_eq!(parts(&start(store)).unwrap(), (store, 0));
        }
        assert!(newest(&start(1), &start(2)).is_err());
    }

    #[test]
    fn tuples() {
        assert_eq!(tuple("doc:a", "viewer", Who::User("ann")).unwrap(), "doc:a#viewer@ann");
        assert_eq!(sides("doc:a#viewer@g:b#member").unwrap(), ("doc:a#viewer", Who::Userset("g:b", "member")));
        for wrong in ["doc:a", "doc:a#viewer", "doc:a#viewer@", "doc:a#viewer@g:b", "doc:a#viewer@ann@x", "a#b@ann"] {
            assert!(sides(wrong).is_err(), "{wrong}");
        }
    }
}
