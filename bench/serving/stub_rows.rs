// The tuples of a shard in a map, each with the places that changed it. A key is `namespace\0id\0relation\0` and the user: `0` and an id, or `1` and
// `namespace\0id\0relation\0`; so keys are in the order of tuples, and those of an object lie side by side.
use crate::stub_lines::Condition;
use crate::texts::log::Want;
use std::collections::BTreeMap;

#[derive(Default)]
pub struct Rows(BTreeMap<String, Vec<(u64, bool)>>);

/// Whose tuples: those whose key begins so, of this relation and user where there is one.
pub struct Set {
    pub object: Option<String>,
    pub start: String,
    pub relation: Option<String>,
    pub user: Option<String>,
}

pub fn set_and_user(key: &str) -> (&str, &str) {
    let at = key.match_indices('\0').nth(2).expect("three parts before the user").0;
    key.split_at(at + 1)
}

/// A key as a text.
pub fn text_of(key: &str) -> String {
    let (set, user) = set_and_user(key);
    let object = |set: &str| {
        let parts: Vec<_> = set.split('\0').collect();
        format!("{}:{}#{}", parts[0], parts[1], parts[2])
    };
    let user = if let Some(plain) = user.strip_prefix('0') { plain.to_string() } else { object(&user[1..]) };
    format!("{}@{user}", object(set))
}

fn is_at(changes: &[(u64, bool)], place: u64) -> bool {
    changes.iter().rev().find(|change| change.0 <= place).is_some_and(|change| change.1)
}

impl Rows {
    pub fn apply(&mut self, key: &str, place: u64, is_touch: bool) {
        self.0.entry(key.to_string()).or_default().push((place, is_touch));
    }

    pub fn is_there(&self, key: &str, place: u64) -> bool {
        self.0.get(key).is_some_and(|changes| is_at(changes, place))
    }

    fn with_start<'a>(&'a self, start: &'a str, place: u64) -> impl Iterator<Item = &'a String> {
        let found = self.0.range(start.to_string()..).take_while(move |row| row.0.starts_with(start));
        found.filter(move |row| is_at(row.1, place)).map(|row| row.0)
    }

    pub fn selected(&self, set: &Set, place: u64) -> Vec<String> {
        let is_one = |key: &&String| {
            let (before, user) = set_and_user(key);
            let is_user = set.user.as_ref().is_none_or(|wanted| wanted == user);
            is_user && set.relation.as_ref().is_none_or(|wanted| before.split('\0').nth(2) == Some(wanted))
        };
        self.with_start(&set.start, place).filter(is_one).cloned().collect()
    }

    /// The usersets of a set, each as what the keys of its tuples begin with.
    pub fn usersets(&self, set: &str, place: u64) -> Vec<String> {
        self.with_start(&format!("{set}1"), place).map(|key| set_and_user(key).1[1..].to_string()).collect()
    }

    pub fn meets(&self, condition: &Condition) -> bool {
        let changes = self.0.get(&condition.key).map(Vec::as_slice).unwrap_or_default();
        match condition.want {
            Want::Exists => is_at(changes, u64::MAX),
            Want::Absent => !is_at(changes, u64::MAX),
            Want::NotAfter(place) => changes.last().is_none_or(|last| last.0 <= place),
        }
    }
}
