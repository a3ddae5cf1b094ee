// The measure of crates/bench/src/rows.rt in plain Rust: the same rows in a map by tuple, and the same reads.
mod log;

use log::{Object, Tuple, User, run, tell, tuple};
use std::collections::{BTreeMap, BTreeSet};
use std::time::Instant;

const USERS: u64 = 10;
const READS: u64 = 10_000;
const CROWD: u64 = 10_000;

struct Row {
    place: u64,
    is_touch: bool,
}

// A tuple in the order of namespaces and users.
#[derive(PartialEq, Eq, PartialOrd, Ord)]
struct ByUser {
    namespace: Vec<u8>,
    user: User,
    id: Vec<u8>,
    relation: Vec<u8>,
}

impl ByUser {
    fn of(tuple: Tuple) -> ByUser {
        let Object { namespace, id } = tuple.object;
        ByUser { namespace, user: tuple.user, id, relation: tuple.relation }
    }

    fn tuple(&self) -> Tuple {
        Tuple {
            object: Object { namespace: self.namespace.clone(), id: self.id.clone() },
            relation: self.relation.clone(),
            user: self.user.clone(),
        }
    }
}

#[derive(Default)]
struct Versions {
    rows: BTreeMap<Tuple, Vec<Row>>,
    users: BTreeSet<ByUser>,
}

fn viewer(object: u64, user: u64) -> Tuple {
    tuple(format!("d{object}"), "viewer", format!("u{user}"))
}

fn apply(versions: &mut Versions, place: u64, tuple: &Tuple) {
    let row = Row { place, is_touch: true };
    if let Some(rows) = versions.rows.get_mut(tuple) {
        rows.push(row);
        return;
    }
    versions.users.insert(ByUser::of(tuple.clone()));
    versions.rows.insert(tuple.clone(), vec![row]);
}

fn is_there_at(rows: &[Row], place: u64) -> bool {
    let mut there = false;
    for row in rows {
        if row.place <= place {
            there = row.is_touch;
        }
    }
    there
}

// The first tuples from this one on that meet the test, where they are there.
fn kept_from(versions: &Versions, place: u64, first: Tuple, meets: impl Fn(&Tuple) -> bool) -> Vec<Tuple> {
    let those = versions.rows.range(first..).take_while(|(tuple, _)| meets(tuple));
    those.filter(|(_, rows)| is_there_at(rows, place)).map(|(tuple, _)| tuple.clone()).collect()
}

fn read_key(versions: &Versions, place: u64, key: &Tuple) -> usize {
    kept_from(versions, place, key.clone(), |tuple| tuple == key).len()
}

fn read_object(versions: &Versions, place: u64, object: &Object, relation: Option<&[u8]>) -> usize {
    let first = Tuple { object: object.clone(), relation: relation.unwrap_or(b"0").to_vec(), user: User::Id(b"!".to_vec()) };
    kept_from(versions, place, first, |tuple| tuple.object == *object && relation.is_none_or(|given| tuple.relation == given))
        .len()
}

fn read_user(versions: &Versions, place: u64, namespace: &[u8], user: &User) -> usize {
    let first = ByUser { namespace: namespace.to_vec(), user: user.clone(), id: b"!".to_vec(), relation: b"0".to_vec() };
    let those = versions.users.range(first..).take_while(|named| named.namespace == namespace && named.user == *user);
    let kept: Vec<_> = those.map(ByUser::tuple).filter(|tuple| is_there_at(&versions.rows[tuple], place)).collect();
    kept.len()
}

fn newest(versions: &Versions, changes: &[Tuple]) -> u64 {
    let last = |tuple| versions.rows.get(tuple).map_or(0, |rows| rows.iter().map(|row| row.place).max().unwrap_or(0));
    changes.iter().map(last).max().unwrap_or(0)
}

// Forgets what another version at or below the horizon follows, and deletions there.
fn collect(versions: &mut Versions, horizon: u64) {
    let count = versions.rows.len();
    versions.rows.retain(|_, rows| {
        let under = rows.iter().map(|row| row.place).filter(|place| *place <= horizon);
        let newest = under.max().unwrap_or(0);
        rows.retain(|row| horizon < row.place || (row.is_touch && newest <= row.place));
        !rows.is_empty()
    });
    if versions.rows.len() < count {
        let rows = &versions.rows;
        versions.users.retain(|named| rows.contains_key(&named.tuple()));
    }
}

// One read stands before the clock, as in the proved program.
fn print_reads(name: &str, read: impl Fn() -> usize) {
    let mut found = read();
    let start = Instant::now();
    for _ in 0..READS {
        found = read();
    }
    tell(name, READS, start.elapsed(), found as u64);
}

fn measure(rows: u64) {
    let changes: Vec<Tuple> = (0..rows).map(|row| viewer(row / USERS, row % USERS)).collect();
    let mut versions = Versions::default();
    let start = Instant::now();
    for (i, change) in changes.iter().enumerate() {
        apply(&mut versions, i as u64 + 1, change);
    }
    tell("apply", rows, start.elapsed(), rows);
    let key = viewer(5, 3);
    print_reads("key", || read_key(&versions, rows, &key));
    print_reads("object", || read_object(&versions, rows, &key.object, None));
    let crowd = (0..CROWD).map(|user| tuple("crowd".into(), "viewer", format!("u{user}")));
    let editors = (0..USERS).map(|user| tuple("crowd".into(), "editor", format!("u{user}")));
    let mine = (0..USERS).map(|object| tuple(format!("m{object}"), "viewer", "me".into()));
    for (i, change) in crowd.chain(editors).chain(mine).enumerate() {
        apply(&mut versions, rows + i as u64 + 1, &change);
    }
    let edited = tuple("crowd".into(), "editor", "me".into()).object;
    print_reads("crowded", || read_object(&versions, u64::MAX, &edited, Some(b"editor")));
    let me = User::Id(b"me".to_vec());
    print_reads("user", || read_user(&versions, u64::MAX, b"doc", &me));
    let start = Instant::now();
    let last = newest(&versions, &changes);
    tell("last", rows, start.elapsed(), last);
    for (i, change) in changes.iter().enumerate() {
        apply(&mut versions, rows + i as u64 + 1, change);
    }
    let start = Instant::now();
    collect(&mut versions, rows + rows / 2);
    tell("collect", rows, start.elapsed(), newest(&versions, &changes));
}

fn main() {
    run(|name, rows| (name == "versions").then(|| measure(rows)))
}
