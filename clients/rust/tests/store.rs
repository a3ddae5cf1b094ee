//! What the crate does over a server of any content, which ZANSTORE_HOST and ZANSTORE_PORT name: cargo test
use std::time::{Duration, SystemTime, UNIX_EPOCH};
use std::{env, error::Error, thread};
use zanstore::{newest, place, start, tuple, Change, Event, Fault, Freshness, Store, Who, Write};

/// A document of its own, whose viewers are a group of its own, in which ann is.
struct World {
    store: Store,
    doc: String,
    group: String,
    lock: String,
    outer: String,
    inner: String,
    token: String,
}

fn store() -> Option<Store> {
    let Ok(port) = env::var("ZANSTORE_PORT") else {
        eprintln!("skipped: ZANSTORE_PORT is not set");
        return None;
    };
    Some(Store::new(&env::var("ZANSTORE_HOST").unwrap_or("127.0.0.1".to_string()), port.parse().unwrap()))
}

fn world(name: &str) -> Option<World> {
    let mut store = store()?;
    let id = format!("{name}{}", SystemTime::now().duration_since(UNIX_EPOCH).unwrap().as_nanos());
    let (doc, group) = (format!("doc:{id}"), format!("group:{id}"));
    let lock = tuple(&doc, "lock", Who::User("lock")).unwrap();
    let outer = tuple(&doc, "viewer", Who::Userset(&group, "member")).unwrap();
    let inner = tuple(&group, "member", Who::User("ann")).unwrap();
    let token = store.write(&Write::new().touch(&outer).touch(&inner).touch(&lock)).unwrap();
    Some(World { store, doc, group, lock, outer, inner, token })
}

impl World {
    fn viewer(&self, id: &str) -> String {
        tuple(&self.doc, "viewer", Who::User(id)).unwrap()
    }
}

#[test]
fn checks() -> Result<(), Box<dyn Error>> {
    let Some(mut world) = world("checks") else { return Ok(()) };
    let (ann, bob) = (world.viewer("ann"), world.viewer("bob"));
    assert!(world.store.check(&ann, Freshness::AtLeast(&world.token))?.member);
    world.store.write(&Write::new().delete(&world.inner))?;
    let many = world.store.check_many(&[&ann, &bob].repeat(100), Freshness::Exact(&world.token))?;
    assert_eq!((many.members, many.zookie), ([true, false].repeat(100), world.token));
    assert_eq!(world.store.check_many(&[ann], Freshness::Latest)?.members, [false]);
    assert!(matches!(world.store.check_many::<String>(&[], Freshness::Latest), Err(Fault::Text(_))));
    Ok(())
}

#[test]
fn why() -> Result<(), Box<dyn Error>> {
    let Some(mut world) = world("why") else { return Ok(()) };
    let (ann, bob) = (world.viewer("ann"), world.viewer("bob"));
    let found = world.store.why(&ann, Freshness::AtLeast(&world.token))?;
    assert_eq!(found.path, Some(vec![world.outer.clone(), world.inner]));
    let none = world.store.why(&bob, Freshness::Exact(&world.token))?;
    assert_eq!(none.path, None);
    assert_eq!(none.walked, [format!("{}#viewer", world.doc), format!("{}#member", world.group)]);
    assert_eq!(world.store.why(&world.outer, Freshness::Latest)?.path, Some(vec![world.outer]));
    Ok(())
}

#[test]
fn writes() -> Result<(), Box<dyn Error>> {
    let Some(mut world) = world("writes") else { return Ok(()) };
    let (bob, delete) = (world.viewer("bob"), Write::new().delete(&world.outer));
    for write in [delete.clone().absent(&world.outer), delete.exists(&bob)] {
        let refused = world.store.write(&write).unwrap_err();
        assert!(matches!(refused, Fault::Refused(9, _)) && refused.to_string() == "9 Precondition");
    }
    let write = Write::new().touch(&bob).touch(&world.lock).since(&world.lock, &world.token);
    let later = world.store.write(&write)?;
    assert_eq!(newest(&world.token, &later)?, later);
    assert!(matches!(world.store.write(&write), Err(Fault::Refused(9, _))));
    let sets = [format!("{}#viewer", world.doc), world.group.clone()];
    let read = world.store.read(&sets, Freshness::AtLeast(&later))?;
    assert_eq!(read.sets, [vec![bob, world.outer], vec![world.inner]]);
    Ok(())
}

#[test]
fn edits_of_threads() -> Result<(), Box<dyn Error>> {
    let Some(mut world) = world("edits") else { return Ok(()) };
    thread::scope(|all| {
        for name in ["a", "b", "c", "d"] {
            let world = &world;
            all.spawn(move || {
                let change = |rows: &[String]| Write::new().touch(&world.viewer(&format!("{name}{}", rows.len())));
                store().unwrap().edit(&world.doc, &world.lock, change).unwrap();
            });
        }
    });
    let rows = world.store.read(&[format!("{}#viewer", world.doc)], Freshness::Latest)?.sets.concat();
    let mut numbers: Vec<_> = rows.iter().filter(|row| **row != world.outer).map(|row| &row[row.len() - 1..]).collect();
    numbers.sort();
    assert_eq!(numbers, ["2", "3", "4", "5"]);
    Ok(())
}

#[test]
fn watches() -> Result<(), Box<dyn Error>> {
    let Some(mut world) = world("watches") else { return Ok(()) };
    let bob = world.viewer("bob");
    let later = world.store.write(&Write::new().touch(&bob))?;
    let mut watch = world.store.watch(&world.token, &["doc", "group"]);
    watch.pause = Duration::ZERO;
    let mut found = Vec::new();
    for watched in watch {
        let events = watched?.events;
        if events.is_empty() {
            break;
        }
        found.extend(events.into_iter().filter(|event| event.tuple.starts_with(&world.doc)));
    }
    assert_eq!(found, [Event { place: place(&later)?, change: Change::Touch, tuple: bob }]);
    Ok(())
}

#[test]
fn faults() {
    let mut nowhere = Store::new("127.0.0.1", 1);
    nowhere.tries = 1;
    assert!(nowhere.check("doc:a#b@c", Freshness::Latest).unwrap_err().source().is_some());
    assert!(newest(&start(1), &start(2)).unwrap_err().to_string().starts_with("tokens of two stores"));
}
