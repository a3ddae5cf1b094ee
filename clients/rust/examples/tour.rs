//! Shows each call over a server of store 1: tour HOST PORT
use std::process::ExitCode;
use zanstore::{newest, start, tuple, Fault, Freshness, Store, Who, Write};

fn shown(store: &mut Store) -> Result<(), Fault> {
    let member = tuple("group:staff", "member", Who::User("ann"))?;
    let viewer = tuple("doc:plan", "viewer", Who::Userset("group:staff", "member"))?;
    let token = store.write(&Write::new().touch(&member).touch(&viewer))?;
    println!("wrote {token}");
    for id in ["ann", "bob"] {
        let asked = tuple("doc:plan", "viewer", Who::User(id))?;
        println!("{id} may view: {}", store.check(&asked, Freshness::AtLeast(&token))?.member);
    }
    let (editor, lock) =
        (tuple("doc:plan", "editor", Who::User("bob"))?, tuple("doc:plan", "lock", Who::User("lock"))?);
    let later = store.edit("doc:plan", &lock, |_| Write::new().touch(&editor))?;
    println!("edited {later}");
    let now = Freshness::AtLeast(newest(&token, &later)?);
    for (name, fresh) in [("now", now), ("then", Freshness::Exact(&token))] {
        println!("{name}: {}", store.read(&["doc:plan"], fresh)?.sets.concat().join(" "));
    }
    if let Err(refused) = store.write(&Write::new().delete(&editor).absent(&editor)) {
        println!("refused {refused}");
    }
    for watched in store.watch(&start(1), &["doc", "group"]) {
        let events = watched?.events;
        events.iter().for_each(|one| println!("{} {} {}", one.place, one.change, one.tuple));
        if events.is_empty() {
            break;
        }
    }
    Ok(())
}

fn main() -> ExitCode {
    let words: Vec<String> = std::env::args().skip(1).collect();
    let port = words.get(1).and_then(|port| port.parse().ok());
    let (2, Some(port)) = (words.len(), port) else {
        eprintln!("usage: tour HOST PORT");
        return ExitCode::from(2);
    };
    match shown(&mut Store::new(&words[0], port)) {
        Ok(()) => ExitCode::SUCCESS,
        Err(fault) => {
            eprintln!("tour: {fault}");
            ExitCode::FAILURE
        }
    }
}
