//! Has a store do what standard input says, and prints what came of it (../../trials.py): trial HOST PORT MILLISECONDS
use std::{env, io, sync::Mutex, thread, time::Duration};
use zanstore::{newest, place, tuple, Fault, Freshness::Latest, Store, Who, Write};

const ROUNDS: usize = 100;

/// How many answers are wrong where threads share the store, each with a tuple of its own: that of every other one is there.
fn shared(store: &mut Store, tuples: &[&str]) -> usize {
    let store = Mutex::new(store);
    let is_right = |number: usize| {
        let found = store.lock().unwrap().check(tuples[number], Latest);
        found.is_ok_and(|checked| checked.member != (number % 2 == 1))
    };
    let ask = |number: usize| (0..ROUNDS).filter(|_| !is_right(number)).count();
    thread::scope(|all| {
        let threads: Vec<_> = (0..tuples.len()).map(|number| all.spawn(move || ask(number))).collect();
        threads.into_iter().map(|one| one.join().unwrap()).sum()
    })
}

fn given_up(store: &mut Store, tuple: &str) -> &'static str {
    let (limit, tries) = (store.limit, store.tries);
    (store.limit, store.tries) = (Duration::from_millis(200), 1);
    let answer = store.check(tuple, Latest);
    (store.limit, store.tries) = (limit, tries);
    match answer {
        Err(Fault::Gone(_)) => "given up",
        _ => "answered",
    }
}

/// All events up to the first list that is empty.
fn watched(store: &mut Store, token: &str, namespaces: &[&str]) -> Result<String, Fault> {
    let mut watch = store.watch(token, namespaces);
    watch.pause = Duration::ZERO;
    let mut found = Vec::new();
    for watched in watch {
        let events = watched?.events;
        if events.is_empty() {
            break;
        }
        found.extend(events.iter().map(|one| format!("{}{}", one.place, &one.change.to_string()[..1])));
    }
    Ok(found.join(" "))
}

fn done(store: &mut Store, words: &[&str]) -> Result<String, Fault> {
    Ok(match words {
        ["write", one] => store.write(&Write::new().touch(one)).map(|_| "wrote".to_string())?,
        ["check", one] => store.check(one, Latest)?.member.to_string(),
        ["check-many", tuples @ ..] => {
            let members = store.check_many(tuples, Latest)?.members;
            members.iter().map(bool::to_string).collect::<Vec<_>>().join(" ")
        }
        ["why", one] => {
            let why = store.why(one, Latest)?;
            why.path.map_or_else(|| format!("none: {}", why.walked.join(" ")), |path| path.join(" "))
        }
        ["watch", token, namespaces @ ..] => watched(store, token, namespaces)?,
        ["shared", tuples @ ..] => shared(store, tuples).to_string(),
        ["give-up", one] => given_up(store, one).to_string(),
        ["close"] => {
            store.close();
            "closed".to_string()
        }
        ["pause", time] => {
            thread::sleep(Duration::from_millis(time.parse().unwrap()));
            "paused".to_string()
        }
        ["tuple", object, relation, id] => tuple(object, relation, Who::User(id))?,
        ["userset", object, relation, other, inner] => tuple(object, relation, Who::Userset(other, inner))?,
        ["place", token] => place(token)?.to_string(),
        ["newest", one, other] => newest(one, other)?.to_string(),
        _ => "no such command".to_string(),
    })
}

fn main() {
    let words: Vec<String> = env::args().collect();
    let mut store = Store::new(&words[1], words[2].parse().unwrap());
    store.limit = Duration::from_millis(words[3].parse().unwrap());
    for line in io::read_to_string(io::stdin()).unwrap().split('\x1e') {
        let told = match done(&mut store, &line.split('\x1f').collect::<Vec<_>>()) {
            Ok(found) => found,
            Err(Fault::Refused(number, name)) => format!("refused {number} {name}"),
            Err(Fault::Gone(_)) => "gone".to_string(),
            Err(Fault::NoAnswer(_)) => "no answer".to_string(),
            Err(Fault::Text(_)) => "not a text".to_string(),
        };
        println!("{told}");
    }
}
