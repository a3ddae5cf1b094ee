// A plain server for `bench/serve`: the same lines, the same writes and syncs of files, and answers from a map. It is what the proved server is measured
// beside, and no store: it forgets nothing. `stub --dir DIR --store N --shards N --listen ADDR --workers N`; prints `ready`.
mod json;
#[path = "../lines/src/request.rs"]
mod request;
mod stub_lines;
mod stub_log;
mod stub_rows;
#[allow(dead_code)]
#[path = "../texts.rs"]
mod texts;
#[path = "../lines/src/token.rs"]
mod token;

use std::collections::HashMap;
use std::io::{BufRead, BufReader, Read, Write};
use std::net::{TcpListener, TcpStream};
use std::path::Path;
use std::sync::atomic::{AtomicU64, Ordering::SeqCst};
use std::sync::{Mutex, RwLock};
use request::{Freshness, Request, TOO_LARGE};
use stub_lines::{changed, key_of, set_of, word, Answer, Change, Condition};
use stub_log::Log;
use stub_rows::Rows;

struct Shard {
    log: Mutex<Log>,
    rows: RwLock<Rows>,
}

struct Coordinator {
    log: Log,
    writes: Vec<Vec<Change>>,
}

pub struct Store {
    number: u64,
    shards: Vec<Shard>,
    coordinator: Mutex<Coordinator>,
    kept: AtomicU64,
}

impl Store {
    fn open(dir: &Path, number: u64, shards: usize) -> std::io::Result<Store> {
        let (log, bodies) = Log::open(&dir.join("c.a"))?;
        let writes: Vec<_> = bodies.iter().map(|body| stub_lines::changes_of(body)).collect();
        let mut opened = Vec::new();
        for at in 0..shards {
            // A shard's records are read as they are by the proved one, and say nothing more than the coordinator's.
            let (log, _) = Log::open(&dir.join(format!("{at}.a")))?;
            opened.push(Shard { log: Mutex::new(log), rows: RwLock::default() });
        }
        let kept = AtomicU64::new(writes.len() as u64);
        let store = Store { number, shards: opened, coordinator: Mutex::new(Coordinator { log, writes: Vec::new() }), kept };
        for (at, changes) in writes.iter().enumerate() {
            store.learn(changes, at as u64 + 1);
        }
        store.coordinator.lock().unwrap().writes = writes;
        Ok(store)
    }

    fn shard_of(&self, key: &str) -> usize {
        let object = key.split('\0').take(2).flat_map(str::bytes);
        let hash = object.fold(14695981039346656037u64, |hash, byte| (hash ^ byte as u64).wrapping_mul(1099511628211));
        (hash >> 32) as usize % self.shards.len()
    }

    fn learn(&self, changes: &[Change], place: u64) {
        for change in changes {
            self.shards[self.shard_of(&change.key)].rows.write().unwrap().apply(&change.key, place, change.is_touch);
        }
    }

    // Its part is durable at each shard, and then its decision at the coordinator, which one write makes at a time.
    fn write(&self, changes: Vec<Change>, conditions: &[Condition]) -> Answer {
        let mut parts: HashMap<usize, Vec<&Change>> = HashMap::new();
        for change in &changes {
            parts.entry(self.shard_of(&change.key)).or_default().push(change);
        }
        for (shard, part) in parts {
            let body = stub_lines::body_of(part.into_iter());
            let ticket = self.shards[shard].log.lock().unwrap().stage(&body);
            self.shards[shard].log.lock().unwrap().flush_for(ticket);
        }
        let mut side = self.coordinator.lock().unwrap();
        for condition in conditions {
            if !self.shards[self.shard_of(&condition.key)].rows.read().unwrap().meets(condition) {
                return Answer::Refused((9, "Precondition"));
            }
        }
        let ticket = side.log.stage(&stub_lines::body_of(changes.iter()));
        side.log.flush_for(ticket);
        let place = side.writes.len() as u64 + 1;
        self.learn(&changes, place);
        side.writes.push(changes);
        self.kept.store(place, SeqCst);
        Answer::Token(place)
    }

    fn read(&self, sets: &[stub_rows::Set], place: u64) -> Answer {
        let of_set = |set: &stub_rows::Set| match &set.object {
            Some(object) => self.shards[self.shard_of(object)].rows.read().unwrap().selected(set, place),
            None => {
                let mut rows: Vec<_> = self.shards.iter().flat_map(|shard| shard.rows.read().unwrap().selected(set, place)).collect();
                rows.sort();
                rows
            }
        };
        Answer::Sets(sets.iter().map(of_set).collect(), place)
    }

    fn check(&self, key: &str, place: u64) -> Answer {
        let (set, user) = stub_rows::set_and_user(key);
        let (mut waiting, mut seen) = (vec![set.to_string()], std::collections::HashSet::new());
        while let Some(set) = waiting.pop() {
            let rows = self.shards[self.shard_of(&set)].rows.read().unwrap();
            if rows.is_there(&format!("{set}{user}"), place) {
                return Answer::Member(true, place);
            }
            for inner in rows.usersets(&set, place) {
                if seen.insert(inner.clone()) {
                    waiting.push(inner);
                }
            }
        }
        Answer::Member(false, place)
    }

    fn watch(&self, from: u64, limit: u64, namespaces: &[Vec<u8>]) -> Answer {
        let side = self.coordinator.lock().unwrap();
        let end = (from + limit).min(self.kept.load(SeqCst));
        let mut events = Vec::new();
        for place in from..end {
            for change in &side.writes[place as usize] {
                if namespaces.iter().any(|name| change.key.starts_with(&format!("{}\0", word(name)))) {
                    events.push((place + 1, change.clone()));
                }
            }
        }
        Answer::Events(events, end.max(from))
    }

    fn answer(&self, line: &[u8]) -> Answer {
        let kept = self.kept.load(SeqCst);
        let place_of = |fresh| match fresh {
            Freshness::AtLeast(place) | Freshness::Exact(place) if place > kept => None,
            Freshness::Exact(place) => Some(place),
            _ => Some(kept),
        };
        let answered = |answer: Option<Answer>| answer.unwrap_or(Answer::Refused((7, "Future")));
        match request::parse(line, self.number) {
            Ok(Request::Write(write)) => {
                let conditions = write.conditions.into_iter();
                let conditions = conditions.map(|one| Condition { key: key_of(&one.tuple), want: one.want });
                self.write(write.changes.iter().map(changed).collect(), &conditions.collect::<Vec<_>>())
            }
            Ok(Request::Read(fresh, sets)) => {
                let sets: Vec<_> = sets.iter().map(set_of).collect();
                answered(place_of(fresh).map(|place| self.read(&sets, place)))
            }
            Ok(Request::Check(fresh, tuple)) => {
                answered(place_of(fresh).map(|place| self.check(&key_of(&tuple), place)))
            }
            Ok(Request::Watch(from, limit, namespaces)) => self.watch(from, limit, &namespaces),
            Err(refusal) => Answer::Refused(refusal),
        }
    }
}

fn serve(store: &Store, socket: TcpStream) -> std::io::Result<()> {
    socket.set_nodelay(true)?;
    let mut lines = BufReader::with_capacity(65536, &socket);
    let (mut line, mut out) = (Vec::new(), Vec::new());
    loop {
        line.clear();
        if (&mut lines).take(262_145).read_until(b'\n', &mut line)? == 0 {
            return Ok(());
        }
        let is_long = line.len() == 262_145 && !line.ends_with(b"\n");
        if is_long {
            lines.skip_until(b'\n')?;
        }
        let answer = if is_long { Answer::Refused(TOO_LARGE) } else { store.answer(&line) };
        stub_lines::spell(&answer, store.number, &mut out);
        // Lines that were sent ahead are answered together.
        if !lines.buffer().contains(&b'\n') || out.len() > 65536 {
            (&socket).write_all(&out)?;
            out.clear();
        }
    }
}

fn main() {
    let words: Vec<String> = std::env::args().collect();
    let named = |name: &str| words.iter().position(|word| word == name).map(|at| words[at + 1].clone());
    let option = |name: &str| named(name).unwrap_or_else(|| panic!("needs {name}"));
    let number = |name: &str| option(name).parse::<u64>().expect("a number");
    let store = Store::open(Path::new(&option("--dir")), number("--store"), number("--shards") as usize).expect("the files");
    let listener = TcpListener::bind(option("--listen")).expect("the address");
    println!("ready");
    std::thread::scope(|scope| {
        for _ in 0..number("--workers") {
            scope.spawn(|| {
                for socket in listener.incoming().flatten() {
                    // A client that goes ends its session alone.
                    let _ = serve(&store, socket);
                }
            });
        }
    });
}
