// The clients of `bench/serve` and `bench/lasting`: load ADDR WORK CLIENTS COUNT SECONDS, load ADDR fill, or load ADDR drain TOKEN. Each client has a
// connection of its own and asks one request at a time, until it asked COUNT or SECONDS are over. Prints how many answers there were, the nanoseconds, those of
// the answers in the middle and at 99 of 100, and the bytes of the answers. It stops at a refusal.
use std::io::{BufRead, BufReader, Write};
use std::net::TcpStream;
use std::sync::Barrier;
use std::time::{Duration, Instant};

/// How many objects of ten viewers `fill` makes, and groups of ten members.
const OBJECTS: u64 = 10_000;
const GROUPS: u64 = 1_120;
const CHANGES: usize = 64;
/// How many tuples of its own a client touches over and over.
const OWN: u64 = 400;
/// Groups in groups: the first has the second as its member, and the last has `deep`.
const DEPTH: u64 = 5;

struct Session {
    socket: TcpStream,
    lines: BufReader<TcpStream>,
    answer: Vec<u8>,
}

impl Session {
    fn new(address: &str) -> Session {
        let socket = TcpStream::connect(address).expect("a connection");
        socket.set_nodelay(true).expect("no delay");
        let lines = BufReader::with_capacity(1 << 16, socket.try_clone().expect("a reader"));
        Session { socket, lines, answer: Vec::new() }
    }

    fn ask(&mut self, request: &str) -> &[u8] {
        self.socket.write_all(request.as_bytes()).expect("a request is sent");
        self.answer.clear();
        self.lines.read_until(b'\n', &mut self.answer).expect("an answer");
        let is_right = self.answer.ends_with(b"}\n") && !self.answer.starts_with(b"{\"error\"");
        assert!(is_right, "{request} is answered {}", String::from_utf8_lossy(&self.answer));
        &self.answer
    }
}

/// Numbers that look random, the same in each run.
struct Numbers(u64);

impl Numbers {
    fn below(&mut self, limit: u64) -> u64 {
        self.0 = self.0.wrapping_mul(6364136223846793005).wrapping_add(1442695040888963407);
        (self.0 >> 33) % limit
    }
}

/// A write that touches these tuples.
fn touch(tuples: &[String]) -> String {
    let changes: Vec<_> = tuples.iter().map(|tuple| format!("{{\"op\":\"touch\",\"tuple\":\"{tuple}\"}}")).collect();
    format!("{{\"op\":\"write\",\"changes\":[{}]}}\n", changes.join(","))
}

fn read(numbers: &mut Numbers) -> String {
    format!("{{\"op\":\"read\",\"sets\":[\"doc:o{}\"]}}\n", numbers.below(OBJECTS))
}

fn check(numbers: &mut Numbers) -> String {
    // Half of them are members.
    format!("{{\"op\":\"check\",\"tuple\":\"doc:o{}#viewer@u{}\"}}\n", numbers.below(OBJECTS), numbers.below(20))
}

/// The request of this number, and a sign for what kind it is.
fn request(work: &str, client: u64, number: u64, numbers: &mut Numbers) -> String {
    match work {
        "write" => touch(&[format!("doc:w{client}.{number}#viewer@ann")]),
        "again" => touch(&[format!("doc:a{client}.{}#viewer@ann", number % OWN)]),
        "read" => read(numbers),
        "check" => check(numbers),
        "deep" => "{\"op\":\"check\",\"tuple\":\"doc:deep#viewer@deep\"}\n".to_string(),
        "mix" => match numbers.below(100) {
            0 => request("write", client, number, numbers),
            1..=9 => read(numbers),
            _ => check(numbers),
        },
        _ => panic!("no such work: {work}"),
    }
}

struct Told {
    times: Vec<u64>,
    bytes: u64,
    ended: Instant,
}

fn client(address: &str, work: &str, client: u64, count: u64, limit: Duration, start: &Barrier) -> Told {
    let (mut session, mut numbers) = (Session::new(address), Numbers(client + 1));
    let mut told = Told { times: Vec::with_capacity(count as usize), bytes: 0, ended: Instant::now() };
    // Names that no earlier run used.
    let first = std::process::id() as u64 * 10_000_000;
    start.wait();
    let begin = Instant::now();
    for number in 0..count {
        let line = request(work, client, first + number, &mut numbers);
        let asked = Instant::now();
        told.bytes += session.ask(&line).len() as u64;
        told.times.push(asked.elapsed().as_nanos() as u64);
        if begin.elapsed() > limit {
            break;
        }
    }
    told.ended = Instant::now();
    told
}

fn load(address: &str, work: &str, clients: u64, count: u64, limit: Duration) -> (Vec<u64>, u128, u64) {
    let start = Barrier::new(clients as usize + 1);
    std::thread::scope(|scope| {
        let running: Vec<_> = (0..clients).map(|number| scope.spawn({ let start = &start; move || client(address, work, number, count, limit, start) })).collect();
        start.wait();
        let begin = Instant::now();
        let told: Vec<_> = running.into_iter().map(|one| one.join().expect("a client")).collect();
        let end = told.iter().map(|one| one.ended).max().expect("a client");
        let bytes = told.iter().map(|one| one.bytes).sum();
        let mut times: Vec<_> = told.into_iter().flat_map(|one| one.times).collect();
        times.sort_unstable();
        (times, end.duration_since(begin).as_nanos(), bytes)
    })
}

fn tuples() -> Vec<String> {
    let viewers = (0..OBJECTS).flat_map(|object| (0..10).map(move |user| format!("doc:o{object}#viewer@u{user}")));
    let members = (0..GROUPS).flat_map(|group| (0..10).map(move |user| format!("group:g{group}#member@u{user}")));
    let mut made: Vec<_> = viewers.chain(members).collect();
    made.push("doc:deep#viewer@group:deep1#member".to_string());
    made.extend((1..DEPTH).map(|depth| format!("group:deep{depth}#member@group:deep{}#member", depth + 1)));
    made.push(format!("group:deep{DEPTH}#member@deep"));
    made
}

/// Writes what the other works ask for, by writes of many changes.
fn fill(address: &str) -> (u64, u128, u64) {
    let (mut session, begin, made) = (Session::new(address), Instant::now(), tuples());
    for some in made.chunks(CHANGES) {
        session.ask(&touch(some));
    }
    (made.len() as u64, begin.elapsed().as_nanos(), 0)
}

/// Follows the changelog from its beginning; counts its events.
fn drain(address: &str, start: &str) -> (u64, u128, u64) {
    let (mut session, begin, mut from, mut events, mut bytes) = (Session::new(address), Instant::now(), start.to_string(), 0, 0);
    loop {
        let answer = session.ask(&format!("{{\"op\":\"watch\",\"from\":\"{from}\",\"limit\":256,\"namespaces\":[\"doc\",\"group\"]}}\n"));
        let heartbeat = String::from_utf8_lossy(&answer[answer.len() - 27..answer.len() - 3]).into_owned();
        events += answer.windows(9).filter(|window| window == b"\"change\":").count() as u64;
        bytes += answer.len() as u64;
        if heartbeat == from {
            return (events, begin.elapsed().as_nanos(), bytes);
        }
        from = heartbeat;
    }
}

fn main() {
    let words: Vec<String> = std::env::args().collect();
    let number = |at: usize| words.get(at).map_or(0, |word| word.parse::<u64>().expect("a number"));
    let told = match words[2].as_str() {
        "fill" => fill(&words[1]),
        "drain" => drain(&words[1], &words[3]),
        work => {
            let (times, nanoseconds, bytes) = load(&words[1], work, number(3), number(4), Duration::from_secs(number(5)));
            let at = |part: usize| times[(times.len() * part / 100).min(times.len() - 1)];
            println!("{} {nanoseconds} {} {} {bytes}", times.len(), at(50), at(99));
            return;
        }
    };
    println!("{} {} 0 0 {}", told.0, told.1, told.2);
}
