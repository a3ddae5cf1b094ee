// The measure of crates/bench/src/lines.rt in plain Rust: the same lines, read and written with serde_json, and the same tests of each.
mod json {
    pub use serde_json::Value;
    pub type Members = serde_json::Map<String, Value>;

    pub fn read(line: &[u8]) -> Option<Value> {
        serde_json::from_slice(line).ok()
    }
}
mod request;
mod token;
#[allow(dead_code)]
#[path = "../../texts.rs"]
mod texts;

use request::{Refusal, Request, TOO_LARGE};
use texts::log::{run, tell};
use serde::Serialize;
use std::io::{self, BufRead, BufReader, Write};
use std::time::Instant;

const MAX_LINE: usize = 262_144;
const PLACE: u64 = 1;

const LINES: [(&str, &str); 4] = [
    (
        "lines-write",
        r#"{"op":"write","changes":[{"op":"touch","tuple":"doc:d1#viewer@u1"},{"op":"delete","tuple":"doc:d2#viewer@group:g1#member"}],"conditions":[{"tuple":"doc:d1#lock@lock","since":"AQAAAAAAAAAAAQAAAAAAAAAB"}]}"#,
    ),
    ("lines-read", r#"{"op":"read","sets":["doc:d1","doc#viewer@u1"],"at_least":"AQAAAAAAAAAAAQAAAAAAAAAB"}"#),
    ("lines-check", r#"{"op":"check","tuple":"doc:d1#viewer@u1","exact":"AQAAAAAAAAAAAQAAAAAAAAAB"}"#),
    ("lines-watch", r#"{"op":"watch","from":"AQAAAAAAAAAAAQAAAAAAAAAB","limit":256,"namespaces":["doc","group"]}"#),
];

#[derive(Serialize)]
#[serde(untagged)]
enum Answer {
    Written { zookie: String },
    Rows { sets: Vec<Vec<String>>, zookie: String },
    Membership { member: bool, zookie: String },
    Events { events: Vec<String>, heartbeat: String },
    Refused { error: u8, name: &'static str },
}

// Answers at once, and counts what it was asked.
fn answer(request: Request, asked: &mut u64) -> Answer {
    *asked += 1;
    let zookie = token::encode(1, PLACE);
    match request {
        Request::Write(_) => Answer::Written { zookie },
        Request::Read(..) => Answer::Rows { sets: Vec::new(), zookie },
        Request::Check(..) => Answer::Membership { member: true, zookie },
        Request::Watch(..) => Answer::Events { events: Vec::new(), heartbeat: zookie },
    }
}

fn refusal((error, name): Refusal) -> Answer {
    Answer::Refused { error, name }
}

fn serve(input: &mut impl BufRead, output: &mut impl Write, asked: &mut u64) -> io::Result<()> {
    let mut line = Vec::new();
    loop {
        line.clear();
        if input.read_until(b'\n', &mut line)? == 0 {
            return output.flush();
        }
        let told = match line.strip_suffix(b"\n") {
            Some(line) if line.len() <= MAX_LINE => match request::parse(line, 1) {
                Ok(request) => answer(request, asked),
                Err(error) => refusal(error),
            },
            _ => refusal(TOO_LARGE),
        };
        serde_json::to_writer(&mut *output, &told)?;
        output.write_all(b"\n")?;
    }
}

fn measure(name: &str, count: u64) -> Option<()> {
    let (_, line) = LINES.iter().find(|(each, _)| *each == name)?;
    let input = format!("{line}\n").repeat(count as usize).into_bytes();
    let (mut output, mut asked) = (Vec::new(), 0);
    let start = Instant::now();
    serve(&mut BufReader::new(input.as_slice()), &mut output, &mut asked).ok()?;
    let took = start.elapsed();
    tell("lines", count, took, asked + output.len() as u64);
    Some(())
}

fn main() {
    run(measure)
}
