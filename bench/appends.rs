// The measure of crates/bench/src/appends.rt in plain Rust: the same four calls of the same file.
mod log;
#[path = "serving/stub_log.rs"]
mod stub_log;

use log::{run, tell};
use std::path::Path;
use std::time::Instant;
use std::{fs, io};
use stub_log::Log;

const NAME: &str = "./bench.log";

fn measure(count: u64) -> io::Result<()> {
    let _ = fs::remove_file(NAME);
    let (mut file, _) = Log::open(Path::new(NAME))?;
    let start = Instant::now();
    for _ in 0..count {
        // With both lengths and the gate behind it a body of 96 bytes takes 105.
        let ticket = file.stage(&[7; 96]);
        file.flush_for(ticket);
    }
    let took = start.elapsed();
    let size = fs::metadata(NAME)?.len();
    fs::remove_file(NAME)?;
    tell("append", count, took, size);
    Ok(())
}

fn main() {
    run(|name, count| if name == "appends" { measure(count).ok() } else { None })
}
