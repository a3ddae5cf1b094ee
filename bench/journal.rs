// The measures of crates/bench/src/codec.rt and flush.rt in plain Rust: the same records, the same bytes, and a disk in memory
// that keeps its calls.
mod log;

use log::{Journal, VERSION, WriteId, decode_batch, put_id, put_u64, run, tell};
use std::hint::black_box;
use std::time::Instant;

// ---- the measures

const TOUCH_WHERE_ABSENT: [u8; 38] = *b"\x01\x01\x03doc\x01a\x06viewer\x01\x02u1\x01\x03doc\x01a\x06viewer\x01\x02u1\x03";

fn batch_of(count: u16) -> Vec<u8> {
    let mut bytes = vec![VERSION];
    bytes.extend_from_slice(&count.to_be_bytes());
    for i in 0..count {
        let number = u64::from(i);
        if i % 2 == 0 {
            bytes.push(1);
            put_id(&mut bytes, &WriteId { epoch: 1, number: number + 1 });
            bytes.extend_from_slice(&TOUCH_WHERE_ABSENT);
        } else {
            bytes.push(2);
            put_u64(&mut bytes, number);
            bytes.extend_from_slice(&[0, 1]);
            put_id(&mut bytes, &WriteId { epoch: 1, number });
            put_u64(&mut bytes, number);
        }
    }
    bytes
}

fn codec(rounds: u32) -> Option<()> {
    let bytes = batch_of(1_000);
    let records = decode_batch(&bytes)?;
    let mut out = Vec::with_capacity(bytes.len());

    let start = Instant::now();
    let mut size = 0;
    for _ in 0..rounds {
        out.clear();
        for record in black_box(&records) {
            record.encode(&mut out);
        }
        size += black_box(&out).len();
    }
    let encoding = start.elapsed();

    let start = Instant::now();
    let mut count = 0;
    for _ in 0..rounds {
        count += black_box(decode_batch(black_box(&bytes))?).len();
    }
    let decoding = start.elapsed();

    if rounds > 0 && out != bytes[3..] {
        return None;
    }
    let amount = u64::from(rounds) * 1_000;
    tell("encode", amount, encoding, size as u64);
    tell("decode", amount, decoding, count as u64);
    Some(())
}

fn flush(count: u16) -> Option<()> {
    let bytes = batch_of(count);
    let records = decode_batch(&bytes)?;
    let mut journal = Journal::new();
    let rounds = 200_000 / u32::from(count).max(1);
    let before = journal.disk.calls;

    let start = Instant::now();
    for _ in 0..rounds {
        for record in black_box(&records) {
            if !journal.stage(record) {
                return None;
            }
        }
        journal.flush();
    }
    let took = start.elapsed();

    let calls = (journal.disk.calls - before) / u64::from(rounds).max(1);
    let size = u64::from(rounds) * bytes.len() as u64;
    black_box(&journal.disk.history);
    tell("flush", size, took, calls);
    Some(())
}

fn main() {
    run(|name, number| match name {
        "codec" => codec(u32::try_from(number).ok()?),
        "flush" => flush(u16::try_from(number).ok()?),
        _ => None,
    })
}
