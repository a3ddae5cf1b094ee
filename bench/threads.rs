// The measures of crates/bench/src/latest.rt and pairs.rt in plain Rust: a load of an `AtomicU64`, and a `VecDeque` under a `Mutex`.
mod log;

use log::{run, tell};
use std::collections::VecDeque;
use std::hint::black_box;
use std::sync::atomic::{AtomicU64, Ordering};
use std::sync::Mutex;
use std::thread;
use std::time::Instant;

const LOADS: u64 = 100_000_000;
const PLACES: usize = 1024;

/// Looks again and again whether the word fell.
fn load(look: impl Fn() -> u64) -> u64 {
    let mut last = 0u64;
    for _ in 0..LOADS {
        let place = look();
        if place < last {
            break;
        }
        last = place;
    }
    last
}

/// The same look, by a call.
#[inline(never)]
fn called(word: &AtomicU64) -> u64 {
    word.load(Ordering::SeqCst)
}

fn by_four(look: impl Fn() -> u64 + Copy + Send) -> u64 {
    thread::scope(|scope| {
        let threads = [(); 4].map(|()| scope.spawn(move || load(look)));
        threads.into_iter().map(|thread| thread.join().unwrap()).sum()
    })
}

/// Connections that wait, with their numbers.
struct Queue(Mutex<VecDeque<(u64, u64)>>);

impl Queue {
    fn new() -> Queue {
        Queue(Mutex::new(VecDeque::with_capacity(PLACES)))
    }

    fn put(&self, last: &mut u64, connection: u64) -> Result<(), u64> {
        let mut waiting = self.0.lock().unwrap();
        if waiting.len() == PLACES {
            return Err(connection);
        }
        *last += 1;
        waiting.push_back((*last, connection));
        Ok(())
    }

    fn take(&self) -> Option<(u64, u64)> {
        self.0.lock().unwrap().pop_front()
    }
}

fn put_and_take(queue: &Queue, count: u64) -> u64 {
    let mut last = 0;
    let mut sum = 0u64;
    for connection in 0..count {
        if queue.put(&mut last, connection).is_err() {
            break;
        }
        if let Some((number, _connection)) = queue.take() {
            sum = sum.wrapping_add(number);
        }
    }
    sum
}

fn put_all(queue: &Queue, count: u64) {
    let mut last = 0;
    while last < count {
        let connection = last;
        if queue.put(&mut last, connection).is_err() {
            thread::yield_now();
        }
    }
}

fn take_all(queue: &Queue, count: u64) -> u64 {
    let mut sum = 0u64;
    loop {
        match queue.take() {
            Some((number, _connection)) => {
                sum = sum.wrapping_add(number);
                if number >= count {
                    return sum;
                }
            }
            None => thread::yield_now(),
        }
    }
}

fn hand_over(queue: &Queue, count: u64) -> u64 {
    thread::scope(|scope| {
        scope.spawn(|| put_all(queue, count));
        take_all(queue, count)
    })
}

fn measure(measure: &str, count: u64) -> Option<()> {
    let word = &black_box(AtomicU64::new(0));
    let (inlined, called) = (|| word.load(Ordering::SeqCst), || called(word));
    let queue = Queue::new();
    let start = Instant::now();
    let (name, amount, answer) = match measure {
        "latest-by-one" => ("latest", LOADS, load(inlined)),
        "latest-by-four" => ("latest", 4 * LOADS, by_four(inlined)),
        "called-by-one" => ("latest", LOADS, load(called)),
        "called-by-four" => ("latest", 4 * LOADS, by_four(called)),
        "pairs-by-one" => ("pairs", count, put_and_take(&queue, count)),
        "pairs-by-two" => ("pairs", count, hand_over(&queue, count)),
        _ => return None,
    };
    tell(name, amount, start.elapsed(), black_box(answer));
    Some(())
}

fn main() {
    run(measure)
}
