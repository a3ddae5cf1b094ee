// The measures of crates/bench/src/writes.rt and openings.rt in plain Rust: the same decisions in the same journal, with the same
// tests, and the decisions by place in a queue and by id in a map.
mod log;

use log::{Change, Condition, Disk, Entry, Journal, Object, Record, Tuple, Want, WriteId, decode_batch, run, tell, tuple};
use std::collections::{BTreeMap, BTreeSet, VecDeque};
use std::hint::black_box;
use std::time::{Duration, Instant};

const GROUP: u64 = 100;
// The first write that is decided: as in the proved program its number has eight digits.
const FIRST: u64 = 10_000_001;
const MAX_OPEN: usize = 1_024;
const MAX_NUMBER: u64 = (1 << 63) - 1;
const SHARDS: u8 = 1;
const COORDINATOR: u8 = 255;

// ---- writes

struct Write {
    changes: Vec<Change>,
    conditions: Vec<Condition>,
}

impl Write {
    fn named(self, id: WriteId) -> Entry {
        Entry { id, changes: self.changes, conditions: self.conditions }
    }
}

fn write(number: u64) -> Write {
    Write { changes: vec![Change::Touch(tuple(format!("d{number}"), "viewer", "u1".into()))], conditions: Vec::new() }
}

fn shard_of(object: &Object, shards: u8) -> u8 {
    let sum = |text: &[u8]| text.iter().map(|byte| u64::from(*byte)).sum::<u64>();
    ((sum(&object.namespace) + u64::from(b':') + sum(&object.id)) % u64::from(shards)) as u8
}

fn participants(entry: &Entry, shards: u8) -> u64 {
    let changed = entry.changes.iter().map(Change::tuple);
    let conditioned = entry.conditions.iter().map(|condition| &condition.tuple);
    changed.chain(conditioned).fold(0, |bits, tuple| bits | 1 << shard_of(&tuple.object, shards))
}

struct Intent(Entry);

struct Vote {
    id: WriteId,
    shard: u8,
}

fn votes_match(shards: u8, intent: &Intent, votes: &[Vote]) -> bool {
    let mut missing = participants(&intent.0, shards);
    for vote in votes {
        if vote.id != intent.0.id || vote.shard >= shards || missing & 1 << vote.shard == 0 {
            return false;
        }
        missing &= !(1 << vote.shard);
    }
    missing == 0
}

// ---- a shard that only prepares: what it holds, and its journal

struct Shard {
    journal: Journal,
    held: BTreeSet<Tuple>,
}

impl Shard {
    fn vote(&mut self, intent: &Intent) -> Option<Vote> {
        let Intent(entry) = intent;
        let is_held = !entry.changes.iter().all(|change| self.held.insert(change.tuple().clone()));
        if is_held || !self.journal.stage(&Record::Prepare(entry.clone())) {
            return None;
        }
        self.journal.flush();
        Some(Vote { id: entry.id, shard: 0 })
    }
}

// ---- the coordinator

#[derive(Default)]
struct Ledger {
    base: u64,
    decisions: VecDeque<Entry>,
    places: BTreeMap<WriteId, u64>,
}

impl Ledger {
    fn end(&self) -> u64 {
        self.base + self.decisions.len() as u64
    }

    fn push(&mut self, entry: Entry) {
        self.places.insert(entry.id, self.end() + 1);
        self.decisions.push_back(entry);
    }
}

struct LastChange {
    place: u64,
    is_there: bool,
}

struct Decided {
    place: u64,
    epoch: u64,
}

struct Coordinator {
    journal: Journal,
    epoch: u64,
    open_numbers: Vec<u64>,
    given: u64,
    ledger: Ledger,
    kept: u64,
    horizon: u64,
}

fn holds(latest: &BTreeMap<Tuple, LastChange>, condition: &Condition) -> bool {
    let last = latest.get(&condition.tuple);
    match condition.want {
        Want::NotAfter(place) => last.is_none_or(|change| change.place <= place),
        Want::Exists => last.is_some_and(|change| change.is_there),
        Want::Absent => !last.is_some_and(|change| change.is_there),
    }
}

#[derive(Default)]
struct Recovery {
    ledger: Ledger,
    latest: BTreeMap<Tuple, LastChange>,
    epoch: u64,
    horizon: u64,
}

impl Recovery {
    fn replay(&mut self, record: Record) -> Option<()> {
        match record {
            Record::Epoch { epoch, .. } => self.epoch = epoch,
            Record::Horizon(place) => self.horizon = place,
            Record::Decision { place, entry } => {
                let is_next = place == self.ledger.end() + 1 && !self.ledger.places.contains_key(&entry.id);
                if !is_next || !entry.conditions.iter().all(|condition| holds(&self.latest, condition)) {
                    return None;
                }
                for change in &entry.changes {
                    let is_there = matches!(change, Change::Touch(_));
                    self.latest.insert(change.tuple().clone(), LastChange { place, is_there });
                }
                self.ledger.push(entry);
            }
            _ => return None,
        }
        Some(())
    }
}

fn replayed(disk: &Disk) -> Option<(Recovery, usize)> {
    let (bodies, end) = disk.bodies()?;
    let mut records = Vec::new();
    for body in &bodies {
        records.extend(decode_batch(body)?);
    }
    let mut so_far = Recovery::default();
    for record in records {
        so_far.replay(record)?;
    }
    Some((so_far, end))
}

impl Coordinator {
    fn open(mut disk: Disk) -> Option<Coordinator> {
        if disk.seen.len() <= 1 {
            disk.make();
        }
        let (Recovery { ledger, epoch, horizon, .. }, end) = replayed(&disk)?;
        let mut journal = Journal::over(disk, end);
        let (epoch, kept) = (epoch + 1, ledger.end());
        journal.stage(&Record::Epoch { epoch, store: 1, shards: SHARDS, node: COORDINATOR });
        journal.flush();
        Some(Coordinator { journal, epoch, open_numbers: Vec::new(), given: 0, ledger, kept, horizon })
    }

    fn begin(&mut self, write: Write) -> Option<Intent> {
        let known = self.horizon..=self.ledger.end();
        let is_known = |condition: &Condition| !matches!(condition.want, Want::NotAfter(place) if !known.contains(&place));
        if !write.conditions.iter().all(is_known) || self.open_numbers.len() >= MAX_OPEN || self.given >= MAX_NUMBER {
            return None;
        }
        self.given += 1;
        self.open_numbers.push(self.given);
        Some(Intent(write.named(WriteId { epoch: self.epoch, number: self.given })))
    }

    fn decide(&mut self, Intent(entry): Intent, votes: Vec<Vote>) -> Option<Decided> {
        let id = entry.id;
        if id.epoch != self.epoch || !self.open_numbers.contains(&id.number) || self.ledger.places.contains_key(&id) {
            return None;
        }
        drop(votes);
        let place = self.ledger.end() + 1;
        let decision = Record::Decision { place, entry };
        if !self.journal.stage(&decision) {
            return None;
        }
        self.open_numbers.retain(|number| *number != id.number);
        if let Record::Decision { entry, .. } = decision {
            self.ledger.push(entry);
        }
        Some(Decided { place, epoch: self.epoch })
    }

    fn flush(&mut self) {
        self.journal.flush();
        self.kept = self.ledger.end();
    }

    fn outcome(&self, decided: &Decided) -> Option<u64> {
        (decided.epoch == self.epoch && decided.place <= self.kept).then_some(decided.place)
    }
}

// ---- the measures

fn decide_each(coordinator: &mut Coordinator, voted: &mut Vec<(Intent, Vec<Vote>)>) -> Option<Vec<Decided>> {
    let mut decided = Vec::new();
    while let Some((intent, votes)) = voted.pop() {
        if !votes_match(SHARDS, &intent, &votes) {
            return None;
        }
        decided.push(coordinator.decide(intent, votes)?);
    }
    Some(decided)
}

fn decide(groups: u64) -> Option<()> {
    let mut coordinator = Coordinator::open(Disk::default())?;
    let mut shard = Shard { journal: Journal::new(), held: BTreeSet::new() };
    let (mut beginning, mut deciding) = (Duration::ZERO, Duration::ZERO);
    let mut sum = 0u64;
    for group in 0..groups {
        let mut writes: Vec<Write> = (0..GROUP).map(|i| write(FIRST + group * GROUP + i)).collect();

        let start = Instant::now();
        let mut intents = Vec::new();
        while let Some(write) = writes.pop() {
            intents.push(coordinator.begin(black_box(write))?);
        }
        beginning += start.elapsed();

        let mut voted = Vec::new();
        while let Some(intent) = intents.pop() {
            let vote = shard.vote(&intent)?;
            voted.push((intent, vec![vote]));
        }

        let start = Instant::now();
        let decided = decide_each(&mut coordinator, &mut voted)?;
        coordinator.flush();
        for one in &decided {
            sum = sum.wrapping_add(coordinator.outcome(one)?);
        }
        deciding += start.elapsed();
    }
    let amount = groups * GROUP;
    tell("begin", amount, beginning, coordinator.given);
    tell("decide", amount, deciding, sum);
    Some(())
}

/// A disk with the first opening of a coordinator, and so many decisions.
fn log_of(decisions: u64) -> Option<Disk> {
    let mut journal = Journal::new();
    journal.stage(&Record::Epoch { epoch: 1, store: 1, shards: SHARDS, node: COORDINATOR });
    for number in 1..=decisions {
        let decision = Record::Decision { place: number, entry: write(number).named(WriteId { epoch: 1, number }) };
        if !journal.stage(&decision) {
            journal.flush();
            journal.stage(&decision).then_some(())?;
        }
    }
    journal.flush();
    Some(journal.disk)
}

fn log(decisions: u64) -> Option<()> {
    let start = Instant::now();
    let disk = black_box(log_of(decisions)?);
    tell("log", decisions, start.elapsed(), disk.seen.len() as u64);
    Some(())
}

fn opening(decisions: u64) -> Option<()> {
    let disk = log_of(decisions)?;
    let start = Instant::now();
    let coordinator = black_box(Coordinator::open(disk)?);
    tell("opening", decisions, start.elapsed(), coordinator.kept);
    Some(())
}

fn main() {
    run(|name, number| match name {
        "decisions" => decide(number),
        "log" => log(number),
        "opening" => opening(number),
        _ => None,
    })
}
