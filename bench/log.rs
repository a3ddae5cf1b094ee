// Records, a disk in memory that keeps its calls, a gated log and a journal over it, in plain Rust, and how a measure is run and told: what the measures
// beside this file stand on.
#![allow(dead_code)] // each of them uses a part, and some fields are only written, as they would be by a node

use std::env;
use std::process::exit;
use std::time::Duration;

pub const VERSION: u8 = 2;
const MAX_BODY: usize = 1 << 20;

// ---- records

#[derive(Clone, PartialEq, Eq, PartialOrd, Ord)]
pub struct Object {
    pub namespace: Vec<u8>,
    pub id: Vec<u8>,
}

#[derive(Clone, PartialEq, Eq, PartialOrd, Ord)]
pub enum User {
    Id(Vec<u8>),
    Set { object: Object, relation: Vec<u8> },
}

#[derive(Clone, PartialEq, Eq, PartialOrd, Ord)]
pub struct Tuple {
    pub object: Object,
    pub relation: Vec<u8>,
    pub user: User,
}

#[derive(Clone)]
pub enum Change {
    Touch(Tuple),
    Delete(Tuple),
}

impl Change {
    pub fn tuple(&self) -> &Tuple {
        match self {
            Change::Touch(tuple) | Change::Delete(tuple) => tuple,
        }
    }
}

#[derive(Clone)]
pub enum Want {
    NotAfter(u64),
    Exists,
    Absent,
}

#[derive(Clone)]
pub struct Condition {
    pub tuple: Tuple,
    pub want: Want,
}

#[derive(Clone, Copy, PartialEq, Eq, PartialOrd, Ord)]
pub struct WriteId {
    pub epoch: u64,
    pub number: u64,
}

#[derive(Clone)]
pub struct Entry {
    pub id: WriteId,
    pub changes: Vec<Change>,
    pub conditions: Vec<Condition>,
}

pub struct Part {
    pub id: WriteId,
    pub place: u64,
}

pub enum Record {
    Prepare(Entry),
    Learned { to: u64, parts: Vec<Part> },
    Dropped(WriteId),
    Epoch { epoch: u64, store: u64, shards: u8, node: u8 },
    Decision { place: u64, entry: Entry },
    Horizon(u64),
}

/// The tuple of an object of `doc`.
pub fn tuple(id: String, relation: &str, user: String) -> Tuple {
    let object = Object { namespace: b"doc".to_vec(), id: id.into_bytes() };
    Tuple { object, relation: relation.into(), user: User::Id(user.into_bytes()) }
}

// ---- writing

pub fn put_text(out: &mut Vec<u8>, text: &[u8]) {
    out.push(text.len() as u8);
    out.extend_from_slice(text);
}

pub fn put_u64(out: &mut Vec<u8>, number: u64) {
    out.extend_from_slice(&number.to_be_bytes());
}

pub fn put_id(out: &mut Vec<u8>, id: &WriteId) {
    put_u64(out, id.epoch);
    put_u64(out, id.number);
}

fn put_userset(out: &mut Vec<u8>, object: &Object, relation: &[u8]) {
    put_text(out, &object.namespace);
    put_text(out, &object.id);
    put_text(out, relation);
}

fn put_tuple(out: &mut Vec<u8>, tuple: &Tuple) {
    put_userset(out, &tuple.object, &tuple.relation);
    match &tuple.user {
        User::Id(id) => {
            out.push(1);
            put_text(out, id);
        }
        User::Set { object, relation } => {
            out.push(2);
            put_userset(out, object, relation);
        }
    }
}

fn put_entry(out: &mut Vec<u8>, entry: &Entry) {
    put_id(out, &entry.id);
    out.push(entry.changes.len() as u8);
    for change in &entry.changes {
        out.push(if matches!(change, Change::Touch(_)) { 1 } else { 2 });
        put_tuple(out, change.tuple());
    }
    out.push(entry.conditions.len() as u8);
    for condition in &entry.conditions {
        put_tuple(out, &condition.tuple);
        match condition.want {
            Want::NotAfter(place) => {
                out.push(1);
                put_u64(out, place);
            }
            Want::Exists => out.push(2),
            Want::Absent => out.push(3),
        }
    }
}

impl Record {
    fn kind(&self) -> u8 {
        match self {
            Record::Prepare(_) => 1,
            Record::Learned { .. } => 2,
            Record::Dropped(_) => 3,
            Record::Epoch { .. } => 4,
            Record::Decision { .. } => 5,
            Record::Horizon(_) => 6,
        }
    }

    pub fn encode(&self, out: &mut Vec<u8>) {
        out.push(self.kind());
        match self {
            Record::Prepare(entry) => put_entry(out, entry),
            Record::Learned { to, parts } => {
                put_u64(out, *to);
                out.extend_from_slice(&(parts.len() as u16).to_be_bytes());
                for part in parts {
                    put_id(out, &part.id);
                    put_u64(out, part.place);
                }
            }
            Record::Dropped(id) => put_id(out, id),
            Record::Epoch { epoch, store, shards, node } => {
                put_u64(out, *epoch);
                put_u64(out, *store);
                out.extend_from_slice(&[*shards, *node]);
            }
            Record::Decision { place, entry } => {
                put_u64(out, *place);
                put_entry(out, entry);
            }
            Record::Horizon(place) => put_u64(out, *place),
        }
    }
}

// ---- reading

pub fn is_name(text: &[u8]) -> bool {
    let is_byte = |byte: &u8| byte.is_ascii_lowercase() || byte.is_ascii_digit() || *byte == b'_';
    !text.is_empty() && text.len() <= 64 && text.iter().all(is_byte)
}

pub fn is_id(text: &[u8]) -> bool {
    let is_byte = |byte: &u8| byte.is_ascii_graphic() && !matches!(byte, b'#' | b'@' | b':' | b'+');
    !text.is_empty() && text.len() <= 128 && text.iter().all(is_byte)
}

/// The bytes that are still to be read.
pub struct Reader<'a>(&'a [u8]);

impl Reader<'_> {
    fn take<const COUNT: usize>(&mut self) -> Option<[u8; COUNT]> {
        let (front, rest) = self.0.split_first_chunk()?;
        self.0 = rest;
        Some(*front)
    }

    fn byte(&mut self) -> Option<u8> {
        self.take().map(|[byte]| byte)
    }

    fn u16(&mut self) -> Option<u16> {
        self.take().map(u16::from_be_bytes)
    }

    fn u64(&mut self) -> Option<u64> {
        self.take().map(u64::from_be_bytes)
    }

    fn text(&mut self, fits: impl Fn(&[u8]) -> bool) -> Option<Vec<u8>> {
        let size = usize::from(self.byte()?);
        let (text, rest) = self.0.split_at_checked(size)?;
        self.0 = rest;
        fits(text).then(|| text.to_vec())
    }

    fn object(&mut self) -> Option<Object> {
        Some(Object { namespace: self.text(is_name)?, id: self.text(is_id)? })
    }

    fn user(&mut self) -> Option<User> {
        match self.byte()? {
            1 => self.text(is_id).map(User::Id),
            2 => Some(User::Set { object: self.object()?, relation: self.text(is_name)? }),
            _ => None,
        }
    }

    fn tuple(&mut self) -> Option<Tuple> {
        Some(Tuple { object: self.object()?, relation: self.text(is_name)?, user: self.user()? })
    }

    fn change(&mut self) -> Option<Change> {
        match self.byte()? {
            1 => self.tuple().map(Change::Touch),
            2 => self.tuple().map(Change::Delete),
            _ => None,
        }
    }

    fn condition(&mut self) -> Option<Condition> {
        let tuple = self.tuple()?;
        let want = match self.byte()? {
            1 => Want::NotAfter(self.u64()?),
            2 => Want::Exists,
            3 => Want::Absent,
            _ => return None,
        };
        Some(Condition { tuple, want })
    }

    fn many<T>(&mut self, count: usize, item: impl Fn(&mut Self) -> Option<T>) -> Option<Vec<T>> {
        (0..count).map(|_| item(self)).collect()
    }

    fn write_id(&mut self) -> Option<WriteId> {
        let id = WriteId { epoch: self.u64()?, number: self.u64()? };
        (id.epoch >= 1 && id.number >= 1).then_some(id)
    }

    fn entry(&mut self) -> Option<Entry> {
        let id = self.write_id()?;
        let count = self.byte().filter(|count| *count <= 64)?;
        let changes = self.many(usize::from(count), Self::change)?;
        let count = self.byte().filter(|count| *count <= 16)?;
        let conditions = self.many(usize::from(count), Self::condition)?;
        let is_distinct = are_distinct(&changes, Change::tuple) && are_distinct(&conditions, |condition| &condition.tuple);
        is_distinct.then_some(Entry { id, changes, conditions })
    }

    fn learned(&mut self) -> Option<Record> {
        let to = self.u64()?;
        let count = self.u16().filter(|count| *count <= 256)?;
        let parts = self.many(usize::from(count), |bytes| Some(Part { id: bytes.write_id()?, place: bytes.u64()? }))?;
        let rises = parts.windows(2).all(|two| two[0].place < two[1].place);
        let ends = parts.last().is_none_or(|part| part.place <= to);
        (rises && ends).then_some(Record::Learned { to, parts })
    }

    fn epoch(&mut self) -> Option<Record> {
        let (epoch, store) = (self.u64()?, self.u64()?);
        let shards = self.byte().filter(|shards| (1..=64).contains(shards))?;
        Some(Record::Epoch { epoch, store, shards, node: self.byte()? })
    }

    fn record(&mut self) -> Option<Record> {
        match self.byte()? {
            1 => self.entry().filter(|entry| !entry.changes.is_empty() || !entry.conditions.is_empty()).map(Record::Prepare),
            2 => self.learned(),
            3 => self.write_id().map(Record::Dropped),
            4 => self.epoch(),
            5 => {
                let place = self.u64()?;
                let entry = self.entry().filter(|entry| !entry.changes.is_empty())?;
                Some(Record::Decision { place, entry })
            }
            6 => self.u64().map(Record::Horizon),
            _ => None,
        }
    }
}

fn are_distinct<T>(items: &[T], tuple: impl Fn(&T) -> &Tuple) -> bool {
    (0..items.len()).all(|i| items[i + 1..].iter().all(|other| tuple(&items[i]) != tuple(other)))
}

pub fn decode_batch(bytes: &[u8]) -> Option<Vec<Record>> {
    let mut reader = Reader(bytes);
    reader.byte().filter(|version| *version == VERSION)?;
    let count = reader.u16().filter(|count| *count >= 1)?;
    let records = reader.many(usize::from(count), Reader::record)?;
    reader.0.is_empty().then_some(records)
}

// ---- a disk in memory that keeps its calls, a gated log and a journal over it

pub enum Call {
    Write { at: usize, bytes: Vec<u8> },
    Sync,
}

#[derive(Default)]
pub struct Disk {
    pub history: Vec<Call>,
    pub seen: Vec<u8>,
    pub calls: u64,
}

impl Disk {
    pub fn write_at(&mut self, at: usize, bytes: &[u8]) {
        self.calls += 1;
        let over = bytes.len().min(self.seen.len() - at);
        self.seen.extend_from_slice(&bytes[over..]);
        self.seen[at..at + over].copy_from_slice(&bytes[..over]);
        self.history.push(Call::Write { at, bytes: bytes.to_vec() });
    }

    pub fn sync(&mut self) {
        self.calls += 1;
        self.history.push(Call::Sync);
    }

    pub fn make(&mut self) {
        self.write_at(0, &[0]);
        self.sync();
    }

    // The bodies behind open gates, and where the list ends.
    pub fn bodies(&self) -> Option<(Vec<Vec<u8>>, usize)> {
        let mut bodies = Vec::new();
        let mut at = 0;
        while *self.seen.get(at)? == 0xa5 {
            let size = u32::from_be_bytes(*self.seen.get(at + 1..)?.first_chunk::<4>()?) as usize;
            bodies.push(self.seen.get(at + 5..at + 5 + size)?.to_vec());
            at += 5 + size;
        }
        Some((bodies, at))
    }
}

pub struct Journal {
    pub disk: Disk,
    pub end: usize,
    // room for a length, the head of the batch, and its records
    pub staged: Vec<u8>,
    pub count: u16,
}

impl Journal {
    pub fn new() -> Journal {
        let mut disk = Disk::default();
        disk.make();
        Journal::over(disk, 0)
    }

    // Over a disk whose list of bodies ends there.
    pub fn over(disk: Disk, end: usize) -> Journal {
        let mut staged = Vec::with_capacity(MAX_BODY + (1 << 16));
        staged.extend_from_slice(&[0; 7]);
        Journal { disk, end, staged, count: 0 }
    }

    pub fn stage(&mut self, record: &Record) -> bool {
        if self.count == u16::MAX {
            return false;
        }
        let end = self.staged.len();
        record.encode(&mut self.staged);
        if self.staged.len() > MAX_BODY + 4 {
            self.staged.truncate(end);
            return false;
        }
        self.count += 1;
        true
    }

    pub fn flush(&mut self) {
        let size = (self.staged.len() - 4) as u32;
        self.staged[..4].copy_from_slice(&size.to_be_bytes());
        self.staged[4] = VERSION;
        self.staged[5..7].copy_from_slice(&self.count.to_be_bytes());
        self.staged.push(0);
        self.disk.write_at(self.end + 1, &self.staged);
        self.disk.sync();
        self.disk.write_at(self.end, &[0xa5]);
        self.disk.sync();
        self.end += self.staged.len();
        self.staged.truncate(7);
        self.count = 0;
    }
}

// ---- measures

/// Prints what a measure took, and an answer by which it is known to have done the same as another program.
pub fn tell(name: &str, amount: u64, took: Duration, answer: u64) {
    eprintln!("{name} {amount} {} {answer}", took.as_nanos());
}

/// Runs the measure that the command line names, with its number, which is 0 where there is none.
pub fn run(measure: impl Fn(&str, u64) -> Option<()>) {
    let words: Vec<String> = env::args().collect();
    let number = words.get(2).map_or(Some(0), |word| word.parse().ok());
    let done = words.get(1).zip(number).and_then(|(name, number)| measure(name, number));
    exit(i32::from(done.is_none()))
}
