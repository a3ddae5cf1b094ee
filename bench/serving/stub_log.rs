// A log in a file, whose appends make the calls of a gated log: the bodies and a closed gate behind a closed gate, a sync, the gate before them, a sync.
use std::fs::{File, OpenOptions};
use std::io::Read;
use std::os::unix::fs::FileExt;
use std::path::Path;

const OPEN: u8 = 0xa5;
const STRETCH: u64 = 1 << 16;

pub struct Log {
    file: File,
    // How many bytes the file has, where it is stretched as those of the proved server are; else none.
    stretched: Option<u64>,
    end: u64,
    staged: Vec<u8>,
    // How many bodies were staged, and how many of them are durable.
    given: u64,
    durable: u64,
}

impl Log {
    pub fn open(path: &Path) -> std::io::Result<(Log, Vec<Vec<u8>>)> {
        let mut file = OpenOptions::new().read(true).write(true).create(true).truncate(false).open(path)?;
        let (mut bytes, mut bodies, mut at) = (Vec::new(), Vec::new(), 0);
        file.read_to_end(&mut bytes)?;
        while bytes.get(at) == Some(&OPEN) {
            let length = u32::from_be_bytes(bytes[at + 1..at + 5].try_into().unwrap()) as usize;
            let mut batch = &bytes[at + 5..at + 5 + length];
            while let Some((size, rest)) = batch.split_first_chunk::<4>() {
                let (body, next) = rest.split_at(u32::from_be_bytes(*size) as usize);
                bodies.push(body.to_vec());
                batch = next;
            }
            at += 5 + length;
        }
        file.sync_all()?;
        File::open(path.parent().expect("a folder"))?.sync_all()?;
        let stretched = std::env::var_os("STUB_STRETCHES").map(|_| bytes.len() as u64);
        Ok((Log { file, stretched, end: at as u64, staged: Vec::new(), given: 0, durable: 0 }, bodies))
    }

    /// The number of this body.
    pub fn stage(&mut self, body: &[u8]) -> u64 {
        self.staged.extend((body.len() as u32).to_be_bytes());
        self.staged.extend(body);
        self.given += 1;
        self.given
    }

    /// Makes all that is staged durable, where the body of this number is not yet.
    pub fn flush_for(&mut self, ticket: u64) {
        if self.durable >= ticket {
            return;
        }
        let mut bytes = (self.staged.len() as u32).to_be_bytes().to_vec();
        bytes.append(&mut self.staged);
        bytes.push(0);
        self.write(self.end + 1, &bytes);
        self.write(self.end, &[OPEN]);
        self.end += bytes.len() as u64;
        self.durable = self.given;
    }

    fn write(&mut self, at: u64, bytes: &[u8]) {
        self.file.write_all_at(bytes, at).expect("a write of the log");
        let end = at + bytes.len() as u64;
        if self.stretched.is_some_and(|length| length < end) {
            let room = STRETCH - end % STRETCH;
            self.file.write_all_at(&[0; STRETCH as usize][..room as usize], end).expect("a stretch of the log");
            self.stretched = Some(end + room);
        }
        self.file.sync_data().expect("a sync of the log");
    }
}
