//! The live committed version in a sequence lock, and tokens of what their holders have seen.

use std::sync::Mutex;
use std::sync::atomic::{AtomicU64, Ordering, fence};

const LOCKED: u64 = 1;
const HAS_METADATA: u64 = 2;

#[derive(Clone, Copy, PartialEq, Eq)]
pub struct Record {
    pub version: u64,
    pub locked: bool,
    pub metadata: Option<[u8; 10]>,
    pub min_known: u64,
}

impl Record {
    /// Before any report.
    pub const START: Record = Record { version: 100, locked: false, metadata: None, min_known: 0 };

    pub fn raises(self, reported: Record) -> bool {
        reported.version > self.version
    }

    pub fn changes(self, reported: Record) -> bool {
        self.raises(reported) || reported.min_known > self.min_known
    }

    pub fn after_report(self, reported: Record) -> Record {
        let newest = if self.raises(reported) { reported } else { self };
        Record { min_known: self.min_known.max(reported.min_known), ..newest }
    }
}

/// A record, and the number of reports that had changed it by then.
#[derive(Clone, Copy)]
pub struct Fetched {
    pub rec: Record,
    pub position: u64,
}

impl Fetched {
    fn to_words(self) -> [u64; 6] {
        let Record { version, locked, metadata, min_known } = self.rec;
        let flags = u64::from(locked) * LOCKED | u64::from(metadata.is_some()) * HAS_METADATA;
        let [a, b, c, d, e, f, g, h, i, j] = metadata.unwrap_or_default();
        [
            self.position,
            version,
            flags,
            u64::from_be_bytes([a, b, c, d, e, f, g, h]),
            u64::from(u16::from_be_bytes([i, j])),
            min_known,
        ]
    }

    fn from_words([position, version, flags, first, second, min_known]: [u64; 6]) -> Fetched {
        let [a, b, c, d, e, f, g, h] = first.to_be_bytes();
        let [.., i, j] = second.to_be_bytes();
        let metadata = [a, b, c, d, e, f, g, h, i, j];
        let rec = Record {
            version,
            locked: flags & LOCKED != 0,
            metadata: (flags & HAS_METADATA != 0).then_some(metadata),
            min_known,
        };
        Fetched { rec, position }
    }
}

/// Whether a report raised the live committed version, and whether it changed the record.
#[derive(Clone, Copy)]
#[allow(dead_code)]
pub struct Ack {
    pub raised: bool,
    pub changed: bool,
}

/// What the holder of a token has seen: the number of changes.
#[derive(Default)]
pub struct Seen {
    pub position: u64,
}

/// The live record: a sequence lock, which reads take no part in, and a lock for the reports.
pub struct LiveRecord {
    /// Odd while the words are being replaced.
    sequence: AtomicU64,
    words: [AtomicU64; 6],
    /// What the words say, for the reports.
    reports: Mutex<Fetched>,
}

impl LiveRecord {
    pub fn open(rec: Record) -> LiveRecord {
        let begun = Fetched { rec, position: 0 };
        LiveRecord {
            sequence: AtomicU64::new(0),
            words: begun.to_words().map(AtomicU64::new),
            reports: Mutex::new(begun),
        }
    }

    pub fn read(&self, seen: &mut Seen) -> Fetched {
        let fetched = self.load();
        seen.position = fetched.position;
        fetched
    }

    pub fn report(&self, seen: &mut Seen, rec: Record) -> Ack {
        let mut live = self.reports.lock().expect("no reporter panics");
        let (raised, changed) = (live.rec.raises(rec), live.rec.changes(rec));
        if changed {
            let (rec, position) = (live.rec.after_report(rec), live.position + 1);
            *live = Fetched { rec, position };
            self.store(*live);
        }
        seen.position = live.position;
        Ack { raised, changed }
    }

    pub fn split(&self, seen: &Seen) -> Seen {
        Seen { position: seen.position }
    }

    pub fn learn(&self, seen: &mut Seen, told: Seen) {
        seen.position = seen.position.max(told.position);
    }

    /// Whatever two holders have seen, the one began as the other did: there is nothing to do.
    pub fn meet(&self, _first: &mut Seen, _second: &mut Seen) {}

    fn load(&self) -> Fetched {
        loop {
            let before = self.sequence.load(Ordering::Acquire);
            if before % 2 == 0 {
                let words = [0, 1, 2, 3, 4, 5]
                    .map(|place: usize| self.words[place].load(Ordering::Relaxed));
                fence(Ordering::Acquire);
                if self.sequence.load(Ordering::Relaxed) == before {
                    return Fetched::from_words(words);
                }
            }
            std::hint::spin_loop();
        }
    }

    /// Replaces the words. Only one thread does so at a time, which has the lock of the reports.
    fn store(&self, fetched: Fetched) {
        let before = self.sequence.load(Ordering::Relaxed);
        self.sequence.store(before + 1, Ordering::Relaxed);
        fence(Ordering::Release);
        for (word, value) in self.words.iter().zip(fetched.to_words()) {
            word.store(value, Ordering::Relaxed);
        }
        self.sequence.store(before + 2, Ordering::Release);
    }
}
