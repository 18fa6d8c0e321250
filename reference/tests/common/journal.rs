//! Records of the journal from their fields, good and damaged, a reader of them, and the keys of a
//! registry.
//! Document 02, "Surviving a power cut"; the layout is the one set down in docs/.

use super::*;
use reference::{
    crc32, journal_begin, journal_read, JournalAnswer, JournalFault, JournalRefusal, Restored,
    JOURNAL_STATE_SIZE,
};

pub const IMPORT_TAG: u8 = 2;
pub const DESTROY_TAG: u8 = 3;

/// Bytes with their CRC behind.
pub fn with_crc(bytes: &[u8]) -> Vec<u8> {
    [bytes, &crc32(bytes).to_le_bytes()].concat()
}

/// A record of any tag and value, its CRC right.
pub fn record(tag: u8, value: &[u8]) -> Vec<u8> {
    let length = (value.len() as u16).to_le_bytes();
    with_crc(&[&[tag], &length[..], value].concat())
}

pub fn import_value(line: u8, key: &Key) -> Vec<u8> {
    let mut value = vec![line];
    value.extend((key.bits as u16).to_le_bytes());
    value.extend([key.export_allowed, key.verify_allowed].map(u8::from));
    value.push(key.name.len() as u8);
    value.extend(&key.name);
    value.extend(&key.data);
    value
}

pub fn import_record(line: u8, key: &Key) -> Vec<u8> {
    record(IMPORT_TAG, &import_value(line, key))
}

pub fn destroy_record(line: u8, name: &[u8]) -> Vec<u8> {
    record(DESTROY_TAG, &[&[line], name].concat())
}

/// Every slot, ascending by line, then slot.
pub fn places() -> impl Iterator<Item = (usize, usize)> {
    (0..LINES).flat_map(|line| (0..SLOTS).map(move |slot| (line, slot)))
}

/// The same registry with use counts 0.
pub fn without_uses(registry: &[u8]) -> Vec<u8> {
    let mut registry = registry.to_vec();
    for (line, slot) in places() {
        registry[slot_at(line, slot) + USES_AT..][..4].fill(0);
    }
    registry
}

/// The key in a slot of registry memory; none where the slot is free.
pub fn key_in(registry: &[u8], line: usize, slot: usize) -> Option<Key> {
    let slot = &registry[slot_at(line, slot)..][..SLOT_SIZE];
    let data_length = usize::from(u16::from_le_bytes([slot[33], slot[34]]));
    (slot[0] > 0).then(|| Key {
        name: slot[1..][..usize::from(slot[0])].to_vec(),
        data: slot[35..][..data_length].to_vec(),
        bits: u16::from_le_bytes([slot[635], slot[636]]).into(),
        export_allowed: slot[637] == 1,
        verify_allowed: slot[638] == 1,
    })
}

/// The memory of a reader's state with these fields, well formed or not.
pub fn state_memory(fault: u8, kept: u64, begun: u64, register: u32, held: &[u8]) -> Vec<u8> {
    let mut memory = vec![fault];
    memory.extend(kept.to_le_bytes());
    memory.extend(begun.to_le_bytes());
    memory.extend(register.to_le_bytes());
    memory.extend(held);
    memory.resize(JOURNAL_STATE_SIZE, 0);
    memory
}

/// A journal's reader in lent memory, and the registry that it restores.
#[derive(Clone, Debug, PartialEq, Eq)]
pub struct Reader {
    pub memory: Vec<u8>,
    pub registry: Vec<u8>,
}

impl Reader {
    pub fn begin(registry: &[u8]) -> Reader {
        let mut memory = vec![0x55; JOURNAL_STATE_SIZE];
        assert_eq!(journal_begin(&mut memory), Ok(()));
        Reader {
            memory,
            registry: registry.to_vec(),
        }
    }

    pub fn read(&mut self, chunk: &[u8]) -> JournalAnswer {
        journal_read(&mut self.memory, &mut self.registry, chunk).expect("a reading not refused")
    }

    /// Hands over a chunk that must be refused with nothing changed.
    pub fn expect_refusal(&mut self, chunk: &[u8], refusal: JournalRefusal) {
        let before = self.clone();
        let answer = journal_read(&mut self.memory, &mut self.registry, chunk);
        assert_eq!(answer, Err(refusal));
        assert!(*self == before, "a refused reading changes nothing");
    }

    /// Reads all chunks; gives how many bytes were taken in all, and what is restored.
    pub fn read_all<'a>(mut self, chunks: impl IntoIterator<Item = &'a [u8]>) -> (usize, Restored) {
        let mut last = self.read(&[]);
        let mut taken = 0;
        for chunk in chunks {
            last = self.read(chunk);
            taken += last.taken;
        }
        let restored = Restored {
            registry: self.registry,
            kept: last.kept,
            fault: last.fault,
        };
        (taken, restored)
    }
}

/// Records one behind the other, and the registry that they leave, use counts 0.
#[derive(Clone)]
pub struct Journal {
    pub start: Vec<u8>,
    pub records: Vec<Vec<u8>>,
    /// One for each record.
    pub registries: Vec<Vec<u8>>,
}

impl Journal {
    /// The journal of a service to which these requests are sent, each of them recorded.
    pub fn of_requests(mut service: Service, requests: &[Request]) -> Journal {
        let mut journal = Journal {
            start: without_uses(&service.registry),
            records: Vec::new(),
            registries: Vec::new(),
        };
        for request in requests {
            let taken = service.call(&request.bytes()).expect("a call taken");
            assert!(taken.recorded > 0, "{request:?}");
            journal
                .records
                .push(service.journal[..taken.recorded].to_vec());
            journal.registries.push(without_uses(&service.registry));
        }
        journal
    }

    /// Every kind of record: the shortest, the longest, two applications, a slot filled again.
    pub fn of_every_kind() -> Journal {
        let longest = Key {
            data: (0..600).map(|place| place as u8).collect(),
            bits: 4_096,
            export_allowed: false,
            verify_allowed: true,
            ..key(&[b'n'; 32])
        };
        let requests = [
            import(&key(b"a")),
            import(&longest),
            import(&key(b"a")).sent_by(SECOND),
            destroy(b"a"),
            import(&key(b"b")),
            destroy(&[b'n'; 32]),
            destroy(b"a").sent_by(SECOND),
            import(&key(b"c")),
        ];
        Journal::of_requests(Service::new(), &requests)
    }

    pub fn file(&self) -> Vec<u8> {
        self.records.concat()
    }

    /// How many bytes so many first records take.
    pub fn end_of(&self, count: usize) -> usize {
        self.records[..count].iter().map(Vec::len).sum()
    }

    /// How many records are whole in so many first bytes.
    pub fn whole_in(&self, length: usize) -> usize {
        (0..=self.records.len())
            .rev()
            .find(|&count| self.end_of(count) <= length)
            .expect("no record at least")
    }

    /// The registry after so many first records.
    pub fn registry_after(&self, count: usize) -> &[u8] {
        count
            .checked_sub(1)
            .map_or(&self.start, |last| &self.registries[last])
    }

    /// What is restored where so many first records are kept.
    pub fn restored(&self, count: usize, fault: Option<JournalFault>) -> Restored {
        Restored {
            registry: self.registry_after(count).to_vec(),
            kept: self.end_of(count) as u64,
            fault,
        }
    }
}

/// Uncut, in one chunk and cut in two at some places, the file restores this, and so many bytes of
/// it are taken.
pub fn expect_restored(start: &[u8], file: &[u8], taken: usize, expected: &Restored) {
    assert!(reference::read_journal(start, file) == *expected, "uncut");
    let cuts = [0, 1, 3, file.len() / 2, taken.saturating_sub(1), taken];
    for cut in cuts.map(|cut| cut.min(file.len())) {
        let (front, back) = file.split_at(cut);
        let read = Reader::begin(start).read_all([front, back]);
        assert_eq!(read.0, taken, "taken, cut at {cut}");
        assert!(read.1 == *expected, "cut at {cut}");
    }
}
