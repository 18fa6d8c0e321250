//! Journals: records from their fields, good and damaged, those of served requests, and a reader's
//! memory, lent to the compiled reader and to the reference: document 02, "Surviving a power cut".

use crate::ask::{import_body, name_body, record, registry_of, request, DESTROY, IMPORT};
use crate::layout::{set_uses, used_places, Key};
use crate::lent::Lent;
use razidkot::raw::{self, JournalAnswer};
use razidkot::JOURNAL_STATE_SIZE;
use reference::{crc32, JournalRefusal};

pub const IMPORT_TAG: u8 = 2;
pub const DESTROY_TAG: u8 = 3;
/// The longest value that an import may have.
pub const LONGEST_VALUE: usize = 638;

// What reading says.
pub const AT_RECORD: u32 = 0;
pub const WRONG_CRC: u32 = 1;
pub const WRONG_LAYOUT: u32 = 2;
pub const NOT_ALLOWED: u32 = 3;
pub const WITHIN_RECORD: u32 = 4;
pub const REGISTRY_ILL_FORMED: u32 = 5;
pub const STATE_ILL_FORMED: u32 = 6;

// ---- records

/// Bytes with their CRC behind.
pub fn with_crc(mut bytes: Vec<u8>) -> Vec<u8> {
    let crc = crc32(&bytes);
    bytes.extend(crc.to_le_bytes());
    bytes
}

/// A record of any tag and value, its CRC right.
pub fn whole_record(tag: u8, value: &[u8]) -> Vec<u8> {
    with_crc(record(tag, value))
}

pub fn import_value(line: u8, key: &Key) -> Vec<u8> {
    let flags = [key.export_allowed, key.verify_allowed].map(u8::from);
    let name_length = [key.name.len() as u8];
    [
        &[line],
        &key.bits.to_le_bytes()[..],
        &flags,
        &name_length,
        &key.name,
        &key.data,
    ]
    .concat()
}

pub fn import_record(line: u8, key: &Key) -> Vec<u8> {
    whole_record(IMPORT_TAG, &import_value(line, key))
}

pub fn destroy_record(line: u8, name: &[u8]) -> Vec<u8> {
    whole_record(DESTROY_TAG, &[&[line], name].concat())
}

/// The same registry, its keys not used yet.
pub fn without_uses(registry: &[u8]) -> Vec<u8> {
    let mut registry = registry.to_vec();
    for place in used_places(&registry) {
        set_uses(&mut registry, place, 0);
    }
    registry
}

// ---- journals of served requests

pub const SCANNER: &[u8] = b"scanner";
pub const VIEWER: &[u8] = b"viewer";

/// With scanner in line 0 and viewer in line 1, and no keys.
pub fn start() -> Vec<u8> {
    registry_of(&[SCANNER.to_vec(), VIEWER.to_vec()])
}

pub fn key(name: &[u8]) -> Key {
    Key {
        name: name.to_vec(),
        data: vec![0xAA, 0xBB],
        bits: 2_048,
        export_allowed: true,
        verify_allowed: false,
    }
}

/// Of the longest name and data.
pub fn longest_key() -> Key {
    Key {
        name: vec![b'n'; 32],
        data: (0..600).map(|place| place as u8).collect(),
        bits: 4_096,
        export_allowed: false,
        verify_allowed: true,
    }
}

pub fn import(application: &[u8], key: &Key) -> Vec<u8> {
    request(IMPORT, Some(application), &import_body(key))
}

pub fn destroy(application: &[u8], name: &[u8]) -> Vec<u8> {
    request(DESTROY, Some(application), &name_body(name))
}

/// Records one behind the other, and the registry behind each.
pub struct Journal {
    pub start: Vec<u8>,
    pub records: Vec<Vec<u8>>,
    pub registries: Vec<Vec<u8>>,
}

impl Journal {
    /// What both programs write for these requests, each of which is recorded.
    pub fn of_requests(requests: &[Vec<u8>]) -> Journal {
        let mut lent = Lent::fresh(&start(), b"");
        let (mut records, mut registries) = (Vec::new(), Vec::new());
        for request in requests {
            let answer = lent.call_both(request);
            assert!(answer.recorded > 0, "{request:02X?}");
            records.push(lent.journal()[..answer.recorded].to_vec());
            registries.push(without_uses(&lent.registry));
        }
        Journal {
            start: start(),
            records,
            registries,
        }
    }

    /// Every kind of record: the shortest, the longest, two applications, a slot filled again.
    pub fn of_every_kind() -> Journal {
        let longest = longest_key();
        Journal::of_requests(&[
            import(SCANNER, &key(b"a")),
            import(SCANNER, &longest),
            import(VIEWER, &key(b"a")),
            destroy(SCANNER, b"a"),
            import(SCANNER, &key(b"b")),
            destroy(SCANNER, &longest.name),
            destroy(VIEWER, b"a"),
            import(VIEWER, &key(b"c")),
        ])
    }

    pub fn file(&self) -> Vec<u8> {
        self.records.concat()
    }

    /// How many records are whole in so many first bytes, and how many bytes those take.
    pub fn whole_in(&self, length: usize) -> (usize, usize) {
        let mut end = 0;
        for (count, record) in self.records.iter().enumerate() {
            if end + record.len() > length {
                return (count, end);
            }
            end += record.len();
        }
        (self.records.len(), end)
    }

    /// The registry after so many first records.
    pub fn registry_after(&self, count: usize) -> &[u8] {
        match count {
            0 => &self.start,
            _ => &self.registries[count - 1],
        }
    }
}

// ---- the reader's memory

/// All that reading may change.
#[derive(Clone, PartialEq, Eq)]
pub struct Reading {
    pub state: Vec<u8>,
    pub registry: Vec<u8>,
}

impl Reading {
    pub fn begin(registry: &[u8]) -> Reading {
        let mut state = vec![0x55; JOURNAL_STATE_SIZE];
        raw::journal_begin(&mut state).expect("memory of the exact size");
        Reading {
            state,
            registry: registry.to_vec(),
        }
    }

    pub fn read_proved(&mut self, chunk: &[u8]) -> JournalAnswer {
        raw::journal_read(&mut self.state, &mut self.registry, chunk)
    }

    pub fn read_reference(&mut self, chunk: &[u8]) -> JournalAnswer {
        let answer = reference::journal_read(&mut self.state, &mut self.registry, chunk);
        let (code, taken, kept) = match answer {
            Ok(answer) => {
                let fault = answer.fault.map(|fault| fault.number().into());
                let code = fault.unwrap_or_else(|| self.end());
                (code, answer.taken, answer.kept)
            }
            Err(JournalRefusal::RegistryIllFormed) => (REGISTRY_ILL_FORMED, 0, 0),
            Err(JournalRefusal::StateIllFormed) => (STATE_ILL_FORMED, 0, 0),
        };
        JournalAnswer { code, taken, kept }
    }

    /// Of a state without fault, by how many bytes of a record are begun.
    fn end(&self) -> u32 {
        match self.state[9..17] {
            [0, 0, 0, 0, 0, 0, 0, 0] => AT_RECORD,
            _ => WITHIN_RECORD,
        }
    }

    /// One call of each on this memory; what they say and leave is the same.
    pub fn read_both(&mut self, chunk: &[u8]) -> JournalAnswer {
        let before = self.clone();
        let mut reference = self.clone();
        let expected = reference.read_reference(chunk);
        assert_eq!(self.read_proved(chunk), expected, "{} bytes", chunk.len());
        assert!(self.state == reference.state, "state after {expected:?}");
        assert!(self.registry == reference.registry, "after {expected:?}");
        if expected.code >= REGISTRY_ILL_FORMED {
            assert!(*self == before, "a refused reading changes nothing");
        }
        expected
    }

    /// Hands over these chunks. Gives what was said last, and how many bytes were taken in all.
    pub fn read_all<'a>(
        &mut self,
        chunks: impl IntoIterator<Item = &'a [u8]>,
    ) -> (JournalAnswer, usize) {
        let mut last = self.read_both(b"");
        let mut taken = 0;
        for chunk in chunks {
            last = self.read_both(chunk);
            taken += last.taken;
        }
        (last, taken)
    }
}

/// A state with these fields, well formed or not.
pub fn state_of(fault: u8, kept: u64, begun: u64, register: u32, held: &[u8]) -> Vec<u8> {
    let mut state = vec![fault];
    state.extend(kept.to_le_bytes());
    state.extend(begun.to_le_bytes());
    state.extend(register.to_le_bytes());
    state.extend(held);
    state.resize(JOURNAL_STATE_SIZE, 0);
    state
}
