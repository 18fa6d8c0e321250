//! Reading a journal back, uncut and in chunks.
//! Document 02, "Surviving a power cut".

use super::record::{carry_out, JournalFault, CRC_LENGTH, HEAD_LENGTH, LONGEST_VALUE};
use crate::crc::{crc32, register_after, FRESH_REGISTER, RESIDUE};
use crate::records::{split_record, Record};

/// In bytes: a file is never longer.
pub const LONGEST_JOURNAL: u64 = 1 << 62;

/// The longest legal record without its CRC, which the register tells of.
pub(super) const LONGEST_HELD: usize = HEAD_LENGTH + LONGEST_VALUE;

/// What a whole file restores.
#[derive(Clone, Debug, PartialEq, Eq)]
pub struct Restored {
    pub registry: Vec<u8>,
    /// How many bytes the records take that were carried out.
    pub kept: u64,
    /// Of the first faulty record; a cut end is no fault.
    pub fault: Option<JournalFault>,
}

/// The rule on an uncut file, from a well-formed registry.
pub fn read_journal(registry: &[u8], file: &[u8]) -> Restored {
    let mut restored = Restored {
        registry: registry.to_vec(),
        kept: 0,
        fault: None,
    };
    let mut rest = file;
    while let Some((record, crc, behind)) = split_whole_record(rest) {
        let length = rest.len() - behind.len();
        let covered = &rest[..length - CRC_LENGTH];
        let carried_out = if crc32(covered) == crc {
            carry_out(&record, &mut restored.registry)
        } else {
            Err(JournalFault::WrongCrc)
        };
        if let Err(fault) = carried_out {
            restored.fault = Some(fault);
            break;
        }
        restored.kept += length as u64;
        rest = behind;
    }
    restored
}

/// The first record, its CRC and the bytes behind, unless record or CRC is cut.
fn split_whole_record(file: &[u8]) -> Option<(Record<'_>, u32, &[u8])> {
    let (record, rest) = split_record(file)?;
    let (&crc, behind) = rest.split_first_chunk()?;
    Some((record, u32::from_le_bytes(crc), behind))
}

/// How many bytes were taken, and what is said of all bytes so far.
#[derive(Clone, Copy, Debug, PartialEq, Eq)]
pub struct JournalAnswer {
    pub taken: usize,
    /// How many bytes the records take that were carried out.
    pub kept: u64,
    pub fault: Option<JournalFault>,
}

/// What is known between two chunks.
pub(super) struct JournalReader {
    pub fault: Option<JournalFault>,
    pub kept: u64,
    /// How many bytes of the next record there are.
    pub begun: u64,
    /// The CRC's register after them.
    pub register: u32,
    /// The first of them, at most `LONGEST_HELD`.
    pub held: Vec<u8>,
}

impl JournalReader {
    /// Takes bytes up to the last of a faulty record, or all; after a fault, none. The registry is
    /// well formed.
    pub fn read(&mut self, registry: &mut [u8], chunk: &[u8]) -> JournalAnswer {
        let room = usize::try_from(LONGEST_JOURNAL - self.kept - self.begun).unwrap_or(usize::MAX);
        let readable = &chunk[..chunk.len().min(room)];
        let mut rest = readable;
        while self.fault.is_none() && !rest.is_empty() {
            let (bytes, behind) = rest.split_at(rest.len().min(self.missing()));
            self.add(bytes);
            if self.missing() == 0 {
                self.end_record(registry);
            }
            rest = behind;
        }
        JournalAnswer {
            taken: readable.len() - rest.len(),
            kept: self.kept,
            fault: self.fault,
        }
    }

    /// How many bytes the record lacks; until its head is whole, how many the head does.
    fn missing(&self) -> usize {
        let length = record_length(&self.held).unwrap_or(HEAD_LENGTH);
        length - self.begun as usize
    }

    fn add(&mut self, bytes: &[u8]) {
        let room = LONGEST_HELD - self.held.len();
        self.held.extend_from_slice(&bytes[..bytes.len().min(room)]);
        self.register = register_after(self.register, bytes);
        self.begun += bytes.len() as u64;
    }

    /// Carries out a whole record or keeps its fault; the next one is then to begin.
    fn end_record(&mut self, registry: &mut [u8]) {
        match self.judge(registry) {
            Ok(()) => self.kept += self.begun,
            Err(fault) => self.fault = Some(fault),
        }
        self.begun = 0;
        self.register = FRESH_REGISTER;
        self.held.clear();
    }

    fn judge(&self, registry: &mut [u8]) -> Result<(), JournalFault> {
        if self.register != RESIDUE {
            return Err(JournalFault::WrongCrc);
        }
        // Only a value that is too long is not held to its end.
        let (record, _) = split_record(&self.held).ok_or(JournalFault::WrongLayout)?;
        carry_out(&record, registry)
    }
}

/// The length of a record with its CRC, once its head is there.
pub(super) fn record_length(begun: &[u8]) -> Option<usize> {
    let &[_, low, high] = begun.first_chunk()?;
    Some(HEAD_LENGTH + usize::from(u16::from_le_bytes([low, high])) + CRC_LENGTH)
}
