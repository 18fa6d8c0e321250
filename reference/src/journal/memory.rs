//! The state of the journal's reader in lent memory of one exact size: layout, well-formedness, begin
//! and read.
//! Document 02, "Surviving a power cut"; the layout is the one set down in docs/.

use super::read::{record_length, JournalAnswer, JournalReader, LONGEST_HELD, LONGEST_JOURNAL};
use super::record::JournalFault;
use crate::bytes::{is_zero, read_u32, read_u64, write_at};
use crate::crc::FRESH_REGISTER;
use crate::registry::registry_is_well_formed;

pub const JOURNAL_STATE_SIZE: usize = HELD_AT + LONGEST_HELD;

const KEPT_AT: usize = 1;
const BEGUN_AT: usize = 9;
const REGISTER_AT: usize = 17;
const HELD_AT: usize = 21;

/// Why nothing is read; the cases stand in the order in which they are tried.
#[derive(Clone, Copy, Debug, PartialEq, Eq)]
pub enum JournalRefusal {
    /// As C4.
    RegistryIllFormed,
    /// A state that no reading leaves.
    StateIllFormed,
}

/// Makes memory of the exact size a fresh state, whatever lay there; leaves any other alone.
pub fn journal_begin(memory: &mut [u8]) -> Result<(), JournalRefusal> {
    if memory.len() != JOURNAL_STATE_SIZE {
        return Err(JournalRefusal::StateIllFormed);
    }
    memory.fill(0);
    write_at(memory, REGISTER_AT, &FRESH_REGISTER.to_le_bytes());
    Ok(())
}

/// Reads on in the journal, from the state in `memory`; a refusal leaves it and the registry alone.
pub fn journal_read(
    memory: &mut [u8],
    registry: &mut [u8],
    chunk: &[u8],
) -> Result<JournalAnswer, JournalRefusal> {
    if !registry_is_well_formed(registry) {
        return Err(JournalRefusal::RegistryIllFormed);
    }
    let mut reader = load(memory).ok_or(JournalRefusal::StateIllFormed)?;
    let answer = reader.read(registry, chunk);
    store(memory, &reader);
    Ok(answer)
}

pub fn journal_state_is_well_formed(memory: &[u8]) -> bool {
    load(memory).is_some()
}

/// The state, unless it is ill formed. Any register is good, and a fault with a record begun too.
fn load(memory: &[u8]) -> Option<JournalReader> {
    if memory.len() != JOURNAL_STATE_SIZE {
        return None;
    }
    let fault = read_fault(memory[0])?;
    let (kept, begun) = (read_u64(memory, KEPT_AT), read_u64(memory, BEGUN_AT));
    let taken = kept.checked_add(begun)?;
    let held_length = begun.min(LONGEST_HELD as u64) as usize;
    let (held, unused) = memory[HELD_AT..].split_at(held_length);
    let is_whole = record_length(held).is_some_and(|length| length as u64 <= begun);
    (taken <= LONGEST_JOURNAL && !is_whole && is_zero(unused)).then(|| JournalReader {
        fault,
        kept,
        begun,
        register: read_u32(memory, REGISTER_AT),
        held: held.to_vec(),
    })
}

/// 0 for none; nothing else than 0 to 3 is well formed.
fn read_fault(number: u8) -> Option<Option<JournalFault>> {
    let fault = JournalFault::ALL
        .into_iter()
        .find(|fault| fault.number() == number);
    (number == 0 || fault.is_some()).then_some(fault)
}

fn store(memory: &mut [u8], reader: &JournalReader) {
    memory[0] = reader.fault.map_or(0, JournalFault::number);
    write_at(memory, KEPT_AT, &reader.kept.to_le_bytes());
    write_at(memory, BEGUN_AT, &reader.begun.to_le_bytes());
    write_at(memory, REGISTER_AT, &reader.register.to_le_bytes());
    let (held, unused) = memory[HELD_AT..].split_at_mut(reader.held.len());
    held.copy_from_slice(&reader.held);
    unused.fill(0);
}
