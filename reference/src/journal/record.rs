//! One record of the journal, written and carried out: tag, length of the value, value, CRC-32 over
//! these three.
//! Document 02, "Surviving a power cut" and, for old records, "No more odd key lengths"; the layout is
//! the one set down in docs/.

use crate::bytes::{read_u16, write_at};
use crate::crc::crc32;
use crate::operation::{make_change, Change};
use crate::records::Record;
use crate::registry::{find_used_line, Key, Line, LONGEST_DATA, LONGEST_KEY_NAME};

/// The import of the longest name and data.
pub const LONGEST_RECORD: usize = HEAD_LENGTH + LONGEST_VALUE + CRC_LENGTH;

/// Tag and length.
pub const HEAD_LENGTH: usize = 3;
pub const CRC_LENGTH: usize = 4;
pub const LONGEST_VALUE: usize = NAME_AT + LONGEST_KEY_NAME + LONGEST_DATA;

const IMPORT_TAG: u8 = 2;
const DESTROY_TAG: u8 = 3;

// An import's value, offsets from its start; the data follows the name.
const BITS_AT: usize = 1;
const EXPORT_ALLOWED_AT: usize = 3;
const VERIFY_ALLOWED_AT: usize = 4;
const NAME_LENGTH_AT: usize = 5;
const NAME_AT: usize = 6;

// A destroy's value has the line and then the name.
const DESTROYED_NAME_AT: usize = 1;

/// Why a journal is refused; `number` gives the digit of J1 to J3.
#[derive(Clone, Copy, Debug, PartialEq, Eq)]
#[repr(u8)]
pub enum JournalFault {
    WrongCrc = 1,
    WrongLayout = 2,
    /// The line is not in use, or Import or Destroy would refuse the change.
    RefusedChange = 3,
}

impl JournalFault {
    pub const ALL: [JournalFault; 3] = [Self::WrongCrc, Self::WrongLayout, Self::RefusedChange];

    pub fn number(self) -> u8 {
        self as u8
    }
}

/// Writes the record of a change that was served to the start of `out`, says how long it is and
/// leaves the bytes past it alone.
pub fn write_record(out: &mut [u8], line: Line, change: &Change) -> usize {
    let value = &mut out[HEAD_LENGTH..];
    value[0] = line.number() as u8;
    let (tag, length) = match change {
        Change::Import(key) => (IMPORT_TAG, write_key(value, key)),
        Change::Destroy(name) => (DESTROY_TAG, write_name(value, name)),
    };
    out[0] = tag;
    write_at(out, 1, &(length as u16).to_le_bytes());
    let crc_at = HEAD_LENGTH + length;
    let crc = crc32(&out[..crc_at]);
    write_at(out, crc_at, &crc.to_le_bytes());
    crc_at + CRC_LENGTH
}

/// Writes an import's value but for its line, and says how long the value is.
fn write_key(value: &mut [u8], key: &Key) -> usize {
    let data_at = NAME_AT + key.name.len();
    write_at(value, BITS_AT, &(key.bits as u16).to_le_bytes());
    value[EXPORT_ALLOWED_AT] = key.export_allowed.into();
    value[VERIFY_ALLOWED_AT] = key.verify_allowed.into();
    value[NAME_LENGTH_AT] = key.name.len() as u8;
    write_at(value, NAME_AT, key.name);
    write_at(value, data_at, key.data);
    data_at + key.data.len()
}

/// Writes a destroy's value but for its line, and says how long the value is.
fn write_name(value: &mut [u8], name: &[u8]) -> usize {
    write_at(value, DESTROYED_NAME_AT, name);
    DESTROYED_NAME_AT + name.len()
}

/// J2 and J3, in this order, of a record whose CRC is right; a faulty one leaves the registry alone.
pub fn carry_out(record: &Record, registry: &mut [u8]) -> Result<(), JournalFault> {
    let (line, change) = read_value(record).ok_or(JournalFault::WrongLayout)?;
    let line = find_used_line(registry, line).ok_or(JournalFault::RefusedChange)?;
    // Old records are of bits that Import takes no more.
    if matches!(change, Change::Import(key) if !key.is_legal()) {
        return Err(JournalFault::RefusedChange);
    }
    // The list of shipped keys is left aside.
    make_change(registry, &[], line, &change).map_err(|_| JournalFault::RefusedChange)
}

/// The number of the line and the change, unless the layout is another.
fn read_value<'a>(record: &Record<'a>) -> Option<(u8, Change<'a>)> {
    let value = record.value;
    let &line = value.first().filter(|_| value.len() <= LONGEST_VALUE)?;
    match record.tag {
        IMPORT_TAG => Some((line, Change::Import(read_key(value)?))),
        DESTROY_TAG => Some((line, Change::Destroy(&value[DESTROYED_NAME_AT..]))),
        _ => None,
    }
}

fn read_key(value: &[u8]) -> Option<Key<'_>> {
    let (fixed, rest) = value.split_at_checked(NAME_AT)?;
    let (name, data) = rest.split_at_checked(fixed[NAME_LENGTH_AT].into())?;
    Some(Key {
        name,
        data,
        bits: read_u16(fixed, BITS_AT).into(),
        export_allowed: read_flag(fixed[EXPORT_ALLOWED_AT])?,
        verify_allowed: read_flag(fixed[VERIFY_ALLOWED_AT])?,
    })
}

fn read_flag(byte: u8) -> Option<bool> {
    (byte <= 1).then_some(byte == 1)
}
