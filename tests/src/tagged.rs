//! The second body format: bodies built from their fields, the same message as one of Protocol Buffers,
//! and faults. Document 02, "A second body format".

use crate::ask::{record, DESTROY, EXPORT, IMPORT, LIST_OPCODES, VERIFY};
use crate::generate::Random;

pub const PROTOBUF: u8 = 1;
pub const TAGGED: u8 = 2;
/// What is listed, and numbers that are not.
pub const LISTED_TYPES: [u8; 2] = [PROTOBUF, TAGGED];
pub const UNLISTED_TYPES: [u8; 4] = [0, 3, 128, 255];

#[derive(Clone, Copy, Debug, PartialEq, Eq)]
pub enum Kind {
    Uint32,
    Bool,
    Bytes,
}

/// The kinds of an operation's input, fields 1, 2, ..
pub fn kinds_of(opcode: u16) -> &'static [Kind] {
    match opcode {
        LIST_OPCODES => &[Kind::Uint32],
        IMPORT => &[
            Kind::Bytes,
            Kind::Bytes,
            Kind::Uint32,
            Kind::Bool,
            Kind::Bool,
        ],
        EXPORT | DESTROY => &[Kind::Bytes],
        VERIFY => &[Kind::Bytes; 3],
        _ => &[],
    }
}

/// A field that is left out where its value is none.
pub fn bytes_record(tag: u8, value: &[u8]) -> Vec<u8> {
    match value {
        [] => Vec::new(),
        _ => record(tag, value),
    }
}

pub fn number_record(tag: u8, number: u32) -> Vec<u8> {
    match number {
        0 => Vec::new(),
        _ => record(tag, &number.to_le_bytes()),
    }
}

pub fn list_record(tag: u8, entries: &[u32]) -> Vec<u8> {
    let entries: Vec<u8> = entries
        .iter()
        .flat_map(|entry| entry.to_le_bytes())
        .collect();
    bytes_record(tag, &entries)
}

/// The same message in the second format. None where a field is repeated, is not listed, or has a
/// number of more than 32 bits: the second format has no such body.
pub fn from_protobuf(opcode: u16, body: &[u8]) -> Option<Vec<u8>> {
    let kinds = kinds_of(opcode);
    let mut fields = vec![None; kinds.len()];
    let mut rest = body;
    while !rest.is_empty() {
        let (tag, behind) = varint(rest)?;
        let place = usize::try_from(tag >> 3).ok()?.checked_sub(1)?;
        let kind = *kinds.get(place)?;
        let (number, behind) = varint(behind)?;
        let wire_type = if kind == Kind::Bytes { 2 } else { 0 };
        if tag & 7 != wire_type || fields[place].is_some() {
            return None;
        }
        let length = if kind == Kind::Bytes { number } else { 0 };
        let (bytes, behind) = behind.split_at_checked(usize::try_from(length).ok()?)?;
        let tag = 1 + place as u8;
        fields[place] = Some(match kind {
            Kind::Bytes => bytes_record(tag, bytes),
            Kind::Uint32 => number_record(tag, u32::try_from(number).ok()?),
            Kind::Bool => bytes_record(tag, &[1][..usize::from(number != 0)]),
        });
        rest = behind;
    }
    Some(fields.into_iter().flatten().flatten().collect())
}

/// Of up to eight bytes.
fn varint(bytes: &[u8]) -> Option<(u64, &[u8])> {
    let end = bytes.iter().take(8).position(|byte| *byte < 0x80)?;
    let (varint, rest) = bytes.split_at(end + 1);
    let join = |number, byte: &u8| number << 7 | u64::from(byte & 0x7F);
    Some((varint.iter().rev().fold(0, join), rest))
}

// ---- faults

pub fn good_value(kind: Kind) -> Vec<u8> {
    match kind {
        Kind::Uint32 => vec![1, 0, 0, 0],
        Kind::Bool => vec![1],
        Kind::Bytes => b"key".to_vec(),
    }
}

/// Values that no field of the kind has: zero, of another length, a bool that is not 1.
pub fn bad_values(kind: Kind) -> Vec<Vec<u8>> {
    match kind {
        Kind::Uint32 => vec![
            vec![],
            vec![0; 4],
            vec![1],
            vec![1, 0],
            vec![1, 0, 0],
            vec![1, 0, 0, 0, 0],
            vec![1, 0, 0, 0, 0, 0, 0, 0],
        ],
        Kind::Bool => vec![vec![], vec![0], vec![2], vec![0xFF], vec![1, 0], vec![0, 1]],
        Kind::Bytes => vec![vec![]],
    }
}

/// Good fields, those of these places.
pub fn good_fields(kinds: &[Kind], places: std::ops::Range<usize>) -> Vec<u8> {
    places
        .flat_map(|place| record(1 + place as u8, &good_value(kinds[place])))
        .collect()
}

/// Faulty fields that may come behind so many good ones, each with what is wrong.
pub fn faults(kinds: &[Kind], place: usize) -> Vec<(&'static str, Vec<u8>)> {
    let mut faults = Vec::new();
    if let Some(&kind) = kinds.get(place) {
        let bad = bad_values(kind).into_iter();
        faults.extend(bad.map(|value| ("a value", record(1 + place as u8, &value))));
    }
    let seen = (1..=place as u8).map(|tag| ("a repeated or falling tag", tag));
    let unlisted = [0, 1 + kinds.len() as u8, 9, 16, 255].map(|tag| ("an unlisted tag", tag));
    for (fault, tag) in seen.chain(unlisted) {
        for value in [&b""[..], &[1], &[1, 0, 0, 0], b"key"] {
            faults.push((fault, record(tag, value)));
        }
    }
    faults
}

/// Most often a listed one.
pub fn some_type(random: &mut Random) -> u8 {
    match random.below(24) {
        0 => random.pick(&UNLISTED_TYPES),
        _ => random.pick(&LISTED_TYPES),
    }
}
