//! Plain answers for leaves that the reference has no public function for, from document 01's text
//! and docs/LAYOUT.md.

use crate::foreign::Schema;
use crate::layout::*;

// ---- "Operations and their fields", Reading; document 02, "Unlisted fields"

/// "Varints take up to ten bytes, longer-than-needed forms are read, a tenth byte above 1 is not."
pub fn read_varint(bytes: &[u8], at: usize) -> Option<(u64, usize)> {
    let bytes = bytes.get(at..)?;
    let last = bytes.iter().take(10).position(|&byte| byte < 0x80)?;
    if last == 9 && bytes[9] > 1 {
        return None;
    }
    let value = bytes[..=last]
        .iter()
        .rev()
        .fold(0, |value: u64, &byte| value << 7 | u64::from(byte & 0x7F));
    Some((value, at + last + 1))
}

#[derive(Clone, Copy, Debug, PartialEq, Eq)]
enum Kind {
    Bytes,
    Uint32,
    Bool,
}

/// The listed field numbers of a message, from 1.
fn kinds(schema: Schema) -> &'static [Kind] {
    match schema {
        Schema::NoFields => &[],
        Schema::ListOpcodes => &[Kind::Uint32],
        Schema::Import => &[
            Kind::Bytes,
            Kind::Bytes,
            Kind::Uint32,
            Kind::Bool,
            Kind::Bool,
        ],
        Schema::Name => &[Kind::Bytes],
    }
}

/// What a field holds; an absent one is 0, false or empty.
#[derive(Clone, Copy, Debug, Default, PartialEq, Eq)]
pub struct Value<'a> {
    pub bytes: &'a [u8],
    pub number: u64,
}

/// The values of field numbers 1 to 5, or where the tag of the first unreadable field starts.
pub fn read_body(body: &[u8], schema: Schema) -> Result<[Value<'_>; 5], usize> {
    let mut values = [Value::default(); 5];
    let mut at = 0;
    while at < body.len() {
        let field = read_field(body, at, DEEPEST_GROUP).ok_or(at)?;
        if let Some((place, value)) = listed(&field, kinds(schema)) {
            values[place] = value;
        }
        at = field.end;
    }
    Ok(values)
}

/// "groups (3 and 4) that may stand inside each other to a depth of 16"
const DEEPEST_GROUP: usize = 16;

/// A whole field, whatever its number.
struct Field<'a> {
    number: u64,
    content: Content<'a>,
    end: usize,
}

enum Content<'a> {
    Varint(u64),
    Bytes(&'a [u8]),
    /// Wire types 1 and 5, and a group: no message has one.
    Other,
}

/// A field's place among the values and its value; `None` for one that is skipped.
fn listed<'a>(field: &Field<'a>, kinds: &[Kind]) -> Option<(usize, Value<'a>)> {
    let place = usize::try_from(field.number - 1).ok()?;
    let (bytes, number): (&[u8], u64) = match (kinds.get(place)?, &field.content) {
        (Kind::Uint32, Content::Varint(value)) => (&[], value & 0xFFFF_FFFF),
        (Kind::Bool, Content::Varint(value)) => (&[], u64::from(*value != 0)),
        (Kind::Bytes, Content::Bytes(bytes)) => (bytes, 0),
        _ => return None,
    };
    Some((place, Value { bytes, number }))
}

/// The field at this place; groups may still stand inside each other so deep.
fn read_field(body: &[u8], at: usize, depth_left: usize) -> Option<Field<'_>> {
    let (number, wire_type, at) = read_tag(body, at)?;
    let (content, end) = match wire_type {
        0 => {
            let (value, end) = read_varint(body, at)?;
            (Content::Varint(value), end)
        }
        1 => (Content::Other, at + 8),
        2 => {
            let (length, start) = read_varint(body, at)?;
            let end = start.checked_add(usize::try_from(length).ok()?)?;
            (Content::Bytes(body.get(start..end)?), end)
        }
        3 => (Content::Other, group_end(body, at, number, depth_left)?),
        5 => (Content::Other, at + 4),
        _ => return None,
    };
    let field = Field {
        number,
        content,
        end,
    };
    (end <= body.len()).then_some(field)
}

/// A tag's field number and wire type, and where it ends.
fn read_tag(body: &[u8], at: usize) -> Option<(u64, u64, usize)> {
    let (tag, end) = read_varint(body, at)?;
    (8..=0xFFFF_FFFF)
        .contains(&tag)
        .then_some((tag / 8, tag % 8, end))
}

/// Behind the end of the group whose fields begin here.
fn group_end(body: &[u8], mut at: usize, group: u64, depth_left: usize) -> Option<usize> {
    let deeper = depth_left.checked_sub(1)?;
    loop {
        let (number, wire_type, content) = read_tag(body, at)?;
        if wire_type == 4 {
            return (number == group).then_some(content);
        }
        at = read_field(body, at, deeper)?.end;
    }
}

// ---- Writing: "shortest varints, zero values left out"

pub fn varint(mut number: u64) -> Vec<u8> {
    let mut bytes = Vec::new();
    while number > 0x7F {
        bytes.push(number as u8 | 0x80);
        number >>= 7;
    }
    bytes.push(number as u8);
    bytes
}

pub fn number_field(number: u64, value: u64) -> Vec<u8> {
    match value {
        0 => Vec::new(),
        _ => [varint(number << 3), varint(value)].concat(),
    }
}

pub fn bytes_field(number: u64, bytes: &[u8]) -> Vec<u8> {
    match bytes {
        [] => Vec::new(),
        _ => [&varint(number << 3 | 2), &varint(bytes.len() as u64), bytes].concat(),
    }
}

// ---- "Bytes on the wire"

/// H, major, minor, provider, session, content type, accept type, auth type, C, A, opcode.
pub fn read_header(bytes: &[u8]) -> Option<[u64; 11]> {
    let mut rest = bytes.get(..28)?.iter().skip(4);
    Some([2, 1, 1, 1, 8, 1, 1, 1, 4, 2, 2].map(|width| {
        let field: Vec<_> = rest.by_ref().take(width).collect();
        field
            .into_iter()
            .rfold(0, |number, &byte| number << 8 | u64::from(byte))
    }))
}

pub fn response_header(
    provider: u8,
    session: u64,
    content_length: u32,
    opcode: u16,
    status: u16,
) -> Vec<u8> {
    [
        &0x5EC0_A710_u32.to_le_bytes()[..],
        &20_u16.to_le_bytes(),
        &[1, 0, provider],
        &session.to_le_bytes(),
        &[1],
        &content_length.to_le_bytes(),
        &opcode.to_le_bytes(),
        &status.to_le_bytes(),
    ]
    .concat()
}

// ---- "Roster, registry, connection, tally"

/// "a name not on the roster": an empty one is on none.
pub fn find_application(registry: &[u8], name: &[u8]) -> Option<usize> {
    (0..LINES).find(|&line| !name.is_empty() && name_at(registry, line_at(line)) == name)
}

/// The lowest-numbered slot of the line with this name; a free slot has the empty one.
pub fn find_slot(registry: &[u8], line: usize, name: &[u8]) -> Option<usize> {
    (0..SLOTS).find(|&slot| name_at(registry, slot_at(Place { line, slot })) == name)
}

/// A slot that holds this key, not used yet, the unused bytes zero.
pub fn slot_of(key: &Key) -> Vec<u8> {
    let padded = |bytes: &[u8], size: usize| {
        let mut bytes = bytes.to_vec();
        bytes.resize(size, 0);
        bytes
    };
    [
        vec![key.name.len() as u8],
        padded(&key.name, LONGEST_KEY_NAME),
        (key.data.len() as u16).to_le_bytes().to_vec(),
        padded(&key.data, LONGEST_DATA),
        key.bits.to_le_bytes().to_vec(),
        vec![key.export_allowed.into(), key.verify_allowed.into()],
        0_u32.to_le_bytes().to_vec(),
    ]
    .concat()
}

pub fn data_in(slot: &[u8]) -> &[u8] {
    let length = u16::from_le_bytes([slot[DATA_LENGTH_AT], slot[DATA_LENGTH_AT + 1]]);
    &slot[DATA_AT..][..length.into()]
}

/// "Name 1 to 32 bytes, each 0x21 to 0x7E"
pub fn key_name_is_legal(name: &[u8]) -> bool {
    (1..=32).contains(&name.len()) && name.iter().all(|byte| (0x21..=0x7E).contains(byte))
}

/// What Import's bounds refuse: "data 1 to 600 bytes, any content; .. else 1135", then "only 2,048,
/// 3,072 and 4,096 bits. Any other is 1134, judged after name and data".
pub fn import_refusal(name: &[u8], data: &[u8], bits: u64) -> Option<u16> {
    if !key_name_is_legal(name) || !(1..=600).contains(&data.len()) {
        return Some(1135);
    }
    (![2_048, 3_072, 4_096].contains(&bits)).then_some(1134)
}
