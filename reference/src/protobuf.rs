//! The first body format, Protocol Buffers: fields read where they lie.
//! Document 01, "Operations and their fields", the paragraph on reading and writing; document 02,
//! "Unlisted fields" and "Where the body broke".

use crate::message::{self, Kind, Unreadable};

/// Groups may stand inside each other so deep; an outermost one has depth 1.
const DEEPEST_GROUP: usize = 16;

/// What can't be read within a field, or within a packed list.
#[derive(Clone, Copy, Debug, PartialEq, Eq)]
pub struct Broken;

/// Reads the listed fields, of which the last counts, and skips all others: an unlisted number, or a
/// listed one with another wire type.
pub fn read<'a>(
    body: &'a [u8],
    kinds: &[Kind],
    values: &mut [message::Value<'a>],
) -> Result<(), Unreadable> {
    for field in fields(body) {
        let field = field?;
        let place = field.number as usize - 1;
        match (kinds.get(place), field.value) {
            (Some(Kind::Uint32 | Kind::Bool), Value::Varint(number)) => {
                values[place] = message::Value::Number(number);
            }
            (Some(Kind::Bytes), Value::Bytes(bytes)) => {
                values[place] = message::Value::Bytes(bytes);
            }
            (Some(Kind::List), Value::Bytes(bytes)) => {
                packed_entries(bytes).map_err(|Broken| Unreadable { at: field.at })?;
                values[place] = message::Value::Bytes(bytes);
            }
            _ => {}
        }
    }
    Ok(())
}

/// What a field holds.
#[derive(Clone, Copy, Debug, PartialEq, Eq)]
enum Value<'a> {
    Varint(u64),
    Bytes(&'a [u8]),
    /// Wire types 1 and 5, and a whole group: no listed field has one.
    Other,
}

#[derive(Clone, Copy, Debug, PartialEq, Eq)]
struct Field<'a> {
    /// Where in the body its tag starts.
    at: usize,
    number: u32,
    value: Value<'a>,
}

/// The fields of a body in the order they come, up to the first unreadable one.
struct Fields<'a> {
    body: &'a [u8],
    rest: &'a [u8],
}

fn fields(body: &[u8]) -> Fields<'_> {
    Fields { body, rest: body }
}

impl<'a> Iterator for Fields<'a> {
    type Item = Result<Field<'a>, Unreadable>;

    fn next(&mut self) -> Option<Self::Item> {
        if self.rest.is_empty() {
            return None;
        }
        let at = self.body.len() - self.rest.len();
        Some(self.read_field(at).map_err(|Broken| Unreadable { at }))
    }
}

#[derive(Clone, Copy)]
struct Tag {
    number: u32,
    wire_type: u32,
}

impl<'a> Fields<'a> {
    fn read_field(&mut self, at: usize) -> Result<Field<'a>, Broken> {
        let tag = self.read_tag()?;
        let value = match tag.wire_type {
            3 => self.skip_group(tag.number)?,
            _ => self.read_value(tag)?,
        };
        Ok(Field {
            at,
            number: tag.number,
            value,
        })
    }

    fn read_tag(&mut self) -> Result<Tag, Broken> {
        // The tag is the whole varint: one above 2^32 - 1 is not cut down to 32 bits.
        let tag = u32::try_from(self.read_varint()?).map_err(|_| Broken)?;
        let (number, wire_type) = (tag >> 3, tag & 7);
        match number {
            0 => Err(Broken),
            _ => Ok(Tag { number, wire_type }),
        }
    }

    /// Of a field that is no group. An end tag that comes here has no group to end.
    fn read_value(&mut self, tag: Tag) -> Result<Value<'a>, Broken> {
        match tag.wire_type {
            0 => Ok(Value::Varint(self.read_varint()?)),
            1 => self.take(8).map(|_| Value::Other),
            2 => Ok(Value::Bytes(self.read_bytes()?)),
            5 => self.take(4).map(|_| Value::Other),
            _ => Err(Broken),
        }
    }

    /// Skips to behind the end tag of the group whose start tag has been read.
    fn skip_group(&mut self, number: u32) -> Result<Value<'a>, Broken> {
        let mut open = vec![number];
        while let Some(&innermost) = open.last() {
            let tag = self.read_tag()?;
            match tag.wire_type {
                3 if open.len() == DEEPEST_GROUP => return Err(Broken),
                3 => open.push(tag.number),
                4 if tag.number != innermost => return Err(Broken),
                4 => {
                    open.pop();
                }
                _ => {
                    self.read_value(tag)?;
                }
            }
        }
        Ok(Value::Other)
    }

    /// Up to ten bytes, longer-than-needed forms too; a tenth byte above 1 is not read.
    fn read_varint(&mut self) -> Result<u64, Broken> {
        let mut value = 0;
        for (place, &byte) in self.rest.iter().take(10).enumerate() {
            if place == 9 && byte > 1 {
                return Err(Broken);
            }
            value |= u64::from(byte & 0x7F) << (7 * place);
            if byte < 0x80 {
                self.rest = &self.rest[place + 1..];
                return Ok(value);
            }
        }
        Err(Broken)
    }

    /// The length is the whole varint, so a huge one is a cut field.
    fn read_bytes(&mut self) -> Result<&'a [u8], Broken> {
        let length = usize::try_from(self.read_varint()?).map_err(|_| Broken)?;
        self.take(length)
    }

    fn take(&mut self, length: usize) -> Result<&'a [u8], Broken> {
        let (bytes, rest) = self.rest.split_at_checked(length).ok_or(Broken)?;
        self.rest = rest;
        Ok(bytes)
    }
}

/// A uint32 is the low 32 bits of its varint.
pub fn low_32_bits(value: u64) -> u32 {
    value as u32
}

/// The entries of a packed list of uint32, each one whole within its bytes.
pub fn packed_entries(bytes: &[u8]) -> Result<Vec<u32>, Broken> {
    let mut unread = fields(bytes);
    let mut entries = Vec::new();
    while !unread.rest.is_empty() {
        entries.push(low_32_bits(unread.read_varint()?));
    }
    Ok(entries)
}

pub fn varint_length(value: u64) -> u32 {
    let bits = u64::BITS - value.leading_zeros();
    bits.div_ceil(7).max(1)
}
