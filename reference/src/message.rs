//! Messages in the two body formats: listed fields read where they lie, and written into lent memory.
//! Document 01, "Operations and their fields", the paragraph on reading and writing; document 02,
//! "Unlisted fields", "Where the body broke" and "A second body format".

use crate::bytes::write_at;
use crate::protobuf::{self, low_32_bits, packed_entries, varint_length};
use crate::tagged;

/// How a body is written, by its content type.
#[derive(Clone, Copy, Debug, PartialEq, Eq)]
#[repr(u8)]
pub enum BodyFormat {
    /// Protocol Buffers.
    Protobuf = 1,
    /// Tag, length, value.
    Tagged = 2,
}

impl BodyFormat {
    pub const ALL: [BodyFormat; 2] = [BodyFormat::Protobuf, BodyFormat::Tagged];

    pub fn from_number(number: u8) -> Option<BodyFormat> {
        Self::ALL
            .into_iter()
            .find(|&format| format.number() == number)
    }

    pub fn number(self) -> u8 {
        self as u8
    }
}

/// A body that document 01 calls not readable.
#[derive(Clone, Copy, Debug, PartialEq, Eq)]
pub struct Unreadable {
    /// Where in the body the first unreadable field starts, of the body's own fields.
    pub at: usize,
}

/// What a listed field holds.
#[derive(Clone, Copy, Debug, PartialEq, Eq)]
pub enum Kind {
    Uint32,
    Bool,
    Bytes,
    /// Of uint32.
    List,
}

/// No message has more.
const MOST_FIELDS: usize = 5;

/// What a body has of a field.
#[derive(Clone, Copy, Debug, PartialEq, Eq)]
pub enum Value<'a> {
    Absent,
    /// Of a uint32 or a bool: the whole number.
    Number(u64),
    /// Of bytes or a list, as they lie in the body.
    Bytes(&'a [u8]),
}

/// A body in its format.
#[derive(Clone, Copy, Debug)]
pub struct Body<'a> {
    pub format: BodyFormat,
    pub bytes: &'a [u8],
}

impl<'a> Body<'a> {
    /// Reads a message whose fields 1, 2, .. are of these kinds.
    pub fn read(&self, kinds: &[Kind]) -> Result<Message<'a>, Unreadable> {
        let mut values = [Value::Absent; MOST_FIELDS];
        match self.format {
            BodyFormat::Protobuf => protobuf::read(self.bytes, kinds, &mut values)?,
            BodyFormat::Tagged => tagged::read(self.bytes, kinds, &mut values)?,
        }
        Ok(Message {
            format: self.format,
            values,
        })
    }
}

/// The listed fields of a body; an absent one is 0, false or empty.
#[derive(Clone, Copy, Debug)]
pub struct Message<'a> {
    format: BodyFormat,
    values: [Value<'a>; MOST_FIELDS],
}

impl<'a> Message<'a> {
    /// A uint32 is the low 32 bits of its number.
    pub fn uint32(&self, number: usize) -> u32 {
        low_32_bits(self.number(number))
    }

    pub fn bool(&self, number: usize) -> bool {
        self.number(number) != 0
    }

    pub fn bytes(&self, number: usize) -> &'a [u8] {
        match self.values[number - 1] {
            Value::Bytes(bytes) => bytes,
            _ => &[],
        }
    }

    pub fn list(&self, number: usize) -> Vec<u32> {
        let bytes = self.bytes(number);
        match self.format {
            // It has been read before, where it stands.
            BodyFormat::Protobuf => packed_entries(bytes).unwrap_or_default(),
            BodyFormat::Tagged => tagged::entries(bytes),
        }
    }

    fn number(&self, number: usize) -> u64 {
        match self.values[number - 1] {
            Value::Number(number) => number,
            _ => 0,
        }
    }
}

/// Writes ascending fields to the front of `out`, zero values left out.
pub struct Writer<'a> {
    format: BodyFormat,
    out: &'a mut [u8],
    written: usize,
}

impl<'a> Writer<'a> {
    pub fn new(format: BodyFormat, out: &'a mut [u8]) -> Self {
        Writer {
            format,
            out,
            written: 0,
        }
    }

    pub fn written(&self) -> usize {
        self.written
    }

    pub fn write_uint32(&mut self, number: u8, value: u32) {
        match self.format {
            _ if value == 0 => {}
            BodyFormat::Protobuf => self.write_varint_field(number, value),
            BodyFormat::Tagged => self.write_record(number, &value.to_le_bytes()),
        }
    }

    pub fn write_bool(&mut self, number: u8, value: bool) {
        match self.format {
            _ if !value => {}
            BodyFormat::Protobuf => self.write_varint_field(number, 1),
            BodyFormat::Tagged => self.write_record(number, &[1]),
        }
    }

    pub fn write_bytes(&mut self, number: u8, value: &[u8]) {
        match self.format {
            _ if value.is_empty() => {}
            BodyFormat::Protobuf => {
                self.write_delimited(number, value.len() as u32);
                self.write_slice(value);
            }
            BodyFormat::Tagged => self.write_record(number, value),
        }
    }

    /// A zero among the entries is written: only a list of none is left out.
    pub fn write_list(&mut self, number: u8, values: &[u32]) {
        match self.format {
            _ if values.is_empty() => {}
            BodyFormat::Protobuf => {
                let lengths = values.iter().map(|&value| varint_length(value.into()));
                self.write_delimited(number, lengths.sum());
                for &value in values {
                    self.write_varint(value);
                }
            }
            BodyFormat::Tagged => {
                let entries: Vec<u8> = values
                    .iter()
                    .flat_map(|value| value.to_le_bytes())
                    .collect();
                self.write_record(number, &entries);
            }
        }
    }

    fn write_varint_field(&mut self, number: u8, value: u32) {
        self.write_varint(u32::from(number) << 3);
        self.write_varint(value);
    }

    /// Tag and length of a field of wire type 2.
    fn write_delimited(&mut self, number: u8, length: u32) {
        self.write_varint(u32::from(number) << 3 | 2);
        self.write_varint(length);
    }

    fn write_varint(&mut self, mut value: u32) {
        while value >= 0x80 {
            self.write_slice(&[value as u8 | 0x80]);
            value >>= 7;
        }
        self.write_slice(&[value as u8]);
    }

    fn write_record(&mut self, tag: u8, value: &[u8]) {
        self.write_slice(&[tag]);
        self.write_slice(&(value.len() as u16).to_le_bytes());
        self.write_slice(value);
    }

    fn write_slice(&mut self, bytes: &[u8]) {
        write_at(self.out, self.written, bytes);
        self.written += bytes.len();
    }
}

/// How many bytes `write_bytes` takes, under a field number whose tag has one byte.
pub fn bytes_field_length(format: BodyFormat, value: &[u8]) -> usize {
    match (format, value.len()) {
        (_, 0) => 0,
        (BodyFormat::Protobuf, length) => 1 + varint_length(length as u64) as usize + length,
        (BodyFormat::Tagged, length) => 3 + length,
    }
}
