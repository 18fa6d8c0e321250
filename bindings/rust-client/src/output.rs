//! What a response carries besides its status.

use crate::{raw, BodyFormat};
use core::{fmt, iter};

/// An output, read where it lies in the reader's memory. Of the statuses other than 0, 7 has
/// `Offset`, and any other has `Nothing`.
#[derive(Clone, Debug, PartialEq, Eq)]
pub enum Output<'a> {
    /// Of an Import, a Destroy, a verify whose signature is good, or a request that was refused.
    Nothing,
    /// Of a Ping.
    Version {
        /// The first number.
        major: u32,
        /// The second.
        minor: u32,
    },
    /// Of a ListProviders.
    Providers(Entries<'a>),
    /// Of a ListOpcodes.
    Opcodes(Entries<'a>),
    /// Of an Export: the key's data.
    Data(&'a [u8]),
    /// Of a request that was refused because its body can't be read, status 7: at which byte of the
    /// body the first unreadable field begins. It is the field's tag, and of a fault inside groups
    /// the outermost group's.
    Offset(u32),
}

impl<'a> Output<'a> {
    /// The output of a response in `state`. The places lie within it: that is proved.
    pub(crate) fn placed(
        numbers: raw::OutputNumbers,
        state: &'a [u8],
        format: BodyFormat,
    ) -> Output<'a> {
        let place = &state[numbers.start..numbers.start + numbers.length];
        let entries = |packed| Entries { packed, format };
        match numbers.kind {
            0 => Output::Nothing,
            1 => Output::Version {
                major: numbers.major,
                minor: numbers.minor,
            },
            2 => Output::Providers(entries(place)),
            3 => Output::Opcodes(entries(place)),
            4 => Output::Data(place),
            5 => Output::Offset(numbers.offset),
            kind => unreachable!("no output has the number {kind}"),
        }
    }
}

/// The entries of a list, in their order. They are read one by one where they lie; a clone begins
/// where this one is.
#[derive(Clone)]
pub struct Entries<'a> {
    /// Whole entries: the reader has judged them.
    packed: &'a [u8],
    format: BodyFormat,
}

/// The last byte of a varint has its top bit clear.
fn is_last(byte: &u8) -> bool {
    *byte < 0x80
}

/// How many bytes an entry has as a tagged record's.
const TAGGED_ENTRY: usize = 4;

impl Iterator for Entries<'_> {
    type Item = u32;

    fn next(&mut self) -> Option<u32> {
        let length = match self.format {
            BodyFormat::Protobuf => self.packed.iter().position(is_last)? + 1,
            BodyFormat::Tagged => TAGGED_ENTRY,
        };
        let (first, rest) = self.packed.split_at_checked(length)?;
        self.packed = rest;
        let mut entry = [0];
        let read = raw::read_list(self.format.number(), first, &mut entry);
        assert_eq!(read, 1, "an entry that the reader has judged");
        Some(entry[0])
    }

    fn size_hint(&self) -> (usize, Option<usize>) {
        let count = match self.format {
            BodyFormat::Protobuf => self.packed.iter().filter(|byte| is_last(byte)).count(),
            BodyFormat::Tagged => self.packed.len() / TAGGED_ENTRY,
        };
        (count, Some(count))
    }
}

impl ExactSizeIterator for Entries<'_> {}
impl iter::FusedIterator for Entries<'_> {}

/// The same numbers, however they are written.
impl PartialEq for Entries<'_> {
    fn eq(&self, other: &Self) -> bool {
        Iterator::eq(self.clone(), other.clone())
    }
}

impl Eq for Entries<'_> {}

impl fmt::Debug for Entries<'_> {
    fn fmt(&self, out: &mut fmt::Formatter) -> fmt::Result {
        out.debug_list().entries(self.clone()).finish()
    }
}
