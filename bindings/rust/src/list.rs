//! The list of keys that every site is handed: document 02, "Keys we ship"; docs/LAYOUT.md.

use crate::{raw, Counters, CONNECTION_SIZE, REGISTRY_SIZE};
use crate::{LEAST_JOURNAL_BUFFER, LEAST_RESPONSE_BUFFER};
use std::fmt;

/// How many keys a list may have.
pub const MOST_LISTED_KEYS: usize = 64;
/// No good list is longer.
pub const LONGEST_LIST: usize = MOST_LISTED_KEYS * (3 + LONGEST_NAME + 3 + LONGEST_DATA);

const LONGEST_NAME: usize = 32;
const LONGEST_DATA: usize = 600;

const NAME: u8 = 1;
const DATA: u8 = 2;

/// A list of keys, good always: names that differ, and the data of each.
#[derive(Clone, Debug, Default, PartialEq, Eq)]
pub struct List {
    bytes: Vec<u8>,
}

/// A key of a list. Every application may export it and verify with it; its bits are its modulus's.
#[derive(Clone, Copy, Debug, PartialEq, Eq)]
pub struct ListedKey<'a> {
    /// 1 to 32 bytes, each 0x21 to 0x7E.
    pub name: &'a [u8],
    /// 1 to 600 bytes.
    pub data: &'a [u8],
}

impl List {
    /// The list of none.
    pub fn new() -> List {
        List::default()
    }

    /// The list of a file. The compiled service judges the bytes, as it does on every call.
    ///
    /// ```
    /// use razidkot::{List, ListFault};
    ///
    /// // For each key two records, tag, length and value: tag 1 the name, tag 2 the data.
    /// let list = List::from_bytes(b"\x01\x01\x00k\x02\x02\x00\xAA\xBB")?;
    /// assert_eq!(list.keys().count(), 1);
    /// assert!(List::from_bytes(b"").is_ok(), "a list of none");
    ///
    /// let fault = List::from_bytes(b"\x01\x01\x00k").unwrap_err();
    /// assert_eq!(fault, ListFault::NoData);
    /// assert_eq!(fault.to_string(), "list C6: a name without data");
    /// # Ok::<(), ListFault>(())
    /// ```
    pub fn from_bytes(bytes: &[u8]) -> Result<List, ListFault> {
        if is_taken(bytes) {
            let bytes = bytes.to_vec();
            return Ok(List { bytes });
        }
        let fault = read(bytes).err();
        Err(fault.expect("what the service refuses has a fault"))
    }

    /// Puts a key behind the others; one that the service would refuse there is not put.
    ///
    /// ```
    /// use razidkot::{List, ListFault};
    ///
    /// let mut list = List::new();
    /// list.push(b"k", b"\xAA\xBB")?;
    /// assert_eq!(list.bytes(), b"\x01\x01\x00k\x02\x02\x00\xAA\xBB");
    /// assert_eq!(list.push(b"k", b"\xCC"), Err(ListFault::RepeatedName));
    /// assert_eq!(list.push(b"a key", b"\xCC"), Err(ListFault::BadName));
    /// assert_eq!(list.keys().count(), 1);
    /// # Ok::<(), ListFault>(())
    /// ```
    pub fn push(&mut self, name: &[u8], data: &[u8]) -> Result<(), ListFault> {
        let mut bytes = self.bytes.clone();
        // What does not fit into a record's length is too long for a key by far.
        record(NAME, name, &mut bytes).ok_or(ListFault::BadName)?;
        record(DATA, data, &mut bytes).ok_or(ListFault::BadData)?;
        *self = List::from_bytes(&bytes)?;
        Ok(())
    }

    /// The keys, in the order of the list.
    ///
    /// ```
    /// let mut list = razidkot::List::new();
    /// list.push(b"a", b"\xAA")?;
    /// list.push(b"b", b"\xBB\xCC")?;
    /// let lengths: Vec<_> = list.keys().map(|key| (key.name, key.data.len())).collect();
    /// assert_eq!(lengths, [(&b"a"[..], 1), (b"b", 2)]);
    /// # Ok::<(), razidkot::ListFault>(())
    /// ```
    pub fn keys(&self) -> impl Iterator<Item = ListedKey<'_>> {
        read(&self.bytes).expect("a good list").into_iter()
    }

    /// The list's bytes, to be written to a file or lent to [`raw::call`].
    pub fn bytes(&self) -> &[u8] {
        &self.bytes
    }
}

/// A record as the roster's: tag, length in two bytes, value. Nothing for a value that is too long.
fn record(tag: u8, value: &[u8], bytes: &mut Vec<u8>) -> Option<()> {
    let length = u16::try_from(value.len()).ok()?;
    bytes.push(tag);
    bytes.extend(length.to_le_bytes());
    bytes.extend(value);
    Some(())
}

/// Is the list good? An empty chunk alters nothing, and all else is as it should be.
fn is_taken(list: &[u8]) -> bool {
    let (connection, registry) = (&mut [0; CONNECTION_SIZE], &mut [0; REGISTRY_SIZE]);
    let response = &mut [0; LEAST_RESPONSE_BUFFER];
    let journal = &mut [0; LEAST_JOURNAL_BUFFER];
    let counters = &mut Counters::default();
    let judged = raw::call(b"", connection, registry, list, counters, response, journal);
    judged.result().is_ok()
}

/// Why a list is refused. The service says C6 of each; which it is, is found here.
#[derive(Clone, Copy, Debug, PartialEq, Eq)]
pub enum ListFault {
    /// A record is cut, within its tag and length or within its value.
    CutRecord,
    /// A tag other than 1 where a name begins a key.
    NotAName,
    /// A tag other than 2 behind a name.
    NotData,
    /// A name not of 1 to 32 bytes, or with a byte outside 0x21 to 0x7E.
    BadName,
    /// Data not of 1 to 600 bytes.
    BadData,
    /// A name seen before.
    RepeatedName,
    /// A 65th key.
    TooManyKeys,
    /// The list ends behind a name.
    NoData,
}

impl fmt::Display for ListFault {
    fn fmt(&self, out: &mut fmt::Formatter) -> fmt::Result {
        let why = match self {
            ListFault::CutRecord => "a record is cut",
            ListFault::NotAName => "a tag other than 1 where a name should be",
            ListFault::NotData => "a tag other than 2 where data should be",
            ListFault::BadName => "a name not of 1 to 32 bytes, each 0x21 to 0x7E",
            ListFault::BadData => "data not of 1 to 600 bytes",
            ListFault::RepeatedName => "a name seen before",
            ListFault::TooManyKeys => "a 65th key",
            ListFault::NoData => "a name without data",
        };
        write!(out, "list C6: {why}")
    }
}

impl std::error::Error for ListFault {}

/// The keys of a list, or its first fault.
fn read(list: &[u8]) -> Result<Vec<ListedKey<'_>>, ListFault> {
    let mut keys = Vec::new();
    let mut rest = list;
    while !rest.is_empty() {
        let (key, behind) = read_key(rest, &keys)?;
        keys.push(key);
        rest = behind;
    }
    Ok(keys)
}

/// The key that the bytes begin with, and those behind it.
fn read_key<'a>(
    bytes: &'a [u8],
    before: &[ListedKey],
) -> Result<(ListedKey<'a>, &'a [u8]), ListFault> {
    let (tag, name, rest) = read_record(bytes)?;
    let is_legal = (1..=LONGEST_NAME).contains(&name.len())
        && name.iter().all(|byte| (0x21..=0x7E).contains(byte));
    let faults = [
        (tag != NAME, ListFault::NotAName),
        (!is_legal, ListFault::BadName),
        (
            before.iter().any(|key| key.name == name),
            ListFault::RepeatedName,
        ),
        (before.len() == MOST_LISTED_KEYS, ListFault::TooManyKeys),
        (rest.is_empty(), ListFault::NoData),
    ];
    first(&faults)?;
    let (tag, data, rest) = read_record(rest)?;
    let is_legal = (1..=LONGEST_DATA).contains(&data.len());
    first(&[
        (tag != DATA, ListFault::NotData),
        (!is_legal, ListFault::BadData),
    ])?;
    Ok((ListedKey { name, data }, rest))
}

/// Tag, value, and what is behind the record.
fn read_record(bytes: &[u8]) -> Result<(u8, &[u8], &[u8]), ListFault> {
    let (&[tag, low, high], rest) = bytes.split_first_chunk::<3>().ok_or(ListFault::CutRecord)?;
    let length = usize::from(u16::from_le_bytes([low, high]));
    let (value, rest) = rest.split_at_checked(length).ok_or(ListFault::CutRecord)?;
    Ok((tag, value, rest))
}

/// The first fault that there is.
fn first(faults: &[(bool, ListFault)]) -> Result<(), ListFault> {
    match faults.iter().find(|(is_there, _)| *is_there) {
        Some(&(_, fault)) => Err(fault),
        None => Ok(()),
    }
}

#[cfg(test)]
mod tests {
    use super::*;

    fn list_of(count: usize) -> Vec<u8> {
        let mut bytes = Vec::new();
        for number in 0..count {
            let name = [b'n', 0x21 + number as u8];
            record(NAME, &name, &mut bytes).expect("short");
            record(DATA, &[number as u8; 3], &mut bytes).expect("short");
        }
        bytes
    }

    #[test]
    fn the_longest_list_is_good() {
        let mut list = List::new();
        for number in 0..64 {
            let mut name = [b'~'; 32];
            name[31] = 0x21 + number;
            assert_eq!(list.push(&name, &[number; 600]), Ok(()));
        }
        assert_eq!(list.bytes().len(), LONGEST_LIST);
        assert_eq!(list.push(b"another", b"\0"), Err(ListFault::TooManyKeys));
        assert_eq!(list.keys().count(), MOST_LISTED_KEYS);
        assert_eq!(List::from_bytes(list.bytes()), Ok(list));
    }

    #[test]
    fn a_key_that_is_none_is_not_put() {
        let mut list = List::new();
        list.push(b"k", &[0; 600]).expect("a good key");
        let before = list.clone();
        let long = [b'n'; 70_000];
        for (name, data, fault) in [
            (&b""[..], &b"d"[..], ListFault::BadName),
            (&long[..33], b"d", ListFault::BadName),
            (&long, b"d", ListFault::BadName),
            (b"a b", b"d", ListFault::BadName),
            (b"\x7F", b"", ListFault::BadName),
            (b"k", b"", ListFault::RepeatedName),
            (b"l", b"", ListFault::BadData),
            (b"l", &long[..601], ListFault::BadData),
            (b"l", &long, ListFault::BadData),
        ] {
            assert_eq!(list.push(name, data), Err(fault), "{}", name.escape_ascii());
            assert_eq!(list, before);
        }
    }

    #[test]
    fn a_file_that_is_no_list_has_its_fault() {
        let sixty_five = list_of(65);
        for (bytes, fault) in [
            (&b"\x01"[..], ListFault::CutRecord),
            (b"\x01\x02\x00k", ListFault::CutRecord),
            (b"\x01\x01\x00k\x02", ListFault::CutRecord),
            (b"\x01\x01\x00k\x02\x02\x00d", ListFault::CutRecord),
            (b"\x02\x01\x00d\x01\x01\x00k", ListFault::NotAName),
            (b"\x03\x00\x00", ListFault::NotAName),
            (b"\x01\x01\x00k\x01\x01\x00l", ListFault::NotData),
            (b"\x01\x00\x00\x02\x01\x00d", ListFault::BadName),
            (b"\x01\x01\x00k\x02\x00\x00", ListFault::BadData),
            (
                b"\x01\x01\x00k\x02\x01\x00d\x01\x01\x00k\x02\x01\x00d",
                ListFault::RepeatedName,
            ),
            (&sixty_five, ListFault::TooManyKeys),
            (b"\x01\x01\x00k", ListFault::NoData),
        ] {
            assert_eq!(List::from_bytes(bytes), Err(fault), "{bytes:02X?}");
        }
    }

    /// The service has the verdict, and the reader here the reason: neither without the other.
    #[test]
    fn what_the_service_refuses_has_a_fault_and_nothing_else_has() {
        let whole = list_of(3);
        let cuts = (0..=whole.len()).map(|length| whole[..length].to_vec());
        let changes = (0..whole.len()).flat_map(|place| {
            let whole = &whole;
            [0, 1, 2, 3, 4, 0x20, b'n', b'\"', 0x7F].map(|byte| {
                let mut changed = whole.clone();
                changed[place] = byte;
                changed
            })
        });
        let mut good = 0;
        for list in cuts.chain(changes).chain([list_of(64), list_of(65)]) {
            assert_eq!(is_taken(&list), read(&list).is_ok(), "{list:02X?}");
            good += usize::from(is_taken(&list));
        }
        // Each border, the whole, the 64, and changes that leave a list.
        assert!(good > 5, "{good}");
    }
}
