//! The read-only list of keys that every site is handed: when it is good, and a key found in it.
//! Document 02, "Keys we ship".

use crate::records::split_record;
use crate::registry::{data_is_legal, key_name_is_legal};

pub const MOST_LISTED_KEYS: usize = 64;

const NAME_TAG: u8 = 1;
const DATA_TAG: u8 = 2;

struct ListedKey<'a> {
    name: &'a [u8],
    data: &'a [u8],
}

/// The first pair and the bytes behind it; none where no name and its data begin the list.
fn split_pair(list: &[u8]) -> Option<(ListedKey<'_>, &[u8])> {
    let (name, rest) = split_record(list)?;
    let (data, behind) = split_record(rest)?;
    let key = ListedKey {
        name: name.value,
        data: data.value,
    };
    (name.tag == NAME_TAG && data.tag == DATA_TAG).then_some((key, behind))
}

/// Pairs of legal names and data to the last byte, at most 64 and of distinct names. An empty list
/// has none, and is good.
pub fn list_is_well_formed(list: &[u8]) -> bool {
    read_names(list).is_some_and(are_distinct)
}

/// The names of all pairs, distinct or not; none where the list is bad otherwise.
fn read_names(list: &[u8]) -> Option<Vec<&[u8]>> {
    let mut names = Vec::new();
    let mut rest = list;
    while !rest.is_empty() {
        let (key, behind) = split_pair(rest)?;
        let is_good = key_name_is_legal(key.name)
            && data_is_legal(key.data)
            && names.len() < MOST_LISTED_KEYS;
        if !is_good {
            return None;
        }
        names.push(key.name);
        rest = behind;
    }
    Some(names)
}

/// Sorted, so that equal names are neighbours: every call tests all names of a list.
fn are_distinct(mut names: Vec<&[u8]>) -> bool {
    names.sort_unstable();
    names.windows(2).all(|pair| pair[0] != pair[1])
}

/// The data of the key of this name in a good list, as it lies there.
pub fn find_listed_key<'a>(list: &'a [u8], name: &[u8]) -> Option<&'a [u8]> {
    let mut rest = list;
    while let Some((key, behind)) = split_pair(rest) {
        if key.name == name {
            return Some(key.data);
        }
        rest = behind;
    }
    None
}
