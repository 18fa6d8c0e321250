//! Lists of shipped keys from a seed, for the applications of a registry, and damage to a list.
//! Document 02, "Keys we ship".

use crate::generate::{mutated, Random, KEY_NAMES};
use crate::layout::{line_at, name_at, slot_at, Place, LINES, LONGEST_DATA, SLOTS};
use crate::lists::{bad_lists, ends_of_pairs, list_of, pairs, pairs_in, rsa_public_key};
use crate::lists::{Pair, MOST_PAIRS};
use crate::signatures::Signed;
use std::sync::OnceLock;

/// A good list: none, some or, as far as they go onto one, all of these names and of those that
/// requests have; and now and then as many more as it may hold.
pub fn some_list(random: &mut Random, mut names: Vec<Vec<u8>>) -> Vec<u8> {
    let often = random.pick(&[0, 1, 2, 2, 4]);
    if often == 0 {
        return Vec::new();
    }
    names.extend(KEY_NAMES.iter().map(|&letter| vec![letter]));
    names.push(vec![b'k'; 32]);
    names.sort();
    names.dedup();
    names.retain(|_| random.once_in(often));
    random.shuffle(&mut names);
    names.truncate(MOST_PAIRS - 1);
    let mut keys = some_keys(random, names);
    if random.once_in(8) {
        let count = random.pick(&[MOST_PAIRS - 1, MOST_PAIRS, MOST_PAIRS]);
        let mut more = pairs(2 * MOST_PAIRS);
        more.retain(|(name, _)| keys.iter().all(|(other, _)| other != name));
        keys.extend(more.into_iter().take(count - keys.len()));
    }
    random.shuffle(&mut keys);
    list_of(&keys)
}

/// The names of all keys of a registry.
pub fn own_names(registry: &[u8]) -> Vec<Vec<u8>> {
    let name = |place| name_at(registry, slot_at(place)).to_vec();
    let names = Place::all().map(name);
    names.filter(|name| !name.is_empty()).collect()
}

/// The names in the slots of an application, empty ones for those that are free; none where there is no
/// such application.
pub fn slot_names(registry: &[u8], application: &[u8]) -> Vec<Vec<u8>> {
    let line = (0..LINES).find(|&line| name_at(registry, line_at(line)) == application);
    line.map_or(Vec::new(), |line| {
        let name = |slot| name_at(registry, slot_at(Place { line, slot })).to_vec();
        (0..SLOTS).map(name).collect()
    })
}

fn some_keys(random: &mut Random, names: Vec<Vec<u8>>) -> Vec<Pair> {
    names
        .into_iter()
        .map(|name| {
            let data = some_data(random, &name);
            (name, data)
        })
        .collect()
}

/// The key that the name's signature is of, one that is not supported, one of bits that Import has or
/// has not, or any data.
fn some_data(random: &mut Random, name: &[u8]) -> Vec<u8> {
    match random.below(8) {
        0..4 => Signed::of_name(name).data.clone(),
        4 => {
            let unsupported = Signed::unsupported();
            unsupported[random.below(unsupported.len())].data.clone()
        }
        5 => rsa_public_key(random.pick(&[1_016, 1_024, 2_047, 2_048, 2_056, 3_072, 4_096, 4_097])),
        _ => {
            let length = random.pick(&[1, 2, 127, 128, LONGEST_DATA]);
            random.bytes(length)
        }
    }
}

/// Another list, most often a bad one.
pub fn damage(random: &mut Random, list: &mut Vec<u8>) {
    static BAD: OnceLock<Vec<(String, Vec<u8>)>> = OnceLock::new();
    let bad = BAD.get_or_init(bad_lists);
    let keys = pairs_in(list);
    match random.below(8) {
        0..3 => list.clone_from(&bad[random.below(bad.len())].1),
        3 => list.truncate(random.below(list.len() + 1)),
        4 if !list.is_empty() => {
            let place = random.below(list.len());
            list[place] ^= 1 << random.below(8);
        }
        5 if !keys.is_empty() => {
            let again = random.pick(&keys);
            let place = random.pick(&ends_of_pairs(list));
            list.splice(place..place, list_of(&[again]));
        }
        6 => {
            let more = pairs(MOST_PAIRS + 1 - keys.len());
            list.extend(list_of(&more));
        }
        _ => *list = mutated(random, std::mem::take(list)),
    }
}
