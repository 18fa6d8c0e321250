//! Calls with a full list of shipped keys: Pings, on a registry of one name so that the list's check is
//! nearly all there is, and exports of listed keys on a full registry, where own keys are looked at first.

use crate::calls;
use crate::registries::{FULL, ONE_NAME};
use crate::rows::Row;
use razidkot_tests::ask::{name_body, request, EXPORT, PING};
use razidkot_tests::generate::{name, Random};
use razidkot_tests::lists::{list_of, Pair, LONGEST_DATA, LONGEST_NAME, MOST_PAIRS};

/// Fewer than in other rows, since each call compares 64 names.
const EACH_TURN: usize = 5_000;

/// As many keys as may be, with names as long as may be.
struct List {
    title: &'static str,
    /// The names are alike but for their last byte: the most work for whoever compares them.
    alike: bool,
    data_length: usize,
}

const ALL: [List; 4] = [
    List {
        title: "unlike, 1 byte",
        alike: false,
        data_length: 1,
    },
    List {
        title: "unlike, 600 bytes",
        alike: false,
        data_length: LONGEST_DATA,
    },
    List {
        title: "alike, 1 byte",
        alike: true,
        data_length: 1,
    },
    List {
        title: "alike, 600 bytes",
        alike: true,
        data_length: LONGEST_DATA,
    },
];

pub fn rows() -> Vec<Row> {
    let pings = ALL.iter().map(List::pings);
    pings.chain(ALL.iter().map(List::exports)).collect()
}

impl List {
    fn keys(&self) -> Vec<Pair> {
        let key = |number: usize| {
            let data = Random::new(number as u64).bytes(self.data_length);
            (self.name(number), data)
        };
        (0..MOST_PAIRS).map(key).collect()
    }

    fn name(&self, number: usize) -> Vec<u8> {
        if !self.alike {
            // No name of the registry, whose names are made of lower numbers.
            let seed = 1_000 + number as u64;
            return name(&mut Random::new(seed), number, LONGEST_NAME);
        }
        let mut name = vec![b'n'; LONGEST_NAME];
        name[LONGEST_NAME - 1] = b'!' + number as u8;
        name
    }

    fn pings(&self) -> Row {
        let (registry, list) = (ONE_NAME.bytes(), list_of(&self.keys()));
        let ping = request(PING, None, &[]);
        let name = format!("list, Pings, {}", self.title);
        calls::row_of(name, (&registry, &list), &[ping], EACH_TURN)
    }

    /// Of each listed key in turn.
    fn exports(&self) -> Row {
        let (registry, list) = (FULL.bytes(), list_of(&self.keys()));
        let application = FULL.application_name(0);
        let export = |(name, _): &Pair| request(EXPORT, Some(&application), &name_body(name));
        let exports: Vec<_> = self.keys().iter().map(export).collect();
        let name = format!("list, exports, {}", self.title);
        calls::row_of(name, (&registry, &list), &exports, EACH_TURN)
    }
}
