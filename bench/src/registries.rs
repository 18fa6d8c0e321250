//! The registries that are measured on.

use razidkot_tests::ask::{import_body, registry_of, request, IMPORT};
use razidkot_tests::foreign;
use razidkot_tests::generate::{name, Random};
use razidkot_tests::layout::{Key, LINES, SLOTS};
use reference::rules;

/// So many applications, each with so many keys. The names are as long as they may be, and so is the
/// keys' data.
#[derive(Clone, Copy)]
pub struct Registry {
    pub title: &'static str,
    applications: usize,
    keys: usize,
    /// The names are alike but for their last byte: the most work for whoever compares them.
    alike: bool,
}

const fn unlike(title: &'static str, applications: usize, keys: usize) -> Registry {
    Registry {
        title,
        applications,
        keys,
        alike: false,
    }
}

const fn alike(title: &'static str, applications: usize, keys: usize) -> Registry {
    Registry {
        title,
        applications,
        keys,
        alike: true,
    }
}

pub const FULL: Registry = unlike("full", LINES, SLOTS);
pub const ONE_KEY: Registry = unlike("one key a line", LINES, 1);
pub const EIGHT_NAMES: Registry = unlike("8 names", 8, 0);
pub const ONE_NAME: Registry = unlike("1 name", 1, 0);
pub const ALL: [Registry; 6] = [
    FULL,
    ONE_KEY,
    EIGHT_NAMES,
    unlike("4 names", 4, 0),
    ONE_NAME,
    unlike("empty roster", 0, 0),
];
pub const ALIKE: [Registry; 2] = [
    alike("full, names alike", LINES, SLOTS),
    alike("8 names alike", 8, 0),
];

impl Registry {
    pub fn titled(title: &str) -> Option<Registry> {
        ALL.into_iter()
            .chain(ALIKE)
            .find(|registry| registry.title == title)
    }

    /// Line and slot of each key.
    pub fn places(self) -> impl Iterator<Item = (usize, usize)> {
        (0..self.applications).flat_map(move |line| (0..self.keys).map(move |slot| (line, slot)))
    }

    pub fn application_names(self) -> impl Iterator<Item = Vec<u8>> {
        (0..self.applications).map(move |line| self.application_name(line))
    }

    pub fn application_name(self, line: usize) -> Vec<u8> {
        self.name(line, 64)
    }

    pub fn key_name(self, line: usize, slot: usize) -> Vec<u8> {
        self.name(line * SLOTS + slot, 32)
    }

    fn name(self, number: usize, length: usize) -> Vec<u8> {
        if !self.alike {
            return name(&mut Random::new(number as u64), number, length);
        }
        let mut name = vec![b'n'; length];
        name[length - 1] = b'!' + number as u8;
        name
    }

    /// Its bytes; every key may be exported.
    pub fn bytes(self) -> Vec<u8> {
        let names: Vec<_> = self.application_names().collect();
        let mut stream = Vec::new();
        for (line, slot) in self.places() {
            let key = Key {
                name: self.key_name(line, slot),
                data: Random::new((line * SLOTS + slot) as u64).bytes(600),
                bits: 2_048,
                export_allowed: true,
                verify_allowed: false,
            };
            stream.extend(request(IMPORT, Some(&names[line]), &import_body(&key)));
        }
        let outcome = rules::run(&registry_of(&names), &stream);
        assert_eq!(outcome.counters.refused, [0; 19]);
        assert!(foreign::registry_is_well_formed(&outcome.registry));
        outcome.registry
    }
}
