//! The eight slots of each application, through the compiled call and the reference's: document 01,
//! "Operations and their fields"; document 02, "Eight keys each".

use razidkot::REGISTRY_SIZE;
use razidkot_tests::ask::*;
use razidkot_tests::generate::{name, registry, Filling, Random};
use razidkot_tests::layout::*;
use razidkot_tests::lent::Lent;
use razidkot_tests::oracle::bytes_field;
use razidkot_tests::run::for_seeds;

const REGISTRY_ILL_FORMED: u32 = 4;
const INSUFFICIENT_STORAGE: u16 = 1142;

/// Of a registry with four slots a line.
const OLD_SIZE: usize = 21_096;
const OLD_LINE_SIZE: usize = 2_637;

fn names_of_applications() -> Vec<Vec<u8>> {
    let name = |line| name(&mut Random::new(line as u64), line, 9);
    (0..LINES).map(name).collect()
}

/// The key that a place is given, with data of its own.
fn key_of(place: Place) -> Key {
    Key {
        name: vec![b'a' + place.slot as u8],
        data: vec![place.line as u8, place.slot as u8, 0xAA],
        bits: 2_048,
        export_allowed: true,
        verify_allowed: false,
    }
}

struct Service {
    lent: Lent,
    applications: Vec<Vec<u8>>,
}

impl Service {
    fn new() -> Service {
        let applications = names_of_applications();
        Service {
            lent: Lent::fresh(&registry_of(&applications), b""),
            applications,
        }
    }

    fn ask(&mut self, line: usize, opcode: u16, body: &[u8]) -> (u16, Vec<u8>) {
        let application = self.applications[line].clone();
        self.lent.ask_both(opcode, Some(&application), body)
    }

    fn import(&mut self, line: usize, key: &Key) -> u16 {
        self.ask(line, IMPORT, &import_body(key)).0
    }

    fn destroy(&mut self, line: usize, key: &Key) -> u16 {
        self.ask(line, DESTROY, &name_body(&key.name)).0
    }

    /// The key is exported, and is in this slot.
    fn expect_held(&mut self, place: Place, key: &Key) {
        let (status, body) = self.ask(place.line, EXPORT, &name_body(&key.name));
        assert_eq!((status, body), (SUCCESS, bytes_field(1, &key.data)));
        assert_eq!(name_at(&self.lent.registry, slot_at(place)), key.name);
    }
}

#[test]
fn every_slot_is_filled_exported_destroyed_and_filled_again_lowest_first() {
    let mut service = Service::new();
    let empty = service.lent.registry.clone();
    for place in Place::all() {
        assert_eq!(service.import(place.line, &key_of(place)), SUCCESS);
        service.expect_held(place, &key_of(place));
    }
    let full = service.lent.registry.clone();
    assert_eq!(used_places(&full).len(), LINES * SLOTS);
    for place in Place::all() {
        service.expect_held(place, &key_of(place));
        // The count is all that an export changes; its key is destroyed with it.
        assert_eq!(uses_at(&service.lent.registry, place), 2);
        assert_eq!(service.destroy(place.line, &key_of(place)), SUCCESS);
        assert_eq!(
            slot_bytes(&service.lent.registry, place),
            [0; SLOT_SIZE],
            "{place:?}"
        );
    }
    assert!(service.lent.registry == empty, "no key is left");
    // The other way round, each goes to the lowest slot that is free.
    for place in Place::all() {
        let other = Place {
            slot: SLOTS - 1 - place.slot,
            ..place
        };
        assert_eq!(service.import(place.line, &key_of(other)), SUCCESS);
        service.expect_held(place, &key_of(other));
    }
}

#[test]
fn a_ninth_key_of_each_application_takes_the_place_of_any_that_is_destroyed() {
    let mut service = Service::new();
    for place in Place::all() {
        assert_eq!(service.import(place.line, &key_of(place)), SUCCESS);
    }
    for place in Place::all() {
        let ninth = Key {
            name: vec![b'A' + place.slot as u8],
            ..key_of(place)
        };
        assert_eq!(service.import(place.line, &ninth), INSUFFICIENT_STORAGE);
        let held = key_of(place);
        assert_eq!(service.import(place.line, &held), ALREADY_EXISTS);
        assert_eq!(service.destroy(place.line, &held), SUCCESS);
        assert_eq!(service.import(place.line, &ninth), SUCCESS);
        service.expect_held(place, &ninth);
        assert_eq!(service.import(place.line, &held), INSUFFICIENT_STORAGE);
    }
}

// ---- registries of the size before

/// The same with four slots a line, which has no key in the others.
fn with_four_slots(registry: &[u8]) -> Vec<u8> {
    let lines = registry.chunks_exact(LINE_SIZE);
    lines
        .flat_map(|line| &line[..OLD_LINE_SIZE])
        .copied()
        .collect()
}

/// As docs/INTEGRATOR.md, "A registry saved before there were eight slots", says.
fn converted(old: &[u8]) -> Vec<u8> {
    let lines = old.chunks_exact(OLD_LINE_SIZE);
    lines
        .flat_map(|line| [line, &[0; 2_572]].concat())
        .collect()
}

#[test]
fn a_registry_of_four_slots_a_line_is_c4() {
    for filling in Filling::ALL {
        let old = with_four_slots(&registry(&mut Random::new(0), filling));
        assert_eq!(old.len(), OLD_SIZE);
        let mut lent = Lent::fresh(&old, b"");
        let answer = lent.call_both(&request(PING, None, &[]));
        assert_eq!(answer.code, REGISTRY_ILL_FORMED, "{filling:?}");
        assert_eq!((answer.taken, answer.written), (0, 0));
        assert!(lent.registry == old, "a refused call changes nothing");
    }
}

#[test]
fn a_registry_of_four_slots_a_line_is_converted_as_the_integrators_page_says() {
    for_seeds(100, |random| {
        let mut registry = registry(random, Filling::Some);
        for place in Place::all().filter(|place| place.slot >= 4) {
            registry[slot_at(place)..][..SLOT_SIZE].fill(0);
        }
        let converted = converted(&with_four_slots(&registry));
        assert_eq!(converted.len(), REGISTRY_SIZE);
        assert!(converted == registry);
        let mut lent = Lent::fresh(&converted, b"");
        assert_eq!(lent.call_both(b"").code, 0);
    });
}
