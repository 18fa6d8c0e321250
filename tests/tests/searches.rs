//! Where an application and a key lie: document 01, "Order of judgement on one request" (11) and
//! "Operations and their fields".

use razidkot_tests::ask::{self, ask, import_body, name_body, registry_of};
use razidkot_tests::foreign::{self, Refused};
use razidkot_tests::generate::{self, Damage, Filling, Random};
use razidkot_tests::layout::*;
use razidkot_tests::oracle;
use razidkot_tests::run::{for_seeds, Outcomes};
use reference::REGISTRY_SIZE;

/// A registry of any filling.
fn some_registry(random: &mut Random) -> Vec<u8> {
    let filling = random.pick(&[
        Filling::Empty,
        Filling::NamesOnly,
        Filling::Some,
        Filling::Some,
        Filling::Full,
    ]);
    generate::registry(random, filling)
}

/// A name to look for: one that stands there, one close to it, or another.
fn wanted(random: &mut Random, there: &[u8]) -> Vec<u8> {
    let mut name = there.to_vec();
    match random.below(9) {
        0 => name.push(b'x'),
        1 => {
            name.pop();
        }
        2 => {
            if let Some(last) = name.last_mut() {
                *last ^= 1;
            }
        }
        3 => {
            if let Some(first) = name.first_mut() {
                *first ^= 1;
            }
        }
        4 => name = generate::name(random, 61, 1),
        5 => {
            let middle = name.len() / 2;
            if let Some(byte) = name.get_mut(middle) {
                *byte ^= 1;
            }
        }
        _ => {}
    }
    name
}

#[test]
fn an_application_is_found_by_its_whole_name_only() {
    let mut outcomes = Outcomes::default();
    for_seeds(1_000, |random| {
        let registry = some_registry(random);
        for line in 0..LINES {
            let name = wanted(random, name_at(&registry, line_at(line)));
            let found = foreign::find_application(&registry, &name);
            assert_eq!(found, Ok(oracle::find_application(&registry, &name)));
            let found = found.expect("registry memory of the exact size");
            // The reference counts a Ping for the application's line, or answers 11.
            let answer = ask(&registry, ask::PING, Some(&name), &[]);
            let served = answer.outcome.counters.served;
            match found {
                Some(line) => assert_eq!(served[line], 1),
                None => assert_eq!(answer.status, ask::AUTHENTICATION_ERROR),
            }
            outcomes.count(found.is_some());
        }
    });
    outcomes.assert_often(&[true, false], 1_000);
}

/// Nine names of that length which differ in one byte only.
fn names_but_for_one_byte(length: usize, at: usize) -> Vec<Vec<u8>> {
    let names = (0..=LINES).map(|number| {
        let mut name = vec![b'n'; length];
        name[at] = b'A' + number as u8;
        name
    });
    names.collect()
}

#[test]
fn applications_are_told_apart_by_any_one_byte() {
    for length in [1, 2, 3, 8, 9, 31, 32, 33, 63, 64] {
        for at in 0..length {
            let mut names = names_but_for_one_byte(length, at);
            let ninth = names.split_off(LINES);
            let registry = registry_of(&names);
            for (line, name) in names.iter().enumerate() {
                let found = foreign::find_application(&registry, name);
                assert_eq!(found, Ok(Some(line)), "{length} bytes, byte {at}");
            }
            let found = foreign::find_application(&registry, &ninth[0]);
            assert_eq!(found, Ok(None), "{length} bytes, byte {at}");
        }
    }
}

#[test]
fn of_two_lines_with_one_name_the_first_is_found() {
    for length in [1, 2, 17, 64] {
        let names = &names_but_for_one_byte(length, length / 2)[..LINES];
        let registry = registry_of(names);
        for first in 0..LINES {
            for second in first + 1..LINES {
                let mut registry = registry.clone();
                let name = line_at(first)..line_at(first) + 1 + length;
                registry.copy_within(name, line_at(second));
                let found = foreign::find_application(&registry, &names[first]);
                assert_eq!(found, Ok(Some(first)), "{first} and {second}");
                let found = foreign::find_application(&registry, &names[second]);
                assert_eq!(found, Ok(None), "{first} and {second}");
            }
        }
    }
}

#[test]
fn a_name_longer_than_a_length_byte_says_is_on_no_roster() {
    for length in 1..=64 {
        let names = names_but_for_one_byte(length, 0);
        let registry = registry_of(&names[..LINES]);
        for more in [255, 256, 257, 512] {
            let mut longer = names[3].clone();
            longer.resize(length + more, b'n');
            let found = foreign::find_application(&registry, &longer);
            assert_eq!(found, Ok(None), "{length} bytes and {more}");
        }
    }
}

#[test]
fn the_empty_name_is_on_no_roster() {
    for_seeds(200, |random| {
        assert_eq!(
            foreign::find_application(&some_registry(random), &[]),
            Ok(None)
        );
    });
}

#[test]
fn a_key_is_found_by_its_application_and_its_whole_name() {
    let mut outcomes = Outcomes::default();
    for_seeds(1_000, |random| {
        let registry = some_registry(random);
        for place in Place::all() {
            let name = wanted(random, name_at(&registry, slot_at(place)));
            let found = foreign::find_slot(&registry, place.line, &name);
            assert_eq!(found, Ok(oracle::find_slot(&registry, place.line, &name)));
            let application = name_at(&registry, line_at(place.line));
            if application.is_empty() || !oracle::key_name_is_legal(&name) {
                continue;
            }
            // The reference destroys the key of that slot, or answers 1140.
            let answer = ask(
                &registry,
                ask::DESTROY,
                Some(application),
                &name_body(&name),
            );
            let found = found.expect("registry memory of the exact size");
            let mut after = registry.clone();
            match found {
                Some(slot) => {
                    let line = place.line;
                    after[slot_at(Place { line, slot })..][..SLOT_SIZE].fill(0);
                }
                None => assert_eq!(answer.status, ask::DOES_NOT_EXIST),
            }
            assert!(answer.outcome.registry == after);
            outcomes.count(found.is_some());
        }
    });
    outcomes.assert_often(&[true, false], 1_000);
}

#[test]
fn the_empty_name_finds_the_lowest_numbered_free_slot() {
    let mut outcomes = Outcomes::default();
    for_seeds(500, |random| {
        let registry = some_registry(random);
        let key = generate::importable_key(random, 60);
        for line in 0..LINES {
            let found = foreign::find_slot(&registry, line, &[]).expect("the exact size");
            assert_eq!(found, oracle::find_slot(&registry, line, &[]));
            let application = name_at(&registry, line_at(line));
            if application.is_empty() {
                continue;
            }
            // The reference's Import fills that slot.
            let answer = ask(
                &registry,
                ask::IMPORT,
                Some(application),
                &import_body(&key),
            );
            let filled = oracle::find_slot(&answer.outcome.registry, line, &key.name);
            assert_eq!(filled, found);
            outcomes.count(found.is_some());
        }
    });
    outcomes.assert_often(&[true, false], 50);
}

#[test]
fn damaged_registries_are_searched_alike() {
    let mut outcomes = Outcomes::default();
    for_seeds(2_000, |random| {
        let mut registry = some_registry(random);
        let damages = [(); 4].map(|()| Damage::generate(random));
        for damage in damages {
            damage.apply(&mut registry);
        }
        let line = random.below(LINES + 2);
        if registry.len() != REGISTRY_SIZE || line >= LINES {
            let slot = foreign::find_slot(&registry, line, b"a");
            assert_eq!(slot, Err(Refused), "{damages:?}");
            outcomes.count("refused");
            return;
        }
        let names: Vec<Vec<u8>> = (0..LINES)
            .map(line_at)
            .chain((0..SLOTS).map(|slot| slot_at(Place { line, slot })))
            .map(|at| name_at(&registry, at).to_vec())
            .collect();
        for name in names {
            let expected = oracle::find_application(&registry, &name);
            let found = foreign::find_application(&registry, &name);
            assert_eq!(found, Ok(expected), "{damages:?}");
            let expected = oracle::find_slot(&registry, line, &name);
            let found = foreign::find_slot(&registry, line, &name);
            assert_eq!(found, Ok(expected), "{damages:?}");
            outcomes.count(expected.is_some());
        }
    });
    outcomes.assert_often(&["true", "false", "refused"], 200);
}

#[test]
fn an_exported_key_is_the_data_that_was_imported() {
    let mut outcomes = Outcomes::default();
    for_seeds(500, |random| {
        let registry = some_registry(random);
        for place in Place::all() {
            let slot = slot_bytes(&registry, place);
            let mut out = [0x55; 601];
            let length = foreign::key_data(&registry, place, &mut out).expect("well formed");
            let data = &out[..length];
            assert_eq!(data, oracle::data_in(slot));
            assert!(out[length..].iter().all(|&byte| byte == 0x55));
            let exportable = foreign::is_exportable(&registry, place).expect("well formed");
            assert_eq!(exportable, slot[EXPORT_ALLOWED_AT] == 1);

            let name = name_at(&registry, slot_at(place));
            let application = name_at(&registry, line_at(place.line));
            let outcome = if name.is_empty() {
                assert_eq!((data, exportable), (&[][..], false), "a free slot");
                "free"
            } else if exportable {
                let answer = ask(&registry, ask::EXPORT, Some(application), &name_body(name));
                assert_eq!(answer.status, ask::SUCCESS);
                assert_eq!(answer.body, oracle::bytes_field(1, data));
                "exported"
            } else {
                let answer = ask(&registry, ask::EXPORT, Some(application), &name_body(name));
                assert_eq!(answer.status, ask::NOT_PERMITTED);
                "not permitted"
            };
            outcomes.count(outcome);
        }
    });
    outcomes.assert_often(&["free", "exported", "not permitted"], 500);
}

#[test]
fn a_key_of_an_ill_formed_registry_or_of_no_slot_is_not_read() {
    let mut outcomes = Outcomes::default();
    for_seeds(1_000, |random| {
        let mut registry = some_registry(random);
        if random.once_in(2) {
            Damage::generate(random).apply(&mut registry);
        }
        let place = Place {
            line: random.below(LINES + 1),
            slot: random.below(SLOTS + 1),
        };
        let mut out = [0x55; 600];
        let size = random.pick(&[0, 1, 32, 600, 600]);
        let length = foreign::key_data(&registry, place, &mut out[..size]);
        let exportable = foreign::is_exportable(&registry, place);
        let there = place.line < LINES && place.slot < SLOTS;
        let readable = there && reference::registry_is_well_formed(&registry);
        assert_eq!(exportable.is_ok(), readable);
        let fits = readable && oracle::data_in(slot_bytes(&registry, place)).len() <= size;
        assert_eq!(length.is_ok(), fits);
        if length.is_err() {
            assert_eq!(out, [0x55; 600], "nothing is written");
        }
        outcomes.count(fits);
    });
    outcomes.assert_often(&[true, false], 200);
}
