//! A slot filled or cleared, byte for byte: document 01, "Operations and their fields" (Import,
//! Destroy), and docs/LAYOUT.md.

use razidkot_tests::ask::{self, ask, import_body, name_body};
use razidkot_tests::foreign::{self, Refused};
use razidkot_tests::generate::{self, Filling};
use razidkot_tests::layout::*;
use razidkot_tests::oracle;
use razidkot_tests::run::{for_seeds, Outcomes};
use reference::REGISTRY_SIZE;

#[test]
fn a_free_slot_is_filled_as_import_fills_it() {
    let mut filled = 0;
    for_seeds(500, |random| {
        let registry = generate::registry(random, Filling::Some);
        for line in 0..LINES {
            let application = name_at(&registry, line_at(line));
            let Ok(Some(slot)) = foreign::find_slot(&registry, line, &[]) else {
                continue;
            };
            if application.is_empty() {
                continue;
            }
            let key = generate::importable_key(random, 60);
            let answer = ask(
                &registry,
                ask::IMPORT,
                Some(application),
                &import_body(&key),
            );
            assert_eq!(answer.status, ask::SUCCESS);
            let mut changed = registry.clone();
            foreign::fill_slot(&mut changed, Place { line, slot }, &key).expect("a key that fits");
            assert!(changed == answer.outcome.registry, "{line} {slot} {key:?}");
            filled += 1;
        }
    });
    assert!(filled > 1_000, "{filled}");
}

#[test]
fn a_slot_is_cleared_as_destroy_clears_it() {
    let mut cleared = 0;
    for_seeds(500, |random| {
        let registry = generate::registry(random, Filling::Some);
        for place in Place::all() {
            let name = name_at(&registry, slot_at(place));
            if name.is_empty() {
                continue;
            }
            let application = name_at(&registry, line_at(place.line));
            let answer = ask(&registry, ask::DESTROY, Some(application), &name_body(name));
            assert_eq!(answer.status, ask::SUCCESS);
            let mut changed = registry.clone();
            foreign::clear_slot(&mut changed, place).expect("a slot that is there");
            assert!(changed == answer.outcome.registry, "{place:?}");
            cleared += 1;
        }
    });
    assert!(cleared > 1_000, "{cleared}");
}

#[test]
fn any_key_that_fits_fills_any_slot_and_nothing_else_changes() {
    for_seeds(5_000, |random| {
        let registry = random.bytes(REGISTRY_SIZE);
        let (place, key) = (generate::place(random), generate::any_key(random));
        let mut expected = registry.clone();
        expected[slot_at(place)..][..SLOT_SIZE].copy_from_slice(&oracle::slot_of(&key));
        let mut changed = registry;
        foreign::fill_slot(&mut changed, place, &key).expect("a key that fits");
        assert!(changed == expected, "{place:?} {key:?}");
    });
}

#[test]
fn any_slot_is_cleared_to_zeros_and_nothing_else_changes() {
    for_seeds(2_000, |random| {
        let registry = random.bytes(REGISTRY_SIZE);
        let place = generate::place(random);
        let mut expected = registry.clone();
        expected[slot_at(place)..][..SLOT_SIZE].fill(0);
        let mut changed = registry;
        foreign::clear_slot(&mut changed, place).expect("a slot that is there");
        assert!(changed == expected, "{place:?}");
    });
}

#[test]
fn what_fits_no_slot_changes_nothing() {
    let mut outcomes = Outcomes::default();
    for_seeds(2_000, |random| {
        let size = match random.below(8) {
            0 => random.pick(&[20_968, 21_096, 41_671, 41_673, 643, 0]),
            _ => REGISTRY_SIZE,
        };
        let registry = random.bytes(size);
        let place = Place {
            line: random.pick(&[0, 1, 2, 3, 7, 7, 8, usize::MAX]),
            slot: random.pick(&[0, 0, 1, 3, 4, 7, 7, 8, usize::MAX]),
        };
        let mut key = generate::any_key(random);
        key.name
            .resize(random.pick(&[0, 1, 31, 32, 32, 33, 256]), b'n');
        key.data
            .resize(random.pick(&[0, 1, 599, 600, 600, 601, 65_536]), 7);
        let there = size == REGISTRY_SIZE && place.line < LINES && place.slot < SLOTS;
        let fits = there && key.name.len() <= 32 && key.data.len() <= 600;

        let mut changed = registry.clone();
        let filled = foreign::fill_slot(&mut changed, place, &key);
        assert_eq!(filled, fits.then_some(()).ok_or(Refused));
        assert_eq!(changed == registry, !fits);
        let mut changed = registry.clone();
        let cleared = foreign::clear_slot(&mut changed, place);
        assert_eq!(cleared, there.then_some(()).ok_or(Refused));
        assert_eq!(changed == registry, !there);
        outcomes.count(fits);
    });
    outcomes.assert_often(&[true, false], 100);
}
