//! Roster files: document 01, "Roster, registry, connection, tally", R0 to R5.

use razidkot::{raw, RosterFault};
use razidkot_tests::foreign;
use razidkot_tests::generate::{mutated, some_roster};
use razidkot_tests::run::{assert_agree, for_seeds, Outcomes};
use reference::REGISTRY_SIZE;

/// Do the leaf, the service and the reference make the same of the file and of memory of this size?
fn agree(file: &[u8], size: usize) -> bool {
    let [mut leaf, mut service, mut second] = [(); 3].map(|()| vec![0xEE; size]);
    let loaded_by_leaf = foreign::load_roster(file, &mut leaf);
    let loaded = raw::load_roster(file, &mut service).map_err(RosterFault::number);
    let expected = reference::load_roster(file, &mut second).map_err(|fault| fault.number());
    loaded_by_leaf == expected && leaf == second && loaded == expected && service == second
}

#[test]
fn a_roster_is_loaded_or_refused_with_its_first_fault() {
    let mut outcomes = Outcomes::default();
    for_seeds(20_000, |random| {
        let mut file = some_roster(random);
        if random.once_in(4) {
            file = mutated(random, file);
        }
        assert_agree(&file, |file| agree(file, REGISTRY_SIZE));
        let mut registry = vec![0xEE; REGISTRY_SIZE];
        let loaded = foreign::load_roster(&file, &mut registry);
        if loaded.is_ok() {
            assert!(foreign::registry_is_well_formed(&registry));
        } else {
            assert!(registry == [0xEE; REGISTRY_SIZE], "memory stays as it came");
        }
        outcomes.count(format!("{loaded:?}"));
    });
    outcomes.assert_often(
        &["Ok(())", "Err(1)", "Err(2)", "Err(3)", "Err(4)", "Err(5)"],
        500,
    );
}

#[test]
fn memory_of_any_other_size_is_refused_before_any_record() {
    for_seeds(2_000, |random| {
        let file = some_roster(random);
        let size = random.pick(&[0, 1, 5_209, 21_096, 41_671, 41_673, 83_344]);
        assert!(agree(&file, size), "{size} {file:02X?}");
        let mut memory = vec![0xEE; size];
        assert_eq!(foreign::load_roster(&file, &mut memory), Err(0));
    });
}

#[test]
fn any_bytes_are_read_alike() {
    let mut outcomes = Outcomes::default();
    for_seeds(10_000, |random| {
        // Small numbers, so that lengths are often short and tags often 1.
        let length = random.below(30);
        let file: Vec<u8> = (0..length)
            .map(|_| random.pick(b"\x01\x01\x00\x00a\x02\xff"))
            .collect();
        assert_agree(&file, |file| agree(file, REGISTRY_SIZE));
        let mut registry = vec![0; REGISTRY_SIZE];
        outcomes.count(format!("{:?}", foreign::load_roster(&file, &mut registry)));
    });
    outcomes.assert_often(&["Ok(())", "Err(1)", "Err(2)", "Err(3)"], 100);
}
