//! Which registry memory is well formed: document 01, "Roster, registry, connection, tally".

use razidkot_tests::foreign;
use razidkot_tests::generate::{registry, Damage, Filling, Random};
use razidkot_tests::run::{for_seeds, Outcomes};
use reference::REGISTRY_SIZE;

/// What both programs say of it.
fn is_well_formed(registry: &[u8]) -> bool {
    let proved = foreign::registry_is_well_formed(registry);
    assert_eq!(proved, reference::registry_is_well_formed(registry));
    proved
}

#[test]
fn what_roster_imports_and_destroys_make_is_well_formed() {
    for_seeds(1_000, |random| {
        for filling in Filling::ALL {
            assert!(is_well_formed(&registry(random, filling)), "{filling:?}");
        }
    });
}

#[test]
fn one_changed_byte_anywhere_is_judged_alike() {
    let mut outcomes = Outcomes::default();
    for filling in Filling::ALL {
        let random = &mut Random::new(0);
        let mut registry = registry(random, filling);
        for at in 0..REGISTRY_SIZE {
            let before = registry[at];
            registry[at] ^= 1 + random.byte() % 0xFF;
            let proved = foreign::registry_is_well_formed(&registry);
            let judged = reference::registry_is_well_formed(&registry);
            assert_eq!(proved, judged, "{filling:?}, byte {at} is {}", registry[at]);
            outcomes.count(proved);
            registry[at] = before;
        }
    }
    outcomes.assert_often(&[true, false], 10_000);
}

#[test]
fn damaged_lengths_names_flags_zeros_and_sizes_are_judged_alike() {
    let pool: Vec<Vec<u8>> = (0..64)
        .map(|seed| registry(&mut Random::new(seed), Filling::ALL[seed as usize % 4]))
        .collect();
    let mut outcomes = Outcomes::default();
    for_seeds(40_000, |random| {
        let mut registry = pool[random.below(pool.len())].clone();
        let count = random.pick(&[1, 1, 1, 2, 3]);
        let damages: Vec<_> = (0..count).map(|_| Damage::generate(random)).collect();
        for damage in &damages {
            damage.apply(&mut registry);
        }
        let proved = foreign::registry_is_well_formed(&registry);
        let judged = reference::registry_is_well_formed(&registry);
        assert_eq!(proved, judged, "{damages:?}");
        outcomes.count(proved);
    });
    outcomes.assert_often(&[true, false], 5_000);
}

#[test]
fn memory_of_any_other_size_is_ill_formed() {
    let full = registry(&mut Random::new(0), Filling::Full);
    // 21,096 is the size with four slots a line, 20,968 that without counts of uses.
    let others = (0..5_300).chain([20_968, 21_096]);
    for size in others.chain(REGISTRY_SIZE - 700..REGISTRY_SIZE + 700) {
        let mut registry = full.clone();
        registry.resize(size, 0);
        assert_eq!(is_well_formed(&registry), size == REGISTRY_SIZE, "{size}");
        assert_eq!(is_well_formed(&vec![0; size]), size == REGISTRY_SIZE);
    }
}
