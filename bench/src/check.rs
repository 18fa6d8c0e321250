//! The check of a registry, which every call makes, against the reference's and against one pass that
//! ORs every byte.

use crate::registries::Registry;
use crate::rows::{digest, Row, Turn, EACH_TURN};
use razidkot_tests::foreign;
use reference::CONNECTION_SIZE;
use std::hint::black_box;
use std::time::Instant;

pub fn row(registry: Registry) -> Row {
    let bytes = registry.bytes();
    Row {
        name: format!("check, {}", registry.title),
        digest: digest(&[&bytes]),
        each_turn: EACH_TURN,
        programs: vec![
            ("proved", turn(&bytes, foreign::registry_is_well_formed)),
            (
                "reference",
                turn(&bytes, reference::registry_is_well_formed),
            ),
            ("one pass", turn(&bytes, any_bit)),
        ],
    }
}

fn turn(registry: &[u8], check: impl Fn(&[u8]) -> bool + 'static) -> Turn {
    let registry = registry.to_vec();
    let expected = check(&registry);
    Box::new(move || {
        let start = Instant::now();
        for _ in 0..EACH_TURN {
            assert_eq!(black_box(check(black_box(&registry))), expected);
        }
        start.elapsed()
    })
}

#[inline(never)]
fn any_bit(bytes: &[u8]) -> bool {
    bytes.iter().fold(0, |joined, &byte| joined | byte) != 0
}

/// So many checks of the registry and of a fresh connection, by the functions that the probe exports.
pub fn make(registry: Registry, count: usize) {
    let registry = registry.bytes();
    let connection = vec![0; CONNECTION_SIZE];
    for _ in 0..count {
        assert!(foreign::registry_is_well_formed(black_box(&registry)));
        assert!(foreign::connection_is_well_formed(black_box(&connection)));
    }
}
