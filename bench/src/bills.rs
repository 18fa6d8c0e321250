//! The text of the bill: with a `key` line for each slot, and with none.

use crate::registries::{Registry, EIGHT_NAMES, FULL};
use crate::rows::{digest, Row, Turn};
use razidkot::{raw, Counters, LEAST_BILL_BUFFER};
use reference::CONNECTION_SIZE;
use std::hint::black_box;
use std::time::Instant;

/// Fewer than in other rows, since a bill has up to some forty lines.
const EACH_TURN: usize = 5_000;

pub fn rows() -> Vec<Row> {
    [FULL, EIGHT_NAMES].map(row).into()
}

fn row(registry: Registry) -> Row {
    let bytes = registry.bytes();
    Row {
        name: format!("bill, {}", registry.title),
        digest: digest(&[&bytes]),
        each_turn: EACH_TURN,
        programs: vec![
            ("proved", turn(&bytes, proved())),
            ("reference", turn(&bytes, reference())),
        ],
    }
}

fn turn(registry: &[u8], mut bill: impl FnMut(&[u8]) -> usize + 'static) -> Turn {
    let registry = registry.to_vec();
    let expected = bill(&registry);
    Box::new(move || {
        let start = Instant::now();
        for _ in 0..EACH_TURN {
            assert_eq!(black_box(bill(black_box(&registry))), expected);
        }
        start.elapsed()
    })
}

/// Says how long the bill is, all counters being 0 and the connection fresh.
fn proved() -> impl FnMut(&[u8]) -> usize {
    let counters = Counters::default();
    let connection = vec![0; CONNECTION_SIZE];
    let mut out = vec![0; LEAST_BILL_BUFFER];
    move |registry| raw::bill(&mut out, &counters, registry, &connection).expect("a bill")
}

fn reference() -> impl FnMut(&[u8]) -> usize {
    let counters = reference::Counters::default();
    let connection = vec![0; CONNECTION_SIZE];
    move |registry| reference::bill_text(&counters, registry, &connection).len()
}
