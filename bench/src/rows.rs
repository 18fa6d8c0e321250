//! What is timed: rows of operations, each for several programs that do the same.

use crate::registries::{ALIKE, ALL, FULL, ONE_KEY};
use crate::{bills, calls, check, journals, lists, searches};
use std::time::Duration;

/// The operations of most rows' turns. Programs take turns, so that a slow moment of the machine is not one
/// program's alone.
pub const EACH_TURN: usize = 50_000;

/// Does a turn's operations, and says how long they took.
pub type Turn = Box<dyn FnMut() -> Duration>;

pub struct Row {
    pub name: String,
    /// Of all bytes that the operations are given: rows with one name and one digest are the same.
    pub digest: u64,
    /// How many operations a turn has.
    pub each_turn: usize,
    /// The first is the compiled, proved code.
    pub programs: Vec<(&'static str, Turn)>,
}

pub fn all() -> Vec<Row> {
    let checks = ALL.into_iter().chain(ALIKE).map(check::row);
    let pings = ALL.into_iter().map(calls::pings);
    let named = [FULL, ALIKE[1]].into_iter().map(calls::named_pings);
    let exports = [FULL, ONE_KEY].into_iter().map(calls::exports);
    let tagged = [calls::tagged_pings(FULL), calls::tagged_exports(FULL)];
    let calls = pings.chain(named).chain(exports).chain(tagged);
    checks
        .chain(searches::rows())
        .chain(calls)
        .chain(lists::rows())
        .chain(bills::rows())
        .chain(journals::rows())
        .chain(client())
        .chain(signatures())
        .collect()
}

#[cfg(feature = "client")]
fn client() -> Vec<Row> {
    crate::client::rows()
}

/// Of a commit that has no client.
#[cfg(not(feature = "client"))]
fn client() -> Vec<Row> {
    Vec::new()
}

#[cfg(feature = "signatures")]
fn signatures() -> Vec<Row> {
    crate::signatures::rows()
}

/// Of a commit that checks no signatures.
#[cfg(not(feature = "signatures"))]
fn signatures() -> Vec<Row> {
    Vec::new()
}

/// FNV-1a of 64 bits.
pub fn digest(inputs: &[&[u8]]) -> u64 {
    inputs
        .concat()
        .iter()
        .fold(0xCBF2_9CE4_8422_2325, |sum, &byte| {
            (sum ^ u64::from(byte)).wrapping_mul(0x0100_0000_01B3)
        })
}
