//! The compiled call against the reference's, on generated memory, lists and streams: what it says,
//! every byte of buffers, connection, registry and list, and every counter.

use razidkot::{Connection, Counters, Registry, CONNECTION_SIZE, LONGEST_CHUNK};
use razidkot_tests::ask::{record, registry_of};
use razidkot_tests::differential::run_seed;
use razidkot_tests::generate::{registry, Filling};
use razidkot_tests::layout::{line_at, name_at, LINES};
use razidkot_tests::lent::{counter_mut, COUNTERS};
use razidkot_tests::reached::Reached;
use razidkot_tests::requests::{applications, requests};
use razidkot_tests::run::for_seeds;
use razidkot_tests::service;
use razidkot_tests::shipped::some_list;

const CALLS: u64 = 2_000_000;
/// How often each outcome is to be reached.
const LEAST: u64 = 100;

#[test]
fn calls_on_generated_memory_and_streams_come_to_the_same() {
    let mut reached = Reached::default();
    for seed in 0.. {
        if let Err(difference) = run_seed(seed, &mut reached) {
            panic!("{difference}");
        }
        if reached.calls >= CALLS {
            break;
        }
    }
    reached.assert_all(LEAST);
}

#[test]
fn any_cut_of_a_stream_comes_to_what_the_rules_give_uncut() {
    for_seeds(4_000, |random| {
        let start = registry(random, Filling::NamesOnly);
        let names: Vec<_> = (0..LINES)
            .map(|line| name_at(&start, line_at(line)).to_vec())
            .filter(|name| !name.is_empty())
            .collect();
        let stream = requests(random, &applications(&start), 24).concat();
        let longest = random.pick(&[3, 40, 1_000, LONGEST_CHUNK]);
        let longest = longest.max(stream.len() / 200);
        let sizes: Vec<_> = (0..9).map(|_| 1 + random.below(longest)).collect();
        let list = some_list(random, Vec::new());
        service::responses_with_list(&names, &list, &stream, &sizes);
    });
}

#[test]
fn cleared_counters_are_all_zero() {
    let mut counters = Counters::default();
    for place in 0..COUNTERS {
        *counter_mut(&mut counters, place) = u64::MAX - place as u64;
    }
    counters.clear();
    assert_eq!(counters, Counters::default());
}

#[test]
fn a_loaded_registry_and_an_opened_connection_are_those_of_the_reference() {
    let names = [b"scanner".to_vec(), b"archive".to_vec()];
    let roster: Vec<u8> = names.iter().flat_map(|name| record(1, name)).collect();
    let registry = Registry::load(&roster).expect("a good roster");
    assert!(registry.memory() == registry_of(&names));
    assert!(Connection::open().memory() == [0; CONNECTION_SIZE]);
}

#[test]
fn sizes_and_statuses_are_those_of_the_reference() {
    assert_eq!(razidkot::REGISTRY_SIZE, reference::REGISTRY_SIZE);
    assert_eq!(razidkot::CONNECTION_SIZE, reference::CONNECTION_SIZE);
    assert_eq!(
        razidkot::LEAST_RESPONSE_BUFFER,
        reference::MIN_RESPONSE_BUFFER
    );
    assert_eq!(
        razidkot::LEAST_JOURNAL_BUFFER,
        reference::MIN_JOURNAL_BUFFER
    );
    assert_eq!(razidkot::LONGEST_RECORD, reference::LONGEST_RECORD);
    assert_eq!(razidkot::JOURNAL_STATE_SIZE, reference::JOURNAL_STATE_SIZE);
    assert_eq!(razidkot::LONGEST_CHUNK, reference::MAX_CHUNK);
    assert_eq!(razidkot::LONGEST_RESPONSE, reference::LONGEST_RESPONSE);
    let statuses = razidkot::Status::REFUSED.map(|status| status.number());
    assert_eq!(
        statuses,
        reference::Status::REFUSED.map(|status| status.number())
    );
}
