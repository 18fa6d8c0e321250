//! The compiled bill against the reference's: document 01, "The bill"; document 02, "Use per key".

use razidkot::raw::{self, NoBill};
use razidkot_tests::case::{Case, Fault};
use razidkot_tests::generate::{registry, Filling, Random};
use razidkot_tests::layout::{set_uses, used_places, LINES, SLOTS};
use razidkot_tests::lent::{counter_mut, to_reference, Lengths, Lent, COUNTERS};
use razidkot_tests::listed::MOST_USES;
use razidkot_tests::reached::kind_of;
use razidkot_tests::run::{for_seeds, Outcomes};

/// Why there is no bill, in the order in which it is judged.
fn refusal(lent: &Lent, length: usize) -> Option<NoBill> {
    if length < razidkot::LEAST_BILL_BUFFER {
        Some(NoBill::BufferTooSmall)
    } else if !reference::connection_is_well_formed(&lent.connection) {
        Some(NoBill::ConnectionIllFormed)
    } else if !reference::registry_is_well_formed(&lent.registry) {
        Some(NoBill::RegistryIllFormed)
    } else {
        None
    }
}

/// The buffer with the bill that the reference writes, over bytes of 0x55.
fn expected(lent: &Lent, length: usize) -> (Result<usize, NoBill>, Vec<u8>) {
    let mut out = vec![0x55; length];
    if let Some(none) = refusal(lent, length) {
        return (Err(none), out);
    }
    let counters = to_reference(&lent.counters);
    let text = reference::bill_text(&counters, &lent.registry, &lent.connection);
    out[..text.len()].copy_from_slice(&text);
    (Ok(text.len()), out)
}

/// The memory of a case, with each fault of its calls but those of buffers and chunk.
fn some_memory(seed: u64) -> Vec<Lent> {
    let case = Case::generate(seed);
    let mut memory = vec![case.lent()];
    let mut lengths = Lengths::LEAST;
    for fault in case.faults.iter().flat_map(|call| &call.faults) {
        let mut lent = case.lent();
        match fault {
            Fault::ResponseLength(_) | Fault::ChunkLength(_) | Fault::JournalLength(_) => continue,
            fault => fault.apply(&mut lent, &mut Vec::new(), &mut lengths),
        }
        memory.push(lent);
    }
    memory
}

fn compare(lent: &Lent, length: usize) {
    let mut out = vec![0x55; length];
    let written = raw::bill(&mut out, &lent.counters, &lent.registry, &lent.connection);
    let (expected_written, expected_out) = expected(lent, length);
    assert_eq!(written, expected_written);
    let text = String::from_utf8_lossy(&out);
    assert!(out == expected_out, "{text}");
}

#[test]
fn bills_of_generated_memory_are_those_of_the_reference() {
    let mut outcomes = Outcomes::default();
    for_seeds(20_000, |random: &mut Random| {
        for lent in some_memory(random.word()) {
            let length = random.pick(&[0, 4_192, 6_335, 6_336, 6_336, 6_336, 6_337, 7_000]);
            compare(&lent, length);
            let refusal = refusal(&lent, length);
            if refusal.is_none() {
                outcomes.count(keys_billed(&lent.registry));
            }
            outcomes.count(match refusal {
                Some(NoBill::BufferTooSmall) => "buffer too small",
                Some(NoBill::ConnectionIllFormed) => "connection ill formed",
                Some(NoBill::RegistryIllFormed) => "registry ill formed",
                None => kind_of(&lent.connection),
            });
        }
    });
    let refusals = [
        "buffer too small",
        "connection ill formed",
        "registry ill formed",
    ];
    outcomes.assert_often(&refusals, 100);
    let kinds = ["open empty", "open holding", "skipping", "closed"];
    outcomes.assert_often(&kinds, 100);
    let keys = ["no keys", "some keys", "all keys"];
    outcomes.assert_often(&keys, 100);
}

/// How many `key` lines the bill has.
fn keys_billed(registry: &[u8]) -> &'static str {
    const ALL: usize = LINES * SLOTS;
    match used_places(registry).len() {
        0 => "no keys",
        ALL => "all keys",
        _ => "some keys",
    }
}

/// Eight names of 64 bytes, 64 keys used as often as is counted, every counter as high as it can be.
#[test]
fn the_longest_bill_fits_into_the_least_buffer() {
    let random = &mut Random::new(0);
    let mut lent = Lent::fresh(&registry(random, Filling::Full), b"");
    for place in used_places(&lent.registry) {
        set_uses(&mut lent.registry, place, MOST_USES);
    }
    for place in 0..COUNTERS {
        *counter_mut(&mut lent.counters, place) = u64::MAX;
    }
    compare(&lent, razidkot::LEAST_BILL_BUFFER);
    let (written, out) = expected(&lent, razidkot::LEAST_BILL_BUFFER);
    let text = String::from_utf8_lossy(&out[..written.expect("a bill")]);
    let keys: Vec<_> = text
        .lines()
        .filter(|line| line.starts_with("key "))
        .collect();
    assert_eq!(keys.len(), LINES * SLOTS);
    assert_eq!(keys[63], "key 7 7 4294967295");
}
