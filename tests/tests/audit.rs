//! The compiled auditor against the reference's: document 02, "The auditor".

use razidkot::raw::{self, AUDIT_ILL_FORMED};
use razidkot::{Audit, List, Registry, Verdict as Said, HIGHEST_COUNTER, LONGEST_CHUNK};
use razidkot::{LEAST_BILL_BUFFER, LONGEST_RESPONSE};
use razidkot_tests::ask::{request, PING};
use razidkot_tests::audits::{audited, compare, Cut, Memory, Start};
use razidkot_tests::generate::Random;
use razidkot_tests::isolation::{Compiled, Service};
use razidkot_tests::lent::{Lengths, Lent};
use razidkot_tests::run::{for_seeds, Outcomes};
use razidkot_tests::wrong_services::*;
use reference::{rules, Verdict};
use std::io::{self, Read};

/// Streams of a few requests, and of many.
const SMALL: usize = 4;
const LARGE: usize = 24;
/// How many changes are tried on a large stream.
const SAMPLES: usize = 40;
/// A wrong service is caught among the first so many streams.
const FIRST_STREAMS: u64 = 200;

/// The number of the response that this byte of the stream is in, and its place in it.
fn place_of(responses: &[Vec<u8>], at: usize) -> (u64, usize) {
    let (mut number, mut byte) = (1, at);
    for response in responses {
        if byte < response.len() {
            break;
        }
        byte -= response.len();
        number += 1;
    }
    (number, byte)
}

fn wrong((response, byte): (u64, usize)) -> Verdict {
    Verdict::Wrong { response, byte }
}

/// All places below a length, or some of them.
fn places(random: &mut Random, below: usize, is_small: bool) -> Vec<usize> {
    if is_small {
        return (0..below).collect();
    }
    let count = if below == 0 { 0 } else { SAMPLES };
    (0..count).map(|_| random.below(below)).collect()
}

/// A capture that is right, and where changes to it are tried.
struct Right {
    start: Start,
    expected: rules::Outcome,
    captured: Vec<u8>,
    is_small: bool,
}

impl Right {
    fn generate(random: &mut Random) -> Right {
        let is_small = random.once_in(2);
        let start = Start::generate(random, if is_small { SMALL } else { LARGE });
        let expected = start.expected();
        let captured = expected.responses.concat();
        Right {
            start,
            expected,
            captured,
            is_small,
        }
    }

    fn compare(&self, captured: &[u8]) -> Verdict {
        let requests = Cut::uncut(&self.start.requests);
        compare(&self.start, &self.expected, requests, Cut::uncut(captured))
    }
}

#[test]
fn what_the_rules_give_is_accepted_and_every_changed_byte_is_found() {
    let mut outcomes = Outcomes::default();
    for_seeds(120, |random| {
        let right = Right::generate(random);
        assert_eq!(right.compare(&right.captured), Verdict::Accepted);
        for at in places(random, right.captured.len(), right.is_small) {
            let mut changed = right.captured.clone();
            changed[at] ^= 1 << random.below(8);
            let verdict = right.compare(&changed);
            assert_eq!(verdict, wrong(place_of(&right.expected.responses, at)));
            outcomes.count(if right.is_small { "small" } else { "large" });
        }
    });
    outcomes.assert_often(&["small", "large"], 1_000);
}

#[test]
fn a_byte_that_is_lost_or_added_is_found_wherever_it_is() {
    for_seeds(60, |random| {
        let right = Right::generate(random);
        for at in places(random, right.captured.len(), right.is_small) {
            let mut lost = right.captured.clone();
            lost.remove(at);
            assert_ne!(right.compare(&lost), Verdict::Accepted);
        }
        for at in places(random, right.captured.len() + 1, right.is_small) {
            let mut added = right.captured.clone();
            added.insert(at, random.byte());
            assert_ne!(right.compare(&added), Verdict::Accepted);
        }
    });
}

#[test]
fn a_capture_that_ends_early_is_wrong_at_its_first_missing_byte() {
    for_seeds(60, |random| {
        let right = Right::generate(random);
        for length in places(random, right.captured.len(), right.is_small) {
            let verdict = right.compare(&right.captured[..length]);
            assert_eq!(verdict, wrong(place_of(&right.expected.responses, length)));
        }
    });
}

#[test]
fn a_response_that_is_dropped_or_one_more_is_found() {
    let mut outcomes = Outcomes::default();
    for_seeds(150, |random| {
        let right = Right::generate(random);
        let responses = &right.expected.responses;
        for place in 0..responses.len() {
            let mut fewer = responses.clone();
            let response = fewer.remove(place);
            assert_ne!(right.compare(&fewer.concat()), Verdict::Accepted);
            let mut more = responses.clone();
            more.insert(place, response);
            assert_ne!(right.compare(&more.concat()), Verdict::Accepted);
            outcomes.count("dropped or doubled");
        }
        let runs_on = [&right.captured[..], b"\x10"].concat();
        let one_more = responses.len() as u64 + 1;
        assert_eq!(right.compare(&runs_on), wrong((one_more, 0)));
        if right.expected.connection == rules::ConnectionState::Closed {
            outcomes.count("runs on behind a close");
        }
    });
    outcomes.assert_often(&["dropped or doubled"], 500);
    outcomes.assert_often(&["runs on behind a close"], 10);
}

/// Two pings, the second refused, right and with a byte changed.
#[test]
fn cuts_of_both_streams_at_every_pair_of_places_change_nothing() {
    let start = Start {
        registry: Start::generate(&mut Random::new(1), 1).registry,
        list: Vec::new(),
        requests: [request(PING, None, b""), request(PING, None, b"\x08")].concat(),
    };
    let expected = start.expected();
    assert_eq!(expected.responses.len(), 2);
    let right = expected.responses.concat();
    let mut changed = right.clone();
    *changed.last_mut().expect("a response") ^= 1;
    for captured in [&right[..], &changed, &right[..40]] {
        for first in 0..=start.requests.len() {
            for second in 0..=captured.len() {
                let requests = Cut::at(&start.requests, &[first]);
                compare(&start, &expected, requests, Cut::at(captured, &[second]));
            }
        }
        let longest = start.requests.len().max(captured.len());
        let all: Vec<_> = (0..longest).collect();
        let every = Cut::at(&start.requests, &all[..start.requests.len()]);
        compare(
            &start,
            &expected,
            every,
            Cut::at(captured, &all[..captured.len()]),
        );
    }
}

#[test]
fn random_cuts_of_both_streams_change_nothing() {
    let mut outcomes = Outcomes::default();
    for_seeds(400, |random| {
        let right = Right::generate(random);
        let mut captured = right.captured.clone();
        match random.below(4) {
            0 if !captured.is_empty() => {
                let at = random.below(captured.len());
                captured[at] ^= 1 << random.below(8);
            }
            1 => captured.truncate(random.below(captured.len() + 1)),
            2 => captured.extend(random.bytes(3)),
            _ => (),
        }
        let requests = Cut::random(random, &right.start.requests, 40);
        let responses = Cut::random(random, &captured, 40);
        let verdict = compare(&right.start, &right.expected, requests, responses);
        outcomes.count(match verdict {
            Verdict::Accepted => "accepted",
            Verdict::Wrong { .. } => "wrong",
        });
    });
    outcomes.assert_often(&["accepted", "wrong"], 50);
}

/// A step that is refused says its code and nothing else, and changes nothing.
fn assert_refused(memory: &Memory, requests: &[u8], code: u32) {
    let mut after = memory.clone();
    let step = after.step(requests, b"\x10\xA7", true);
    assert_eq!((step.code, step.requests, step.responses), (code, 0, 0));
    assert!(after == *memory, "a refused step changed something");
}

#[test]
fn an_ill_formed_audit_is_refused_before_a_byte_is_taken() {
    let start = Start::generate(&mut Random::new(2), LARGE);
    let begun = Memory::begin(&start);
    let refused = |number: u64, size: usize, place: usize, pending: usize| {
        for wrong in [0, 1] {
            let mut memory = begun.clone();
            memory.pending.truncate(pending);
            memory.place.number = number;
            (memory.place.size, memory.place.place) = (size, place);
            memory.place.wrong = wrong;
            assert_refused(&memory, &start.requests, AUDIT_ILL_FORMED);
            let end = raw::audit_end(memory.place, &memory.pending, b"");
            assert_eq!((end.code, end.response, end.byte), (AUDIT_ILL_FORMED, 0, 0));
        }
    };
    refused(1, 28, 29, 1_024);
    refused(1, 0, 1, 1_024);
    refused(1, 28, 28, 27);
    refused(1, LONGEST_RESPONSE + 1, 0, 1_024);
    refused(1, usize::MAX, 0, 1_024);
    refused(1, 28, usize::MAX, 1_024);
    refused((1 << 63) + 1, 28, 0, 1_024);
    refused(u64::MAX, 0, 0, 1_024);
}

#[test]
fn a_call_that_would_not_be_taken_is_refused_by_its_number() {
    let start = Start::generate(&mut Random::new(3), LARGE);
    let begun = Memory::begin(&start);
    let with = |change: &dyn Fn(&mut Memory)| {
        let mut memory = begun.clone();
        change(&mut memory);
        memory
    };
    let short = |memory: &mut Memory| memory.pending.truncate(1_023);
    assert_refused(&with(&short), b"", 1);
    assert_refused(&begun, &vec![0; LONGEST_CHUNK + 1], 2);
    assert_refused(&with(&|memory| memory.connection.truncate(9)), b"", 3);
    assert_refused(&with(&|memory| memory.registry.truncate(9)), b"", 4);
    let high = |memory: &mut Memory| memory.place.counters.refused[18] = HIGHEST_COUNTER + 1;
    assert_refused(&with(&high), b"", 5);
    assert_refused(&with(&|memory| memory.list = vec![1]), b"", 6);
    assert_refused(&with(&|memory| memory.journal.truncate(1_023)), b"", 7);
}

/// A stream that is read a few bytes at a time.
struct Slowly<'a> {
    rest: &'a [u8],
    random: Random,
}

impl Read for Slowly<'_> {
    fn read(&mut self, out: &mut [u8]) -> io::Result<usize> {
        let most = self.random.pick(&[1, 7, 100, 70_000]).min(out.len());
        let count = most.min(self.rest.len());
        let (front, rest) = self.rest.split_at(count);
        out[..count].copy_from_slice(front);
        self.rest = rest;
        Ok(count)
    }
}

#[test]
fn the_typed_audit_of_two_streams_is_the_reference_s_with_its_bill() {
    for_seeds(200, |random| {
        let right = Right::generate(random);
        let mut captured = right.captured.clone();
        match random.below(4) {
            0 if !captured.is_empty() => {
                let at = random.below(captured.len());
                captured[at] ^= 1;
            }
            1 => captured.truncate(random.below(captured.len() + 1)),
            2 => captured.extend(random.bytes(100)),
            _ => (),
        }
        let registry = Registry::from_bytes(&right.start.registry).expect("a registry");
        let list = List::from_bytes(&right.start.list).expect("a list");
        let mut slowly = |rest| Slowly {
            rest,
            random: Random::new(random.word()),
        };
        let mut streams = [slowly(&right.start.requests[..]), slowly(&captured)];
        let [requests, responses] = &mut streams;
        let audited = Audit::begin(registry, list).read(requests, responses);
        let audited = audited.expect("streams that can be read");
        let verdict = reference::verdict(&right.expected.responses, &captured);
        assert_eq!(audited.verdict.to_string(), verdict.to_string());
        let expected = &right.expected;
        let connection = expected.connection.to_memory();
        let bill = reference::bill_text(&expected.counters, &expected.registry, &connection);
        assert_eq!(audited.bill.as_bytes(), bill);
        assert!(audited.registry.memory() == expected.registry);
    });
}

/// What a service answers to a stream on one connection, and the bill that it writes then.
fn served(service: &impl Service, start: &Start) -> (Vec<u8>, Vec<u8>) {
    let mut lent = Lent::fresh(&start.registry, &start.list);
    let (mut rest, mut captured) = (&start.requests[..], Vec::new());
    while !rest.is_empty() {
        lent.renew_buffers(Lengths::LEAST, 0);
        let answer = service.call(&mut lent, &rest[..rest.len().min(LONGEST_CHUNK)]);
        assert_eq!(answer.code, 0);
        captured.extend(&lent.response()[..answer.written]);
        rest = &rest[answer.taken..];
    }
    let mut bill = vec![0; LEAST_BILL_BUFFER];
    let written = raw::bill(&mut bill, &lent.counters, &lent.registry, &lent.connection);
    bill.truncate(written.expect("well-formed memory"));
    (captured, bill)
}

/// How a service's responses and bill differ from those of its requests, on the first stream that shows it.
#[derive(Debug, PartialEq, Eq)]
enum Caught {
    Responses,
    Bill,
}

fn caught(service: &impl Service) -> Option<Caught> {
    (0..FIRST_STREAMS).find_map(|seed| {
        let start = Start::generate(&mut Random::new(seed), LARGE);
        let (captured, bill) = served(service, &start);
        let registry = Registry::from_bytes(&start.registry).expect("a registry");
        let list = List::from_bytes(&start.list).expect("a list");
        let audit = Audit::begin(registry, list);
        let audited = audit.read(&mut &start.requests[..], &mut &captured[..]);
        let audited = audited.expect("streams that can be read");
        if audited.verdict != Said::Accepted {
            return Some(Caught::Responses);
        }
        (audited.bill.as_bytes() != bill).then_some(Caught::Bill)
    })
}

#[test]
fn a_wrong_service_is_caught_by_its_responses_or_by_its_bill() {
    assert_eq!(caught(&Compiled), None);
    assert_eq!(caught(&SearchesAllLines), Some(Caught::Responses));
    assert_eq!(caught(&TellsNobodyOfKeys), Some(Caught::Responses));
    assert_eq!(caught(&AnswersAfterClose), Some(Caught::Responses));
    assert_eq!(caught(&CountsUsesElsewhere), Some(Caught::Bill));
    assert_eq!(caught(&CountsServedElsewhere), Some(Caught::Bill));
}

#[test]
fn any_number_but_0_says_that_a_byte_was_wrong() {
    let start = Start::generate(&mut Random::new(5), 1);
    for wrong in [1, 2, u32::MAX] {
        let mut memory = Memory::begin(&start);
        (memory.place.number, memory.place.wrong) = (3, wrong);
        (memory.place.size, memory.place.place) = (28, 7);
        let end = raw::audit_end(memory.place.clone(), &memory.pending, b"");
        assert_eq!((end.code, end.response, end.byte), (1, 3, 7));
        // No response is pending: requests are taken, and what they bring is not compared.
        let step = memory.step(&start.requests, b"", true);
        assert_eq!((step.code, step.responses, step.audit.wrong), (0, 0, 1));
    }
}

/// The state that LAYOUT names: a response that is compared in part, handed on.
#[test]
fn an_audit_may_go_on_from_its_numbers_and_its_pending_response() {
    let start = Start {
        requests: request(PING, None, b""),
        ..Start::generate(&mut Random::new(4), 1)
    };
    let captured = start.expected().responses.concat();
    let mut memory = Memory::begin(&start);
    assert_eq!(memory.step(&start.requests, b"", false).requests, 28);
    assert_eq!(memory.step(b"", &captured[..5], false).responses, 5);
    let numbers = (memory.place.number, memory.place.size, memory.place.place);
    assert_eq!(numbers, (1, captured.len(), 5));
    assert_eq!(memory.pending[..captured.len()], captured);
    let found = audited(&start, Cut::uncut(&start.requests), Cut::uncut(&captured));
    memory.pending[captured.len()..].fill(0xEE);
    memory.step(b"", &captured[5..], true);
    assert_eq!(memory.place.counters, found.counters);
    let end = raw::audit_end(memory.place, &memory.pending[..captured.len()], b"");
    assert_eq!(end.code, 0);
}
