//! What the calls of a differential test reached, taken from what they were made with and from what
//! the reference answered.

use crate::ask::*;
use crate::layout::{slot_bytes, uses_at, Place, EXPORT_ALLOWED_AT, VERIFY_ALLOWED_AT};
use crate::lent::Lent;
use crate::listed::{self, Asked};
use crate::lists::{pairs_in, MOST_PAIRS};
use crate::oracle::find_application;
use crate::run::Outcomes;
use crate::shipped::slot_names;
use razidkot::raw::Answer;
use razidkot::{Status, HIGHEST_COUNTER, LEAST_JOURNAL_BUFFER, LEAST_RESPONSE_BUFFER};
use razidkot::{LONGEST_CHUNK, LONGEST_RECORD, LONGEST_RESPONSE};

const KINDS: [&str; 4] = ["open empty", "open holding", "skipping", "closed"];

#[derive(Debug, Default)]
pub struct Reached {
    pub calls: u64,
    outcomes: Outcomes,
}

impl Reached {
    /// A call made on `before`, and what it came to.
    pub fn count(&mut self, before: &Lent, chunk: &[u8], answer: Answer, after: &Lent) {
        self.calls += 1;
        if answer.code != 0 {
            self.count_refusal(before, chunk, answer.code);
            return;
        }
        let kind = kind_of(&before.connection);
        match chunk {
            [] => self.outcomes.count(format!("{kind}, empty chunk")),
            _ => self.outcomes.count(kind),
        }
        if answer.written > 0 {
            let response = &after.response()[..answer.written];
            self.count_response(kind, response);
            if kind == KINDS[0] {
                self.count_key(before, &chunk[..answer.taken], response);
            }
            self.outcomes.count(list_reached(&before.list));
            self.outcomes
                .count(record_reached(&after.journal()[..answer.recorded]));
        }
        self.count_served(before, after);
        if after.registry != before.registry {
            self.count_flags(before, after);
        }
    }

    /// The code, and each later one that would apply as well.
    fn count_refusal(&mut self, before: &Lent, chunk: &[u8], code: u32) {
        self.outcomes.count(format!("C{code}"));
        for later in applying(before, chunk).filter(|&later| later > code) {
            self.outcomes.count(format!("C{code} before C{later}"));
        }
    }

    /// The status of a request that lay whole in its chunk, or of one gathered from several.
    fn count_response(&mut self, kind: &str, response: &[u8]) {
        let status = u16::from_le_bytes([response[24], response[25]]);
        let whole = kind == KINDS[0];
        self.outcomes.count(status_reached(status, whole));
        let opcode = u16::from_le_bytes([response[22], response[23]]);
        if status == Status::Success.number() {
            self.outcomes.count(opcode_reached(opcode));
        }
        if opcode == VERIFY {
            self.outcomes.count(verify_reached(status));
        }
        if response.len() == LONGEST_RESPONSE {
            self.outcomes.count("longest response");
        }
    }

    /// What came of a request that lay whole in its chunk, by who held the key that it named; of a use that
    /// counts, also by the count.
    fn count_key(&mut self, before: &Lent, request: &[u8], response: &[u8]) {
        let Some(asked) = Asked::read(request) else {
            return;
        };
        let own = slot_names(&before.registry, asked.application);
        let status = u16::from_le_bytes([response[24], response[25]]);
        self.outcomes
            .count(asked.outcome(&own, &before.list, status));
        let line = find_application(&before.registry, asked.application);
        if let (Some(line), Some(slot)) = (line, asked.used_slot(&own, status)) {
            let uses = uses_at(&before.registry, Place { line, slot });
            self.outcomes.count(asked.use_outcome(uses));
        }
    }

    fn count_served(&mut self, before: &Lent, after: &Lent) {
        let served = before.counters.served.iter().zip(&after.counters.served);
        for (line, _) in served
            .enumerate()
            .filter(|(_, (before, after))| before != after)
        {
            self.outcomes.count(format!("served line {line}"));
        }
        if before.counters.unauthenticated != after.counters.unauthenticated {
            self.outcomes.count("served unauthenticated");
        }
    }

    /// The flags of the key that an Import brought, or that a Destroy freed a slot.
    fn count_flags(&mut self, before: &Lent, after: &Lent) {
        for place in Place::all() {
            let slot = slot_bytes(&after.registry, place);
            let is_free = |slot: &[u8]| slot[0] == 0;
            if is_free(slot) != is_free(slot_bytes(&before.registry, place)) {
                self.outcomes.count(slot_reached(slot));
            }
        }
    }

    /// A test that never reaches an outcome could not fail on it.
    pub fn assert_all(&self, least: u64) {
        self.outcomes.assert_often(&expected(), least);
        self.outcomes.assert_often(&["longest record"], least / 5);
        // Many more cases, so that there are fewer of each.
        self.outcomes.assert_often(&listed::expected(), least / 5);
        self.outcomes
            .assert_often(&listed::expected_uses(), least / 5);
    }
}

/// Of a well-formed connection.
pub fn kind_of(connection: &[u8]) -> &'static str {
    match connection {
        [0, 0, 0, ..] => KINDS[0],
        [0, ..] => KINDS[1],
        [1, ..] => KINDS[2],
        _ => KINDS[3],
    }
}

fn status_reached(status: u16, whole: bool) -> String {
    let chunks = if whole {
        "in one chunk"
    } else {
        "over several"
    };
    format!("status {status} {chunks}")
}

fn opcode_reached(opcode: u16) -> String {
    format!("opcode {opcode} served")
}

fn verify_reached(status: u16) -> String {
    format!("verify with status {status}")
}

/// By its tag; the longest has one of its own.
fn record_reached(record: &[u8]) -> String {
    match (record.first(), record.len()) {
        (None, _) => "no record".to_string(),
        (_, LONGEST_RECORD) => "longest record".to_string(),
        (Some(tag), _) => format!("record with tag {tag}"),
    }
}

/// Of a good list.
fn list_reached(list: &[u8]) -> String {
    match pairs_in(list).len() {
        0 => "no pairs".to_string(),
        1 => "a pair".to_string(),
        MOST_PAIRS => "64 pairs".to_string(),
        _ => "some pairs".to_string(),
    }
}

fn slot_reached(slot: &[u8]) -> String {
    match slot[0] {
        0 => "slot freed".to_string(),
        _ => flags_reached(slot[EXPORT_ALLOWED_AT], slot[VERIFY_ALLOWED_AT]),
    }
}

fn flags_reached(export_allowed: u8, verify_allowed: u8) -> String {
    format!("export allowed {export_allowed}, verify allowed {verify_allowed}")
}

/// The codes that apply, not the first one alone.
fn applying(lent: &Lent, chunk: &[u8]) -> impl Iterator<Item = u32> {
    let counters = &lent.counters;
    let first = [
        counters.taken,
        counters.answered,
        counters.dropped,
        counters.unauthenticated,
    ];
    let highest = first
        .into_iter()
        .chain(counters.served)
        .chain(counters.refused)
        .max();
    let applies = [
        lent.response().len() < LEAST_RESPONSE_BUFFER,
        chunk.len() > LONGEST_CHUNK,
        !reference::connection_is_well_formed(&lent.connection),
        !reference::registry_is_well_formed(&lent.registry),
        highest > Some(HIGHEST_COUNTER),
        !reference::list_is_well_formed(&lent.list),
        lent.journal().len() < LEAST_JOURNAL_BUFFER,
    ];
    (1..)
        .zip(applies)
        .filter_map(|(code, applies)| applies.then_some(code))
}

/// Every outcome that a long enough run has.
fn expected() -> Vec<String> {
    let statuses = std::iter::once(Status::Success).chain(Status::REFUSED);
    let statuses = statuses
        .flat_map(|status| [true, false].map(|whole| status_reached(status.number(), whole)));
    let codes = (1..=7).map(|code| format!("C{code}"));
    let pairs = (1..=7)
        .flat_map(|code| (code + 1..=7).map(move |later| format!("C{code} before C{later}")));
    let kinds = KINDS
        .into_iter()
        .flat_map(|kind| [kind.to_string(), format!("{kind}, empty chunk")]);
    let flags =
        [(0, 0), (0, 1), (1, 0), (1, 1)].map(|(export, verify)| flags_reached(export, verify));
    let opcodes = OPCODES.map(opcode_reached);
    let verify = [
        SUCCESS,
        DESERIALIZING_BODY_FAILED,
        NOT_PERMITTED,
        NOT_SUPPORTED,
        INVALID_ARGUMENT,
        DOES_NOT_EXIST,
        INVALID_SIGNATURE,
    ];
    let verify = verify.map(verify_reached);
    let lines = (0..8).map(|line| format!("served line {line}"));
    let others = ["served unauthenticated", "slot freed", "longest response"].map(str::to_string);
    let lists = ["no pairs", "a pair", "some pairs", "64 pairs"].map(str::to_string);
    let records = ["no record", "record with tag 2", "record with tag 3"].map(str::to_string);
    statuses
        .chain(codes)
        .chain(pairs)
        .chain(kinds)
        .chain(flags)
        .chain(opcodes)
        .chain(verify)
        .chain(lines)
        .chain(others)
        .chain(lists)
        .chain(records)
        .collect()
}
