//! What pairs of histories reached, told from their requests and responses.

use crate::ask::*;
use crate::histories::{Case, History};
use crate::isolation::{Exchange, Seen};
use crate::layout::{slots_of, uses_at, Place, LINES};
use crate::listed::{self, Asked};
use crate::oracle::find_slot;
use crate::requests::AUTH_TYPE_AT;
use crate::run::Outcomes;
use crate::senders::{is_of, is_unauthenticated, is_whole};
use crate::shipped::slot_names;

const CUT: &str = "its request is cut, others are answered between";
const CUT_BY_CLOSE: &str = "its request is cut, another's connection is closed between";
const CUT_BY_OWN: &str = "its request is cut, another of its own is answered between";
const BEHIND_ANOTHERS: &str = "its request follows another's on one connection";
const USED_AGAIN: &str = "its key is used again";
const OTHER_CONNECTION: &str = "its request is on another connection in the other history";
const OTHER_KEYS_FIRST: &str = "others start with other keys";
const OTHER_KEYS_LAST: &str = "others end with other keys";
const ALONE: &str = "nobody else asks in the other history";
const CLOSED: &str = "another's connection is closed";
const DROPPED: &str = "bytes behind a close";
const OWN_DROPPED: &str = "its request behind a close";
const UNFINISHED: &str = "a request never ends";

#[derive(Debug, Default)]
pub struct Reached(Outcomes);

impl Reached {
    /// What a history, or both, came to.
    pub fn count(&mut self, case: &Case, seen: &[Seen]) {
        for (history, seen) in case.histories.iter().zip(seen) {
            self.count_history(case, history, seen);
        }
        if let [first, second] = seen {
            self.count_pair(case, first, second);
        }
    }

    fn count_history(&mut self, case: &Case, history: &History, seen: &Seen) {
        let exchanges = seen.exchanges.iter();
        let is_own = exchanges.map(|exchange| is_of(&case.application, &exchange.request));
        let is_own: Vec<bool> = is_own.collect();
        let mut before = &history.registry;
        for (place, exchange) in seen.exchanges.iter().enumerate() {
            if is_own[place] {
                self.count_own(case, before, exchange);
                self.count_between(seen, &is_own, place);
            } else {
                self.count_others(case, before, exchange);
            }
            before = &exchange.registry;
        }
        let connections = 0..seen.unanswered.len();
        connections.for_each(|connection| self.count_unanswered(seen, connection));
        // Others have such a request only behind a close.
        let mut others = history.requests().split_off(&case.own).into_values();
        if others.any(|request| is_of(&case.application, &request)) {
            self.0.count(OWN_DROPPED);
        }
    }

    fn count_own(&mut self, case: &Case, before: &[u8], exchange: &Exchange) {
        let status = exchange.status();
        self.0.count(own_status(status));
        let Some(asked) = Asked::read(&exchange.request) else {
            return;
        };
        let own = slot_names(before, &case.application);
        let outcome = asked.outcome(&own, &case.list, status);
        self.0.count(own_outcome(&outcome));
        let mut others = (0..LINES).filter(|&line| line != case.line);
        if others.any(|line| holds(before, line, asked.name)) {
            self.0.count(own_of_shared_name(&outcome_of(exchange)));
        }
        let slot = asked.used_slot(&own, status);
        let place = slot.map(|slot| Place {
            line: case.line,
            slot,
        });
        if place.is_some_and(|place| uses_at(before, place) > 0) {
            self.0.count(USED_AGAIN);
        }
    }

    /// What was answered since the first byte of the request that was answered here, and before it.
    fn count_between(&mut self, seen: &Seen, is_own: &[bool], place: usize) {
        let exchange = &seen.exchanges[place];
        let between = exchange.begun..place;
        let closes = seen.exchanges[between.clone()].iter().any(Exchange::closes);
        let is_anothers_on_it = |before: usize| {
            !is_own[before] && seen.exchanges[before].connection == exchange.connection
        };
        let reached = [
            (CUT, is_own[between.clone()].contains(&false)),
            (CUT_BY_CLOSE, closes),
            (CUT_BY_OWN, is_own[between].contains(&true)),
            (BEHIND_ANOTHERS, (0..place).any(is_anothers_on_it)),
        ];
        for (outcome, _) in reached.iter().filter(|(_, is_reached)| *is_reached) {
            self.0.count(outcome);
        }
    }

    fn count_others(&mut self, case: &Case, before: &[u8], exchange: &Exchange) {
        let (request, status) = (&exchange.request, exchange.status());
        if exchange.closes() {
            self.0.count(CLOSED);
        }
        if is_whole(request) && request.ends_with(&case.application) {
            self.0.count(with_its_name(request[AUTH_TYPE_AT], status));
        }
        if is_unauthenticated(request) {
            self.0.count(unauthenticated(status));
        }
        let asked = Asked::read(request).filter(|asked| asked.application != case.application);
        let Some(asked) = asked else {
            return;
        };
        let others = slot_names(before, asked.application);
        let outcome = asked.outcome(&others, &case.list, status);
        self.0.count(others_outcome(&outcome));
        if holds(before, case.line, asked.name) {
            self.0.count(others_of_shared_name(&outcome_of(exchange)));
        }
    }

    /// The bytes behind the last response on a connection.
    fn count_unanswered(&mut self, seen: &Seen, connection: usize) {
        let exchanges = seen.exchanges.iter();
        let mut on_it = exchanges.filter(|exchange| exchange.connection == connection);
        let is_closed = on_it.any(Exchange::closes);
        if !seen.unanswered[connection].is_empty() {
            self.0.count(if is_closed { DROPPED } else { UNFINISHED });
        }
    }

    fn count_pair(&mut self, case: &Case, first: &Seen, second: &Seen) {
        let [one, other] = [first, second].map(|seen| seen.of(&case.application));
        let moved = one
            .zip(other)
            .filter(|(one, other)| one.connection != other.connection);
        moved.for_each(|_| self.0.count(OTHER_CONNECTION));
        let [start, other_start] = &case.histories;
        if others_differ(case.line, &start.registry, &other_start.registry) {
            self.0.count(OTHER_KEYS_FIRST);
        }
        if others_differ(case.line, &first.registry, &second.registry) {
            self.0.count(OTHER_KEYS_LAST);
        }
        if second.of(&case.application).count() == second.exchanges.len() {
            self.0.count(ALONE);
        }
    }

    /// A test that never reaches an outcome could not fail on it.
    pub fn assert_own(&self, least: u64) {
        self.0.assert_often(&expected_of_own(), least);
        self.0.assert_often(&expected_of_others(), least);
        self.0.assert_often(&expected_between(), least);
        // Many more cases, so that there are fewer of each.
        let outcomes = listed::expected();
        let outcomes: Vec<_> = outcomes
            .iter()
            .map(|outcome| own_outcome(outcome))
            .collect();
        self.0.assert_often(&outcomes, least / 10);
    }

    /// Each status that a request with auth type 0 may get.
    pub fn assert_unauthenticated(&self, least: u64) {
        let statuses = [0, 1, 2, 3, 4, 6, 7, 9, 11, 19, 20];
        self.0.assert_often(&statuses.map(unauthenticated), least);
    }

    pub fn assert_closed(&self, least: u64) {
        self.0.assert_often(&[CLOSED, DROPPED, OWN_DROPPED], least);
    }
}

// ---- what is held

fn holds(registry: &[u8], line: usize, name: &[u8]) -> bool {
    !name.is_empty() && find_slot(registry, line, name).is_some()
}

fn others_differ(own: usize, one: &[u8], other: &[u8]) -> bool {
    let mut others = (0..LINES).filter(|&line| line != own);
    others.any(|line| one[slots_of(line)] != other[slots_of(line)])
}

// ---- the outcomes' names

fn own_status(status: u16) -> String {
    format!("its status {status}")
}

/// By who holds the key: an outcome of `listed`.
fn own_outcome(outcome: &str) -> String {
    format!("its {outcome}")
}

fn others_outcome(outcome: &str) -> String {
    format!("another's {outcome}")
}

/// Opcode and status.
fn outcome_of(exchange: &Exchange) -> String {
    let opcode = u16::from_le_bytes([exchange.response[22], exchange.response[23]]);
    opcode_and_status(&(opcode, exchange.status()))
}

fn opcode_and_status((opcode, status): &(u16, u16)) -> String {
    format!("opcode {opcode}, status {status}")
}

fn own_of_shared_name(outcome: &str) -> String {
    format!("its {outcome}, another holds the name")
}

fn others_of_shared_name(outcome: &str) -> String {
    format!("another's {outcome}, it holds the name")
}

fn with_its_name(auth_type: u8, status: u16) -> String {
    format!("another's with its name, auth type {auth_type}: {status}")
}

fn unauthenticated(status: u16) -> String {
    format!("auth type 0: {status}")
}

// ---- the outcomes that a long enough run has

/// What may come of a name that the application and another hold or ask for.
const OF_SHARED_NAME: [(u16, u16); 8] = [
    (IMPORT, SUCCESS),
    (IMPORT, ALREADY_EXISTS),
    (EXPORT, SUCCESS),
    (EXPORT, DOES_NOT_EXIST),
    (VERIFY, SUCCESS),
    (VERIFY, DOES_NOT_EXIST),
    (DESTROY, SUCCESS),
    (DESTROY, DOES_NOT_EXIST),
];

fn expected_of_own() -> Vec<String> {
    let before_auth = [1, 2, 3, 4, 6, 9];
    let behind = [0, 7, 1133, 1134, 1135, 1139, 1140, 1142, 1149];
    let statuses = before_auth.into_iter().chain(behind).map(own_status);
    let shared = OF_SHARED_NAME.iter().map(opcode_and_status);
    statuses
        .chain(shared.map(|outcome| own_of_shared_name(&outcome)))
        .chain([USED_AGAIN.to_string()])
        .collect()
}

fn expected_of_others() -> Vec<String> {
    let shared = OF_SHARED_NAME.iter().map(opcode_and_status);
    let its_name = [(0, 11), (1, 20), (2, 12)];
    let its_name = its_name.map(|(auth_type, status)| with_its_name(auth_type, status));
    let unauthenticated = [0, 11, 19].map(unauthenticated);
    let shipped = ["Export of listed: 0", "Verify of listed: 0"].map(others_outcome);
    shared
        .map(|outcome| others_of_shared_name(&outcome))
        .chain(its_name)
        .chain(unauthenticated)
        .chain(shipped)
        .chain([CLOSED, DROPPED, OWN_DROPPED, UNFINISHED].map(str::to_string))
        .collect()
}

fn expected_between() -> Vec<&'static str> {
    vec![
        CUT,
        CUT_BY_CLOSE,
        CUT_BY_OWN,
        BEHIND_ANOTHERS,
        OTHER_CONNECTION,
        OTHER_KEYS_FIRST,
        OTHER_KEYS_LAST,
        ALONE,
    ]
}
