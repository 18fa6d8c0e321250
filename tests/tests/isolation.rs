//! One application can't sway another, through the compiled service: generated histories on many
//! connections that share a registry and counters. Document 02, "One application can't sway another".

use razidkot_tests::histories::Case;
use razidkot_tests::isolation::*;
use razidkot_tests::isolation_reached::Reached;
use razidkot_tests::wrong_services::*;

const PAIRS: u64 = 2_000;
const HISTORIES: u64 = 1_000;
/// How often each outcome is to be reached.
const LEAST: u64 = 20;
/// A wrong service is caught among the first so many cases, and shown with so few requests a history.
const FIRST_CASES: u64 = 200;
const FEW_REQUESTS: usize = 4;

/// What was reached by cases none of which breaks the rule.
fn assert_kept(cases: u64, rule: impl Fn(&Case) -> Result<Vec<Seen>, Difference>) -> Reached {
    let mut reached = Reached::default();
    if let Some(broken) = first_broken(cases, &mut reached, rule) {
        panic!("{broken}");
    }
    reached
}

/// How the first case that breaks the rule does so.
fn caught(rule: impl Fn(&Case) -> Result<Vec<Seen>, Difference>) -> Difference {
    let broken = first_broken(FIRST_CASES, &mut Reached::default(), rule);
    let broken = broken.expect("a case that breaks the rule");
    let histories = broken.case.histories.iter();
    let most = histories.map(|history| history.requests().len()).max();
    assert!(most <= Some(FEW_REQUESTS), "{broken}");
    broken.difference
}

// ---- the compiled service keeps the rules

#[test]
fn its_responses_slots_and_served_count_are_the_same_whatever_others_send() {
    assert_kept(PAIRS, |case| own_is_the_same(case, &Compiled)).assert_own(LEAST);
}

#[test]
fn a_response_under_auth_type_0_depends_on_its_own_request_alone() {
    let reached = assert_kept(HISTORIES, |case| {
        unauthenticated_is_as_alone(case, &Compiled)
    });
    reached.assert_unauthenticated(LEAST);
}

#[test]
fn a_request_after_a_close_is_never_read() {
    let reached = assert_kept(HISTORIES, |case| {
        nothing_is_answered_after_a_close(case, &Compiled)
    });
    reached.assert_closed(LEAST);
}

// ---- and a service that breaks one is caught

#[test]
fn a_search_of_all_lines_is_caught() {
    let difference = caught(|case| own_is_the_same(case, &SearchesAllLines));
    let is_caught = matches!(
        difference,
        Difference::OwnResponses { .. } | Difference::OwnSlots { .. }
    );
    assert!(is_caught, "{difference:?}");
}

#[test]
fn a_use_counted_on_another_line_is_caught() {
    let difference = caught(|case| own_is_the_same(case, &CountsUsesElsewhere));
    let is_caught = matches!(difference, Difference::OwnSlots { .. });
    assert!(is_caught, "{difference:?}");
}

#[test]
fn a_served_request_counted_for_another_line_is_caught() {
    let difference = caught(|case| own_is_the_same(case, &CountsServedElsewhere));
    let is_caught = matches!(difference, Difference::OwnServed(_));
    assert!(is_caught, "{difference:?}");
}

#[test]
fn a_response_under_auth_type_0_that_tells_of_keys_is_caught() {
    let difference = caught(|case| unauthenticated_is_as_alone(case, &TellsNobodyOfKeys));
    let is_caught = matches!(difference, Difference::Unauthenticated { .. });
    assert!(is_caught, "{difference:?}");
}

#[test]
fn an_answer_after_a_close_is_caught() {
    let difference = caught(|case| nothing_is_answered_after_a_close(case, &AnswersAfterClose));
    let is_caught = matches!(difference, Difference::AnsweredAfterClose { .. });
    assert!(is_caught, "{difference:?}");
}
