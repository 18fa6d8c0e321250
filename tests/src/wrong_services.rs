//! Services in which one application sways another, made of the compiled one: what the test of "One
//! application can't sway another" has to catch.

use crate::ask::DOES_NOT_EXIST;
use crate::isolation::Service;
use crate::layout::*;
use crate::lent::Lent;
use razidkot::raw::Answer;

/// "Finding a key by name without the application": where its own line has none such, in the others.
pub struct SearchesAllLines;

impl Service for SearchesAllLines {
    fn call(&self, lent: &mut Lent, chunk: &[u8]) -> Answer {
        let before = lent.clone();
        let lines = used_lines(&before.registry);
        let mut answer = lent.call_proved(chunk);
        for turn in 1..lines {
            if !is_none_such(lent, answer) {
                break;
            }
            lent.clone_from(&before);
            turn_slots(&mut lent.registry, lines, turn);
            answer = lent.call_proved(chunk);
            turn_slots(&mut lent.registry, lines, lines - turn);
        }
        answer
    }
}

fn used_lines(registry: &[u8]) -> usize {
    let is_used = |&line: &usize| registry[line_at(line)] != 0;
    (0..LINES).filter(is_used).count()
}

fn is_none_such(lent: &Lent, answer: Answer) -> bool {
    answer.written > 0 && lent.response()[24..26] == DOES_NOT_EXIST.to_le_bytes()
}

/// Each of the used lines gets the slots of the line so many further on.
fn turn_slots(registry: &mut [u8], lines: usize, turn: usize) {
    let before = registry.to_vec();
    for line in 0..lines {
        let from = (line + turn) % lines;
        registry[slots_of(line)].copy_from_slice(&before[slots_of(from)]);
    }
}

/// Raises the count of a key of another line, if there is one.
pub struct CountsUsesElsewhere;

impl Service for CountsUsesElsewhere {
    fn call(&self, lent: &mut Lent, chunk: &[u8]) -> Answer {
        let before = lent.registry.clone();
        let answer = lent.call_proved(chunk);
        let registry = &mut lent.registry;
        let is_raised = |place: &Place| uses_at(registry, *place) > uses_at(&before, *place);
        if let Some(used) = Place::all().find(is_raised) {
            let places = used_places(registry);
            if let Some(&other) = places.iter().find(|place| place.line != used.line) {
                set_uses(registry, used, uses_at(&before, used));
                set_uses(registry, other, uses_at(&before, other).saturating_add(1));
            }
        }
        answer
    }
}

/// Counts a served request for the next line.
pub struct CountsServedElsewhere;

impl Service for CountsServedElsewhere {
    fn call(&self, lent: &mut Lent, chunk: &[u8]) -> Answer {
        let mut served = lent.counters.served;
        let answer = lent.call_proved(chunk);
        let raised = (0..LINES).find(|&line| lent.counters.served[line] > served[line]);
        if let Some(line) = raised {
            served[(line + 1) % LINES] += 1;
            lent.counters.served = served;
        }
        answer
    }
}

/// Says in a response's session how many keys are held, if nobody is named.
pub struct TellsNobodyOfKeys;

impl Service for TellsNobodyOfKeys {
    fn call(&self, lent: &mut Lent, chunk: &[u8]) -> Answer {
        let before = lent.counters.unauthenticated;
        let answer = lent.call_proved(chunk);
        if lent.counters.unauthenticated > before {
            let keys = used_places(&lent.registry).len() as u8;
            lent.response_mut()[9] = keys;
        }
        answer
    }
}

/// Opens a closed connection again.
pub struct AnswersAfterClose;

impl Service for AnswersAfterClose {
    fn call(&self, lent: &mut Lent, chunk: &[u8]) -> Answer {
        const CLOSED: u8 = 2;
        let answer = lent.call_proved(chunk);
        if lent.connection[0] == CLOSED {
            lent.connection.fill(0);
        }
        answer
    }
}
