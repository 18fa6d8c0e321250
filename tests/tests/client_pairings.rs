//! Client and service, the compiled ones and the reference's, in all four pairings: what comes of a
//! conversation is the same. Document 02, "The client's half": what either end writes, the other
//! reads.

use razidkot_tests::ask::{registry_of, OPCODES};
use razidkot_tests::client_conversation::{Conversation, Damage, Outcome};
use razidkot_tests::client_program::{Program, REFUSALS, RESPONSE, WAITING};
use razidkot_tests::lent::to_reference;
use razidkot_tests::run::{for_seeds, shortest, Outcomes};
use reference::rules;

/// The statuses that requests of the client can get: those that a wrong header, an unreadable body
/// or a bad name gets are not among them.
const STATUSES: [u32; 10] = [0, 6, 11, 19, 1_133, 1_134, 1_139, 1_140, 1_142, 1_149];

/// What comes of it in one pairing, if it is the same in all.
fn outcome(conversation: &Conversation) -> Option<Outcome> {
    let reference = conversation.run(Program::Reference, Program::Reference);
    let others = [
        (Program::Proved, Program::Proved),
        (Program::Proved, Program::Reference),
        (Program::Reference, Program::Proved),
    ];
    others
        .into_iter()
        .all(|(client, service)| conversation.run(client, service) == reference)
        .then_some(reference)
}

/// The difference of the shortest conversation that has one.
fn show(conversation: &Conversation) -> String {
    let with = |asked: &[_]| Conversation {
        asked: asked.to_vec(),
        ..conversation.clone()
    };
    let asked = shortest(&conversation.asked, |asked| outcome(&with(asked)).is_none());
    let conversation = with(&asked);
    let pairings = Program::BOTH.map(|client| {
        Program::BOTH.map(|service| {
            let outcome = conversation.run(client, service);
            let (written, read) = (outcome.written, outcome.read);
            format!("{client:?} client, {service:?} service: {written:?} {read:02X?}")
        })
    });
    format!("{conversation:02X?}\n{}", pairings.concat().join("\n"))
}

/// Statuses of damaged conversations are not counted, but for those of a request whose start was.
fn count(outcomes: &mut Outcomes, conversation: &Conversation, outcome: &Outcome) {
    let sent = conversation.asked.iter().zip(&outcome.written);
    let sent = sent.filter(|(_, written)| written.code == 0);
    for ((asked, _), said) in sent.zip(&outcome.read) {
        let is_response = said.code == RESPONSE;
        match conversation.damage {
            Damage::None => {
                // Each request has its response.
                let is_foreseen = is_response && STATUSES.contains(&said.status);
                assert!(is_foreseen, "{asked:?}: {said:?}");
                outcomes.count(status_reached(said.status));
                outcomes.count(opcode_reached(asked.opcode, said.status == 0));
            }
            Damage::Start { .. } if is_response && said.status == 17 => {
                outcomes.count(status_reached(17));
            }
            _ if said.code == WAITING => outcomes.count("damaged, waiting"),
            _ if REFUSALS.contains(&said.code) => outcomes.count("damaged, refused"),
            _ => {}
        }
    }
    for written in outcome.written.iter().filter(|written| written.code != 0) {
        outcomes.count(format!("not written: {}", written.code));
    }
}

fn status_reached(status: u32) -> String {
    format!("status {status}")
}

fn opcode_reached(opcode: u16, is_served: bool) -> String {
    format!("opcode {opcode}, served {is_served}")
}

#[test]
fn all_four_pairings_come_to_the_same() {
    let mut outcomes = Outcomes::default();
    for_seeds(10_000, |random| {
        let conversation = Conversation::generate(random);
        match outcome(&conversation) {
            Some(outcome) => count(&mut outcomes, &conversation, &outcome),
            None => panic!("{}", show(&conversation)),
        }
    });
    outcomes.assert_often(&STATUSES.map(status_reached), 100);
    outcomes.assert_often(&[status_reached(17)], 100);
    let served = OPCODES.map(|opcode| opcode_reached(opcode, true));
    outcomes.assert_often(&served, 100);
    outcomes.assert_often(&["damaged, waiting", "damaged, refused"], 100);
    let not_written = [2, 3, 4, 5, 6, 7, 8].map(|code| format!("not written: {code}"));
    outcomes.assert_often(&not_written, 20);
}

#[test]
fn what_comes_of_a_conversation_is_what_the_rules_give_uncut() {
    for_seeds(300, |random| {
        let conversation = Conversation::generate(random);
        if conversation.damage == Damage::None {
            let outcome = conversation.run(Program::Proved, Program::Proved);
            let stream = outcome.requests.concat();
            let expected = rules::run_with_list(
                &registry_of(&conversation.names),
                &conversation.list,
                &stream,
            );
            assert_eq!(outcome.responses, expected.responses);
            assert!(outcome.registry == expected.registry, "registry");
            assert_eq!(to_reference(&outcome.counters), expected.counters);
            assert_eq!(outcome.connection, expected.connection.to_memory());
            let taken = outcome.read.iter().map(|said| said.taken);
            assert_eq!(taken.sum::<usize>(), expected.responses.concat().len());
        }
    });
}
