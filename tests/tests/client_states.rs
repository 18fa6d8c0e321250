//! A reader's state as the compiled client begins and judges it against the reference: ill formed
//! exactly where docs/LAYOUT.md says, and then nothing is taken or changed. Document 02, "The
//! client's half".

use razidkot_tests::ask::{EXPORT, OPCODES, PING};
use razidkot_tests::client_asked::{each_with_each, some_session, SESSIONS};
use razidkot_tests::client_program::*;
use razidkot_tests::client_responses::{response, some_awaited, some_response, BODY_AT};
use razidkot_tests::client_states::*;
use razidkot_tests::generate::Random;
use razidkot_tests::run::{for_seeds, Outcomes};
use razidkot_tests::tagged::LISTED_TYPES;

const SIZES: [usize; 6] = [0, 1, 13, 1_036, STATE_SIZE, 1_038];

/// Memory as it may lie around before a state is begun in it.
fn any_memory(size: usize, byte: u8) -> Vec<u8> {
    (0..size).map(|place| (place as u8) ^ byte).collect()
}

#[test]
fn a_state_is_begun_for_listed_opcodes_in_memory_of_the_one_size() {
    for opcode in 0..=u16::MAX {
        for (size, session) in SIZES.into_iter().zip(SESSIONS.into_iter().cycle()) {
            let before = any_memory(size, opcode as u8);
            let awaited = Awaited {
                opcode,
                session,
                accept_type: opcode as u8 % 5,
            };
            let mut state = Both::new(&before);
            let is_listed_type = LISTED_TYPES.contains(&awaited.accept_type);
            let code = match (size, OPCODES.contains(&opcode)) {
                (STATE_SIZE, true) if is_listed_type => 0,
                (STATE_SIZE, true) => 3,
                (STATE_SIZE, false) => 2,
                _ => 1,
            };
            assert_eq!(state.begin(awaited), Ok(code), "{awaited:?} in {size}");
            let expected = match code {
                0 => state_of(awaited, &[]),
                _ => before,
            };
            assert!(state.memory() == expected, "{awaited:?} in {size}");
        }
    }
}

#[test]
fn a_begun_state_awaits_the_response_to_its_request() {
    for (opcode, session) in each_with_each(&OPCODES, &SESSIONS) {
        let awaited = Awaited {
            opcode,
            session,
            accept_type: 1 + (session % 2) as u8,
        };
        let mut state = Both::new(&any_memory(STATE_SIZE, 0x5A));
        assert_eq!(state.begin(awaited), Ok(0));
        let said = state
            .read(&response(awaited, 7, &[]))
            .expect("no difference");
        assert_eq!((said.code, said.status), (RESPONSE, 7));
        // Begun again, it has forgotten the response.
        assert_eq!(state.begin(awaited), Ok(0));
        assert_eq!(state.read(&[]).expect("no difference").code, WAITING);
    }
}

/// Both calls on this memory, with a chunk and without: the same, and a state that is ill formed
/// stays as it is. Counts the faults, or what is said.
fn judge(outcomes: &mut Outcomes, memory: &[u8], chunk: &[u8]) {
    for chunk in [&[], chunk] {
        let mut state = Both::new(memory);
        let said = match state.read(chunk) {
            Ok(said) => said,
            Err(difference) => panic!("{difference}\non {memory:02X?} with {chunk:02X?}"),
        };
        if said.code == ILL_FORMED {
            assert_eq!(said.taken, 0);
            assert!(state.memory() == memory, "an ill-formed state stays");
            outcomes.count(faults_of(memory).join(" and "));
        } else {
            outcomes.count(format!("well formed, {}", kind_of(said.code)));
        }
    }
}

fn kind_of(code: u32) -> &'static str {
    match code {
        WAITING => "waiting",
        RESPONSE => "a response",
        _ => "a refusal",
    }
}

/// The state that is left of some response, whole or cut, and the rest of the response.
fn some_state(random: &mut Random) -> (Vec<u8>, Vec<u8>) {
    let awaited = some_awaited(random);
    let mut bytes = some_response(random, awaited);
    if random.once_in(4) {
        let place = random.below(bytes.len());
        bytes[place] ^= 1 << random.below(8);
    }
    let cut = random.pick(&[0, 5, 6, 7, 25, 26, bytes.len() / 2, bytes.len()]);
    let mut state = Both::new(&state_of(awaited, &[]));
    let first = &bytes[..cut.min(bytes.len())];
    state.read(first).expect("no difference");
    let rest = bytes[first.len()..].to_vec();
    (state.memory().to_vec(), rest)
}

/// One change of a state's memory; some leave it well formed.
fn damage(random: &mut Random, memory: &mut Vec<u8>) {
    let bit = 1 << random.below(8);
    let count = u16::from_le_bytes([memory[COUNT_AT], memory[COUNT_AT + 1]]);
    let held = usize::from(count).min(LONGEST_RESPONSE);
    match random.below(11) {
        10 => memory[ACCEPT_TYPE_AT] = random.pick(&[0, 1, 2, 3, 255]),
        0 => memory[random.below(2)] ^= bit,
        1 => memory[..2].copy_from_slice(&random.pick(&[0_u16, 2, 4, 10, 256]).to_le_bytes()),
        2 => memory[2 + random.below(8)] ^= bit,
        3 => memory[COUNT_AT + random.below(2)] ^= bit,
        4 => {
            let counts = [0, 1_023, 1_024, 1_025, 1_026, 2_048, u16::MAX];
            let near = [count.saturating_add(1), count.saturating_sub(1)];
            let count = random.pick(&[&counts[..], &near].concat());
            memory[COUNT_AT..HELD_AT].copy_from_slice(&count.to_le_bytes());
        }
        5 if held > 0 => memory[HELD_AT + random.below(held)] ^= bit,
        6 if held < LONGEST_RESPONSE => {
            memory[HELD_AT + held + random.below(LONGEST_RESPONSE - held)] ^= bit;
        }
        7 => memory.resize(random.pick(&[0, 1, 12, 13, 1_036, 1_038, 2_074]), 0),
        _ => memory[random.below(STATE_SIZE)] ^= bit,
    }
}

#[test]
fn a_damaged_state_is_ill_formed_exactly_where_the_layout_says() {
    let mut outcomes = Outcomes::default();
    for_seeds(60_000, |random| {
        let (mut memory, rest) = some_state(random);
        damage(random, &mut memory);
        if random.once_in(3) && memory.len() == STATE_SIZE {
            damage(random, &mut memory);
        }
        judge(&mut outcomes, &memory, &rest);
    });
    let expected = [
        "another size",
        "an unlisted opcode",
        "an unlisted accept type",
        "too many held",
        "a byte behind",
        "an unlisted opcode and too many held",
        "an unlisted opcode and a byte behind",
        "well formed, waiting",
        "well formed, a response",
        "well formed, a refusal",
    ];
    outcomes.assert_often(&expected, 300);
}

#[test]
fn every_opcode_number_and_every_count_is_judged() {
    let mut outcomes = Outcomes::default();
    let awaited = Awaited::protobuf(PING, 9);
    let good = response(awaited, 0, &[0x08, 1]);
    for number in 0..=u16::MAX {
        let other = Awaited {
            opcode: number,
            ..awaited
        };
        judge(&mut outcomes, &state_of(other, &good[..8]), &good[8..]);
        let mut memory = state_of(awaited, &[]);
        memory[COUNT_AT..HELD_AT].copy_from_slice(&number.to_le_bytes());
        judge(&mut outcomes, &memory, &good);
    }
    outcomes.assert_often(&["an unlisted opcode"], 2 * (65_536 - 7));
    outcomes.assert_often(&["too many held"], 2 * (65_536 - 1_025));
}

#[test]
fn a_byte_anywhere_behind_those_held_is_ill_formed() {
    let mut outcomes = Outcomes::default();
    let awaited = Awaited::protobuf(EXPORT, u64::MAX);
    let longest = response(awaited, 0, &[&[0x0A, 0xE3, 7], &[0xDA; 995][..]].concat());
    assert_eq!(longest.len(), LONGEST_RESPONSE);
    for held in [0, 1, 5, 6, 25, 26, 27, 500, 1_022, 1_023, 1_024] {
        let good = state_of(awaited, &longest[..held]);
        judge(&mut outcomes, &good, &longest[held..]);
        for (place, byte) in each_with_each(&(held..1_024).collect::<Vec<_>>(), &[1, 0x80]) {
            let mut memory = good.clone();
            memory[HELD_AT + place] = byte;
            judge(&mut outcomes, &memory, &longest[held..]);
        }
    }
    outcomes.assert_often(&["a byte behind"], 10_000);
    outcomes.assert_often(&["well formed, waiting", "well formed, a response"], 2);
}

#[test]
fn a_state_that_holds_more_than_a_response_or_a_refusal_takes_no_more() {
    let mut outcomes = Outcomes::default();
    for_seeds(3_000, |random| {
        let awaited = Awaited {
            session: some_session(random),
            ..some_awaited(random)
        };
        let mut bytes = some_response(random, awaited);
        if random.once_in(2) {
            bytes[random.below(BODY_AT)] ^= 1 << random.below(8);
        }
        let ends_at = awaited.uncut(&bytes);
        let behind = random.pick(&[0, 1, 2, 26, LONGEST_RESPONSE]);
        bytes.extend(random.bytes(behind));
        bytes.truncate(LONGEST_RESPONSE);
        let memory = state_of(awaited, &bytes);
        judge(&mut outcomes, &memory, &[0; 40]);
        if ends_at.code != WAITING && bytes.len() > ends_at.taken {
            let mut state = Both::new(&memory);
            let said = state.read(&[0; 40]).expect("no difference");
            assert_eq!(
                said,
                Said {
                    taken: 0,
                    ..ends_at
                }
            );
            assert!(state.memory() == memory, "nothing is taken");
            outcomes.count(format!("more than {}", kind_of(said.code)));
        }
    });
    outcomes.assert_often(&["more than a response", "more than a refusal"], 300);
}

#[test]
fn sizes_are_those_of_the_reference() {
    assert_eq!(razidkot_client::STATE_SIZE, STATE_SIZE);
    assert_eq!(reference::CLIENT_SIZE, STATE_SIZE);
    assert_eq!(reference::LONGEST_READABLE_RESPONSE, LONGEST_RESPONSE);
    let least = razidkot_client::LEAST_REQUEST_BUFFER;
    assert_eq!(least, reference::MIN_REQUEST_BUFFER);
}
