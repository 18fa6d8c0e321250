//! Responses cut in any way, and the reader's state in lent memory.
//! Document 02, "The client's half"; the memory's layout is the one set down in docs/.

mod common;

use common::client::*;
use common::generate::Random;
use reference::{
    client_begin, client_read, BodyFormat, IllFormed, Opcode, Output, ReadRefusal, Reading,
    WrongSize, CLIENT_SIZE, LONGEST_READABLE_RESPONSE,
};

/// Responses that are refused, one for each refusal, with the operation that they are for.
fn refused_responses() -> Vec<(Opcode, RawResponse)> {
    let changes: [fn(&mut RawResponse); 8] = [
        |raw| raw.magic[0] = 0,
        |raw| raw.header_size = 19,
        |raw| raw.major = 2,
        |raw| raw.content_type = 0,
        |raw| raw.session = 0,
        |raw| raw.content_length = Some(999),
        |raw| raw.body = vec![0xFF; 40],
        |raw| raw.status = 1,
    ];
    let damaged = |change: fn(&mut RawResponse)| {
        let mut raw = RawResponse::to(EXPORT, &[0x0A, 3, 1, 2, 3]);
        change(&mut raw);
        (EXPORT, raw)
    };
    changes.map(damaged).to_vec()
}

// Cuts.

#[test]
fn every_cut_into_two_reads_the_same_as_uncut() {
    for (opcode, raw) in [good_responses(), refused_responses()].concat() {
        let bytes = [raw.bytes(), vec![0x10, 0xA7, 0xC0]].concat();
        let uncut = read_protobuf(opcode, SESSION, &bytes);
        assert_ne!(uncut.reading, Reading::Waiting);
        for cut in 0..=bytes.len() {
            let chunks = [&bytes[..cut], &bytes[cut..]];
            let answer =
                Client::begin(opcode, SESSION, BodyFormat::Protobuf).read_all(chunks.into_iter());
            assert_eq!(answer, uncut, "cut at {cut}: {raw:X?}");
        }
    }
}

#[test]
fn single_bytes_read_the_same_as_uncut() {
    for (opcode, raw) in [good_responses(), refused_responses()].concat() {
        let bytes = [raw.bytes(), vec![0x10, 0xA7, 0xC0]].concat();
        let uncut = read_protobuf(opcode, SESSION, &bytes);
        let answer = Client::begin(opcode, SESSION, BodyFormat::Protobuf).read_all(bytes.chunks(1));
        assert_eq!(answer, uncut);
    }
}

#[test]
fn every_cut_of_a_short_response_into_three_reads_the_same_as_uncut() {
    let raw = RawResponse::to(LIST_PROVIDERS, &[0x0A, 0x02, 0x00, 0x01]);
    let bytes = raw.bytes();
    let expected = response(30, 0, Output::Providers(vec![0, 1]));
    for first in 0..=bytes.len() {
        for second in first..=bytes.len() {
            let chunks = [&bytes[..first], &bytes[first..second], &bytes[second..]];
            let client = Client::begin(LIST_PROVIDERS, SESSION, BodyFormat::Protobuf);
            assert_eq!(client.read_all(chunks.into_iter()), expected);
        }
    }
}

#[test]
fn the_byte_that_brings_a_refusal_is_taken_and_no_byte_behind_it() {
    let taken = [6, 6, 26, 26, 26, 26, 66, 31];
    for ((opcode, raw), taken) in refused_responses().into_iter().zip(taken) {
        let bytes = [raw.bytes(), vec![0; 100]].concat();
        let mut client = Client::begin(opcode, SESSION, BodyFormat::Protobuf);
        assert_eq!(client.read(&bytes).taken, taken);
    }
}

#[test]
fn past_a_response_or_a_refusal_nothing_is_taken_and_the_same_is_said() {
    for (opcode, raw) in [good_responses(), refused_responses()].concat() {
        let mut client = Client::begin(opcode, SESSION, BodyFormat::Protobuf);
        let said = client.read(&raw.bytes()).reading;
        for chunk in [&[][..], &[0x10], &raw.bytes(), &[0xFF; 2_000]] {
            let answer = client.read(chunk);
            assert_eq!(answer.taken, 0);
            assert_eq!(answer.reading, said);
        }
    }
}

#[test]
fn an_empty_chunk_is_taken_and_alters_nothing() {
    for (opcode, raw) in good_responses() {
        let bytes = raw.bytes();
        for length in 0..bytes.len() {
            let mut client = Client::begin(opcode, SESSION, BodyFormat::Protobuf);
            assert_eq!(client.read(&bytes[..length]), waiting(length));
            assert_eq!(client.read(&[]), waiting(0));
        }
    }
}

#[test]
fn a_chunk_of_any_length_is_read() {
    for (opcode, raw) in good_responses() {
        let bytes = raw.bytes();
        let chunk = [bytes.clone(), vec![0x10; 100_000]].concat();
        let answer = Client::begin(opcode, SESSION, BodyFormat::Protobuf).read(&chunk);
        assert_eq!(answer.taken, bytes.len());
        assert_eq!(answer, read_protobuf(opcode, SESSION, &bytes));
    }
}

#[test]
fn of_two_responses_in_one_chunk_the_first_is_read() {
    let bytes = RawResponse::to(EXPORT, &[0x0A, 1, 1]).bytes();
    let next = RawResponse::to(EXPORT, &[0x0A, 1, 2]).bytes();
    let both = [&bytes[..], &next].concat();
    let first = Client::begin(EXPORT, SESSION, BodyFormat::Protobuf).read(&both);
    assert_eq!(first, response(29, 0, Output::Data(vec![1])));
    let second = Client::begin(EXPORT, SESSION, BodyFormat::Protobuf).read(&both[first.taken..]);
    assert_eq!(second, response(29, 0, Output::Data(vec![2])));
}

/// Changes one byte, or cuts the response short, or neither; then more bytes follow or none.
fn damage(random: &mut Random, bytes: &mut Vec<u8>) {
    match random.below(4) {
        0 => {
            let place = random.below(bytes.len());
            bytes[place] ^= 1 << random.below(8);
        }
        1 => bytes.truncate(random.below(bytes.len() + 1)),
        _ => {}
    }
    let length = random.below(40);
    bytes.extend(random.bytes(length));
}

#[test]
fn generated_cuts_of_generated_responses_read_the_same_as_uncut() {
    let responses = [good_responses(), refused_responses()].concat();
    for seed in 0..20_000 {
        let random = &mut Random::new(seed);
        let (opcode, raw) = random.pick(&responses);
        let mut bytes = raw.bytes();
        damage(random, &mut bytes);
        let longest = random.pick(&[2, 10, 40, 2_000]);
        let mut chunks = Vec::new();
        let mut rest = &bytes[..];
        while !rest.is_empty() {
            let (chunk, behind) = rest.split_at(random.below(longest + 1).min(rest.len()));
            chunks.push(chunk);
            rest = behind;
        }
        let answer =
            Client::begin(opcode, SESSION, BodyFormat::Protobuf).read_all(chunks.into_iter());
        let uncut = read_protobuf(opcode, SESSION, &bytes);
        assert_eq!(answer, uncut, "seed {seed}, {opcode:?}, {bytes:X?}");
    }
}

// The state in lent memory.

#[test]
fn the_memory_has_1037_bytes_1024_of_them_for_the_response() {
    assert_eq!(CLIENT_SIZE, 1_037);
    assert_eq!(LONGEST_READABLE_RESPONSE, 1_024);
}

#[test]
fn a_fresh_state_is_opcode_session_accept_type_and_zeros_whatever_lay_there() {
    for (opcode, (number, _)) in OPCODES.into_iter().zip(NUMBERS) {
        for filler in [0x00, 0x55, 0xFF] {
            let mut memory = vec![filler; CLIENT_SIZE];
            let session = 0x0102_0304_0506_0708;
            assert_eq!(
                client_begin(&mut memory, opcode, session, BodyFormat::Protobuf),
                Ok(())
            );
            let first = [number as u8, 0, 8, 7, 6, 5, 4, 3, 2, 1, 1, 0, 0];
            assert_eq!(memory[..13], first);
            assert_eq!(memory[13..], [0; 1_024]);
        }
    }
}

#[test]
fn memory_of_another_size_is_not_begun_and_stays() {
    for size in [0, 1, 13, CLIENT_SIZE - 1, CLIENT_SIZE + 1, 2 * CLIENT_SIZE] {
        let mut memory = vec![0x55; size];
        assert_eq!(
            client_begin(&mut memory, PING, 1, BodyFormat::Protobuf),
            Err(WrongSize)
        );
        assert_eq!(memory, vec![0x55; size]);
    }
}

#[test]
fn the_bytes_taken_stand_behind_their_count() {
    let bytes = RawResponse::to(PING, &[0x08, 0x01]).bytes();
    let mut memory = client_memory(1, SESSION, 0, &[]);
    assert_eq!(client_read(&mut memory, &bytes[..27]), Ok(waiting(27)));
    assert_eq!(memory[..2], [1, 0]);
    assert_eq!(memory[2..10], SESSION.to_le_bytes());
    assert_eq!(memory[10..13], [1, 27, 0]);
    assert_eq!(memory[13..40], bytes[..27]);
    assert_eq!(memory[40..], [0; 1_037 - 40]);
}

/// Hands chunks to an ill-formed state, each refused with nothing changed.
fn expect_ill_formed(mut memory: Vec<u8>) {
    let before = memory.clone();
    let response = RawResponse::to(PING, &[0x08, 0x01]).bytes();
    for chunk in [&[][..], &[0x10], &response] {
        assert_eq!(client_read(&mut memory, chunk), Err(IllFormed));
        assert_eq!(memory, before, "a refused state stays");
    }
}

#[test]
fn a_state_of_another_size_is_ill_formed() {
    for size in [0, 1, 13, CLIENT_SIZE - 1, CLIENT_SIZE + 1, 2 * CLIENT_SIZE] {
        let mut memory = vec![0; size];
        if size > 1 {
            memory[0] = 1;
        }
        expect_ill_formed(memory);
    }
}

#[test]
fn a_state_of_an_unlisted_opcode_is_ill_formed() {
    let listed = NUMBERS.map(|(number, _)| number);
    for opcode in 0..=u16::MAX {
        let memory = client_memory(opcode, SESSION, 0, &[]);
        if listed.contains(&opcode) {
            assert_eq!(client_read(&mut memory.clone(), &[]), Ok(waiting(0)));
        } else {
            expect_ill_formed(memory);
        }
    }
}

#[test]
fn a_state_of_more_than_1024_held_bytes_is_ill_formed() {
    for held in [1_025, 1_026, 0x8000, u16::MAX] {
        expect_ill_formed(client_memory(1, SESSION, held, &[]));
        expect_ill_formed(client_memory(1, SESSION, held, &[0xFF; 1_024]));
    }
    let mut memory = client_memory(1, SESSION, 1_024, &[0xFF; 1_024]);
    let answer = client_read(&mut memory, &[0]);
    assert_eq!(answer, Ok(refused(0, ReadRefusal::WrongMagic)));
}

#[test]
fn a_byte_behind_the_held_ones_that_is_not_zero_is_ill_formed() {
    let bytes = RawResponse::to(PING, &[0x08, 0x01]).bytes();
    for held in [0, 5, 27, 28] {
        for place in held..1_024 {
            let mut memory = client_memory(1, SESSION, held as u16, &bytes[..held]);
            for bit in [0, 7] {
                memory[13 + place] = 1 << bit;
                expect_ill_formed(memory.clone());
            }
        }
    }
    expect_ill_formed({
        let mut memory = client_memory(1, SESSION, 1_023, &[0x10; 1_023]);
        memory[CLIENT_SIZE - 1] = 1;
        memory
    });
}

/// A state with these bytes held takes nothing, stays, and says this.
fn expect_said(opcode: u16, held: &[u8], said: Reading) {
    let before = client_memory(opcode, SESSION, held.len() as u16, held);
    let mut memory = before.clone();
    for chunk in [&[][..], &[0x10; 30], &[0; 2_000]] {
        let answer = client_read(&mut memory, chunk).expect("a well-formed state");
        assert_eq!(answer.taken, 0);
        assert_eq!(answer.reading, said);
        assert_eq!(memory, before);
    }
}

#[test]
fn held_bytes_behind_a_response_are_ignored() {
    for (opcode, raw) in good_responses() {
        let bytes = raw.bytes();
        let said = read_protobuf(opcode, SESSION, &bytes).reading;
        for length in [bytes.len(), bytes.len() + 1, 1_024] {
            let mut held = bytes.clone();
            held.resize(length.min(1_024), 0xEE);
            expect_said(opcode.number(), &held, said.clone());
        }
    }
}

#[test]
fn held_bytes_behind_a_refusal_are_ignored() {
    for (opcode, raw) in refused_responses() {
        let bytes = raw.bytes();
        let answer = read_protobuf(opcode, SESSION, &bytes);
        for length in [answer.taken, answer.taken + 1, 1_023, 1_024] {
            let mut held = bytes.clone();
            held.resize(length, 0xEE);
            expect_said(opcode.number(), &held, answer.reading.clone());
        }
    }
}

#[test]
fn a_state_that_reading_did_not_leave_is_read_on_from_its_held_bytes() {
    let bytes = RawResponse::to(EXPORT, &[0x0A, 2, 1, 2]).bytes();
    for held in 0..bytes.len() {
        let mut memory = client_memory(7, SESSION, held as u16, &bytes[..held]);
        let answer = client_read(&mut memory, &bytes[held..]);
        let expected = response(bytes.len() - held, 0, Output::Data(vec![1, 2]));
        assert_eq!(answer, Ok(expected));
        let length = bytes.len() as u16;
        assert_eq!(memory, client_memory(7, SESSION, length, &bytes));
    }
}

#[test]
fn every_state_that_reading_leaves_is_well_formed() {
    for (opcode, raw) in [good_responses(), refused_responses()].concat() {
        let mut memory = vec![0x55; CLIENT_SIZE];
        assert_eq!(
            client_begin(&mut memory, opcode, SESSION, BodyFormat::Protobuf),
            Ok(())
        );
        for chunk in raw.bytes().chunks(3) {
            assert!(client_read(&mut memory, chunk).is_ok());
        }
        assert!(client_read(&mut memory, &[]).is_ok());
    }
}
