//! Where a body broke: what the compiled service answers to a body that can't be read, byte for byte the
//! reference's, and what the compiled client reads of it. Document 02, "Where the body broke".

use razidkot_tests::ask::*;
use razidkot_tests::client_program::RESPONSE;
use razidkot_tests::client_states::{hand_over, Awaited};
use razidkot_tests::generate::{long_varint, message, mutated, Random};
use razidkot_tests::lent::Lent;
use razidkot_tests::oracle::{bytes_field, number_field, varint};
use razidkot_tests::run::{for_seeds, Outcomes};
use razidkot_tests::unlisted::{Class, Sample};
use reference::Output;

const APPLICATION: &[u8] = b"scanner";

fn lent() -> Lent {
    Lent::fresh(&registry_of(&[APPLICATION.to_vec()]), b"")
}

/// What both answer to a request with this body.
fn asked(opcode: u16, body: &[u8]) -> (u16, Vec<u8>) {
    lent().ask_both(opcode, Some(APPLICATION), body)
}

/// Status 7 with this offset to every operation; the client reads the same from the answer.
fn expect_offset(body: &[u8], offset: usize) {
    for opcode in OPCODES {
        let mut lent = lent();
        let before = lent.registry.clone();
        let request = request(opcode, Some(APPLICATION), body);
        let answer = lent.call_both(&request);
        let response = lent.response()[..answer.written].to_vec();
        assert_eq!(response[24..26], [7, 0], "{body:02X?}");
        assert_eq!(
            response[26..],
            number_field(1, offset as u64),
            "{body:02X?}"
        );
        assert!(lent.registry == before, "a refused request changes nothing");
        let awaited = Awaited::protobuf(opcode, opcode.into());
        let said = hand_over(awaited, &[&response]).expect("no difference");
        assert_eq!((said[0].code, said[0].status), (RESPONSE, 7));
        assert_eq!(said[0].output, Output::Offset(offset as u32));
    }
}

/// A class of fields that are skipped, or of damage, behind and before other fields: the offset is
/// that of the damaged field's tag, or of the outermost group that it stands in.
#[test]
fn every_class_of_damage_at_every_place_has_its_fields_offset() {
    let mut outcomes = Outcomes::default();
    for_seeds(40, |random| {
        for class in Class::all() {
            let sample = Sample::of(random, class);
            let count = random.pick(&[0, 1, 2, 5]);
            let before: Vec<u8> = (0..count)
                .flat_map(|_| Sample::of(random, Class::Depth(random_depth(count))).bytes)
                .collect();
            let behind = match sample.is_cut {
                true => Vec::new(),
                false => random.pick(&[Vec::new(), vec![0x30, 1], vec![0x00], vec![0x0E]]),
            };
            let body = [&before[..], &sample.bytes, &behind].concat();
            // Longer ones are oversized.
            let is_read = body.len() <= 4_096;
            if let Some(at) = sample.unreadable_at.filter(|_| is_read) {
                expect_offset(&body, before.len() + at);
                outcomes.count(class.to_string());
            }
        }
    });
    let damaged = Class::all().into_iter().filter(|class| !class.is_skipped());
    let damaged: Vec<_> = damaged.map(|class| class.to_string()).collect();
    outcomes.assert_often(&damaged, 10);
}

fn random_depth(count: usize) -> usize {
    [0, 1, 16, 2, 0, 3][count % 6]
}

/// Cut at every byte, a body breaks at the field that is cut.
#[test]
fn a_body_cut_anywhere_breaks_at_the_cut_field() {
    let fields = [
        bytes_field(1, b"key"),
        bytes_field(2, &[0xDA; 200]),
        number_field(3, 2_048),
        [vec![0x20], long_varint(1, 10)].concat(),
        [vec![0x33], number_field(1, 7), vec![0x3B, 0x3C, 0x34]].concat(),
        [varint(9 << 3 | 1), vec![0xFF; 8]].concat(),
        [varint(0x1FFF_FFFF << 3 | 5), vec![0xFF; 4]].concat(),
    ];
    let mut start = 0;
    let whole = fields.concat();
    for field in &fields {
        for length in 1..field.len() {
            expect_offset(&whole[..start + length], start);
        }
        start += field.len();
    }
}

#[test]
fn offsets_of_every_width_are_written() {
    for fields in [0, 1, 63, 64, 65, 1_000, 2_047] {
        let body = [[0x30, 0x01].repeat(fields), vec![0x0F]].concat();
        expect_offset(&body, 2 * fields);
    }
    let last = [[0x30, 0x01].repeat(2_047), vec![0x30, 0x80]].concat();
    assert_eq!(last.len(), 4_096);
    expect_offset(&last, 4_094);
}

/// The fields before the offset are readable: cut there, the body no longer breaks.
#[test]
fn a_body_cut_at_its_offset_is_readable() {
    let mut broken = 0;
    for_seeds(20_000, |random| {
        let (opcode, body) = some_body(random);
        let (status, answer) = asked(opcode, &body);
        if status == DESERIALIZING_BODY_FAILED {
            broken += 1;
            let offset = offset_in(&answer);
            assert!(offset < body.len());
            assert_ne!(asked(opcode, &body[..offset]).0, status, "{body:02X?}");
        } else if status != SUCCESS {
            assert_eq!(answer, [], "a refused request has an empty body");
        }
    });
    assert!(broken > 2_000, "{broken}");
}

fn some_body(random: &mut Random) -> (u16, Vec<u8>) {
    let opcode = random.pick(&OPCODES);
    let wire_types: &[u64] = match opcode {
        IMPORT => &[2, 2, 0, 0, 0],
        VERIFY => &[2, 2, 2],
        EXPORT | DESTROY => &[2],
        LIST_OPCODES => &[0],
        _ => &[],
    };
    let body = message(random, wire_types);
    match random.below(3) {
        0 => (opcode, body),
        _ => (opcode, mutated(random, body)),
    }
}

/// Field 1 as it is written: the shortest varint, left out when 0.
fn offset_in(body: &[u8]) -> usize {
    let septets = body.iter().skip(1).rev();
    let offset = septets.fold(0, |number, byte| number << 7 | u64::from(byte & 0x7F));
    assert_eq!(body, number_field(1, offset));
    offset as usize
}

#[test]
fn a_refusal_before_the_body_is_read_has_no_offset() {
    let unreadable = [0x30, 0x01, 0x0E];
    let (status, body) = lent().ask_both(EXPORT, Some(b"nobody"), &unreadable);
    assert_eq!((status, body), (AUTHENTICATION_ERROR, Vec::new()));
    let (status, body) = lent().ask_both(EXPORT, None, &unreadable);
    assert_eq!((status, body), (19, Vec::new()));
}
