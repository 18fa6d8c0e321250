//! Fields that are skipped and groups that are not, between the fields of messages, through the leaf
//! that reads bodies, through the service and through the client's reader, against the oracle and the
//! reference. Document 02, "Unlisted fields".

use razidkot_tests::ask::*;
use razidkot_tests::bodies::{bytes_of, is_read_as_the_oracle_reads_it};
use razidkot_tests::client_program::{Said, RESPONSE, UNREADABLE_BODY};
use razidkot_tests::client_responses::{response, LONGEST_CONTENT};
use razidkot_tests::client_states::{hand_over, Awaited};
use razidkot_tests::foreign::{self, Schema};
use razidkot_tests::generate::Random;
use razidkot_tests::layout::Key;
use razidkot_tests::oracle::{bytes_field, number_field};
use razidkot_tests::run::{assert_agree, for_seeds, shortest, Outcomes};
use razidkot_tests::service;
use razidkot_tests::unlisted::{whole_field, Class, Sample, DEEPEST_GROUP, WIRE_TYPES};

const APPLICATION: &[u8] = b"application";
const KEY_NAME: &[u8] = b"k";
const SESSION: u64 = 0x0102_0304_0506_0708;

// ---- messages with a sample between their fields

/// Where the sample stands among a message's own fields.
struct Mixed {
    /// The message's own fields alone.
    plain: Vec<u8>,
    body: Vec<u8>,
    undamaged: Vec<u8>,
    unreadable_at: Option<usize>,
}

impl Mixed {
    fn of(random: &mut Random, own: &[Vec<u8>], sample: &Sample) -> Mixed {
        let place = match sample.is_cut {
            true => own.len(),
            false => random.below(own.len() + 1),
        };
        let (before, behind) = (own[..place].concat(), own[place..].concat());
        Mixed {
            plain: own.concat(),
            body: [&before, &sample.bytes, &behind[..]].concat(),
            undamaged: [&before, &sample.undamaged, &behind[..]].concat(),
            unreadable_at: sample.unreadable_at.map(|at| before.len() + at),
        }
    }
}

/// The listed fields of a message; those of a request that is served more often than not.
fn own_fields(random: &mut Random, schema: Schema) -> Vec<Vec<u8>> {
    let name = random.pick(&[KEY_NAME.to_vec(), b"new".to_vec(), Vec::new()]);
    let mut fields = match schema {
        Schema::NoFields => vec![],
        Schema::ListOpcodes => vec![number_field(1, random.pick(&[1, 2]))],
        Schema::Name => vec![bytes_field(1, &name)],
        Schema::Import => vec![
            bytes_field(1, &name),
            bytes_field(2, b"data"),
            number_field(3, 2_048),
            number_field(4, random.number()),
            number_field(5, random.number()),
        ],
    };
    random.shuffle(&mut fields);
    if random.once_in(4) {
        fields.pop();
    }
    fields
}

fn opcodes(schema: Schema) -> &'static [u16] {
    match schema {
        Schema::NoFields => &[PING, LIST_PROVIDERS],
        Schema::ListOpcodes => &[LIST_OPCODES],
        Schema::Import => &[IMPORT],
        Schema::Name => &[EXPORT, DESTROY],
    }
}

// ---- through the leaf

/// The bytes and the number of each field, or where the body is unreadable.
fn read_by_leaf(body: &[u8], schema: Schema) -> Result<Vec<(Vec<u8>, u64)>, usize> {
    assert_agree(body, |body| is_read_as_the_oracle_reads_it(body, schema));
    let values = foreign::read_body(body, schema)?;
    let value = |value: &foreign::Value| (bytes_of(body, value).to_vec(), value.number);
    Ok(values.iter().map(value).collect())
}

fn compare_by_leaf(mixed: &Mixed, schema: Schema) -> bool {
    let expected = read_by_leaf(&mixed.plain, schema);
    assert_eq!(read_by_leaf(&mixed.undamaged, schema), expected);
    let read = read_by_leaf(&mixed.body, schema);
    match mixed.unreadable_at {
        None => assert_eq!(read, expected, "{:02X?}", mixed.body),
        Some(at) => assert_eq!(read, Err(at), "{:02X?}", mixed.body),
    }
    read.is_ok()
}

// ---- through the service

/// A key, then a request with this body of each operation that has the message, then an export.
fn stream_of(body: &[u8], schema: Schema) -> Vec<u8> {
    let key = Key {
        name: KEY_NAME.to_vec(),
        data: b"exported".to_vec(),
        bits: 2_048,
        export_allowed: true,
        verify_allowed: false,
    };
    let mut stream = request(IMPORT, Some(APPLICATION), &import_body(&key));
    for &opcode in opcodes(schema) {
        stream.extend(request(opcode, Some(APPLICATION), body));
    }
    stream.extend(request(EXPORT, Some(APPLICATION), &name_body(b"new")));
    stream
}

/// The responses, which are those of the reference however the stream is cut.
fn responses_to(body: &[u8], schema: Schema, sizes: &[usize]) -> Vec<Vec<u8>> {
    let stream = stream_of(body, schema);
    service::responses(&[APPLICATION.to_vec()], &stream, sizes)
}

fn status(response: &[u8]) -> u16 {
    u16::from_le_bytes([response[24], response[25]])
}

fn some_sizes(random: &mut Random) -> Vec<usize> {
    let longest = random.pick(&[7, 60, 5_000]);
    (0..5).map(|_| 1 + random.below(longest)).collect()
}

fn compare_by_service(random: &mut Random, mixed: &Mixed, schema: Schema) -> bool {
    let sizes = some_sizes(random);
    let expected = responses_to(&mixed.plain, schema, &sizes);
    assert_eq!(responses_to(&mixed.undamaged, schema, &sizes), expected);
    let responses = responses_to(&mixed.body, schema, &sizes);
    let Some(at) = mixed.unreadable_at else {
        assert_eq!(responses, expected, "{:02X?}", mixed.body);
        return true;
    };
    for (place, _) in opcodes(schema).iter().enumerate() {
        let response = &responses[1 + place];
        assert_eq!(status(response), DESERIALIZING_BODY_FAILED);
        assert_eq!(response[26..], number_field(1, at as u64), "the offset");
    }
    false
}

// ---- through the client's reader

/// The listed fields of a response's body.
fn own_output(random: &mut Random, opcode: u16) -> Vec<Vec<u8>> {
    match opcode {
        PING => vec![
            number_field(1, random.number()),
            number_field(2, random.number()),
        ],
        LIST_PROVIDERS | LIST_OPCODES => vec![bytes_field(1, &[1, 0x88, 0x00, 9])],
        EXPORT => vec![bytes_field(1, &random.bytes(20))],
        _ => vec![],
    }
}

/// What the compiled reader says of a whole response with this body, which is what the reference's
/// does, uncut and cut in two.
fn read_by_client(random: &mut Random, opcode: u16, body: &[u8]) -> Said {
    let awaited = Awaited::protobuf(opcode, SESSION);
    let differs = |body: &[u8]| hand_over(awaited, &[&response(awaited, 0, body)]).is_err();
    if differs(body) {
        panic!("{opcode}: {:02X?}", shortest(body, differs));
    }
    let bytes = response(awaited, 0, body);
    let (first, second) = bytes.split_at(random.below(bytes.len() + 1));
    let said = hand_over(awaited, &[first, second]).expect("the same however it is cut");
    Said {
        taken: said.iter().map(|said| said.taken).sum(),
        ..said.last().expect("the empty chunk's").clone()
    }
}

fn compare_by_client(random: &mut Random, mixed: &Mixed, opcode: u16) -> bool {
    let expected = read_by_client(random, opcode, &mixed.plain);
    assert_eq!(expected.code, RESPONSE);
    let undamaged = read_by_client(random, opcode, &mixed.undamaged);
    assert_eq!(undamaged.output, expected.output);
    let said = read_by_client(random, opcode, &mixed.body);
    assert_eq!(said.taken, 26 + mixed.body.len());
    match mixed.unreadable_at {
        None => assert_eq!((said.code, said.output), (RESPONSE, expected.output)),
        Some(_) => assert_eq!(said.code, UNREADABLE_BODY, "{:02X?}", mixed.body),
    }
    said.code == RESPONSE
}

// ---- every class

/// Makes pieces of each class, and sees that both sides of each bound were reached: `compare` says
/// whether the body with the sample was read.
fn compare_each_class(seeds: u64, mut compare: impl FnMut(&mut Random, &Sample) -> Option<bool>) {
    let mut outcomes = Outcomes::default();
    for class in Class::all() {
        for_seeds(seeds, |random| {
            let sample = Sample::of(random, class);
            if let Some(was_read) = compare(random, &sample) {
                outcomes.count(format!("{class}, read {was_read}"));
            }
        });
    }
    let expected = Class::all().into_iter().map(|class| {
        let is_skipped = class.is_skipped();
        format!("{class}, read {is_skipped}")
    });
    outcomes.assert_often(&expected.collect::<Vec<_>>(), seeds / 2);
}

#[test]
fn the_leaf_skips_or_refuses_each_class_in_each_message() {
    for schema in Schema::ALL {
        compare_each_class(200, |random, sample| {
            let own = own_fields(random, schema);
            let mixed = Mixed::of(random, &own, sample);
            Some(compare_by_leaf(&mixed, schema))
        });
    }
}

#[test]
fn the_service_skips_or_refuses_each_class_in_each_request() {
    for schema in Schema::ALL {
        compare_each_class(20, |random, sample| {
            let own = own_fields(random, schema);
            let mixed = Mixed::of(random, &own, sample);
            Some(compare_by_service(random, &mixed, schema))
        });
    }
}

/// A body that is longer than content may be is left out.
#[test]
fn the_client_skips_or_refuses_each_class_in_each_response() {
    for opcode in OPCODES {
        compare_each_class(40, |random, sample| {
            let own = own_output(random, opcode);
            let mixed = Mixed::of(random, &own, sample);
            let longest = mixed.body.len().max(mixed.undamaged.len());
            (longest <= LONGEST_CONTENT).then(|| compare_by_client(random, &mixed, opcode))
        });
    }
}

// ---- listed numbers with another wire type

/// Pairs of a good field and one of its number that is skipped, in both orders.
fn with_another_wire_type(own: &[u64], mut compare: impl FnMut(&mut Random, u64, Mixed)) {
    for (number, &own_type) in (1..).zip(own) {
        for wire_type in WIRE_TYPES.into_iter().filter(|&other| other != own_type) {
            for_seeds(20, |random| {
                let good = good_field(random, number, own_type);
                let other = whole_field(random, number, wire_type);
                for body in [[&good[..], &other], [&other, &good]] {
                    let mixed = Mixed {
                        plain: good.clone(),
                        body: body.concat(),
                        undamaged: good.clone(),
                        unreadable_at: None,
                    };
                    compare(random, number, mixed);
                }
            });
        }
    }
}

/// Neither 0 nor empty, so that it is seen to stand. Bytes that are a list's, too.
fn good_field(random: &mut Random, number: u64, wire_type: u64) -> Vec<u8> {
    match wire_type {
        0 => number_field(number, random.pick(&[1, 0x80, 0xFFFF_FFFF])),
        _ => bytes_field(number, random.pick(&[&b"k"[..], &[0x81, 0x01], &[7; 30]])),
    }
}

#[test]
fn a_listed_number_with_another_wire_type_is_skipped_before_and_behind_a_good_field() {
    let mut compared = 0;
    for schema in Schema::ALL {
        with_another_wire_type(schema.wire_types(), |random, number, mixed| {
            assert!(compare_by_leaf(&mixed, schema));
            assert!(compare_by_service(random, &mixed, schema));
            let read = read_by_leaf(&mixed.body, schema).expect("a body that is read");
            assert_ne!(read[number as usize - 1], (Vec::new(), 0), "it stands");
            compared += 1;
        });
    }
    // Seven listed fields, four other wire types, both orders, 20 seeds.
    assert_eq!(compared, 7 * 4 * 2 * 20);
}

#[test]
fn the_client_skips_listed_numbers_with_another_wire_type_unpacked_lists_too() {
    let mut compared = 0;
    for opcode in OPCODES {
        let own: &[u64] = match opcode {
            PING => &[0, 0],
            LIST_PROVIDERS | LIST_OPCODES | EXPORT => &[2],
            _ => &[],
        };
        with_another_wire_type(own, |random, _, mixed| {
            assert!(compare_by_client(random, &mixed, opcode));
            compared += 1;
        });
    }
    assert_eq!(compared, 5 * 4 * 2 * 20);
}

// ---- cuts at every byte

/// Bodies of whole fields, groups of every depth among them, cut at every byte.
fn cut_everywhere(seeds: u64, mut compare: impl FnMut(&mut Random, &[u8]) -> bool) {
    let mut outcomes = Outcomes::default();
    for depth in 0..=DEEPEST_GROUP {
        for_seeds(seeds, |random| {
            let sample = Sample::of(random, Class::Depth(depth));
            let fields = [&sample.bytes[..], &bytes_field(1, b"k")].concat();
            for length in 0..=fields.len() {
                let was_read = compare(random, &fields[..length]);
                outcomes.count(format!("depth {depth}, read {was_read}"));
                let is_between = [0, sample.bytes.len(), fields.len()].contains(&length);
                assert_eq!(was_read, is_between, "{length} of {fields:02X?}");
            }
        });
    }
    let expected = (0..=DEEPEST_GROUP)
        .flat_map(|depth| [true, false].map(|was_read| format!("depth {depth}, read {was_read}")));
    outcomes.assert_often(&expected.collect::<Vec<_>>(), seeds);
}

#[test]
fn a_body_cut_at_any_byte_is_read_alike_by_the_leaf() {
    for schema in Schema::ALL {
        cut_everywhere(20, |_, body| read_by_leaf(body, schema).is_ok());
    }
}

#[test]
fn a_body_cut_at_any_byte_is_read_alike_by_the_service() {
    for schema in Schema::ALL {
        cut_everywhere(1, |random, body| {
            let responses = responses_to(body, schema, &some_sizes(random));
            status(&responses[1]) != DESERIALIZING_BODY_FAILED
        });
    }
}

#[test]
fn a_body_cut_at_any_byte_is_read_alike_by_the_client() {
    for opcode in OPCODES {
        cut_everywhere(1, |random, body| {
            read_by_client(random, opcode, body).code == RESPONSE
        });
    }
}

// ---- groups side by side, and long bodies

/// So many groups of this depth, one behind the other, in a body of at most 4,096 bytes.
fn side_by_side(depth: usize) -> Vec<u8> {
    let group = [vec![0x33; depth], vec![0x34; depth]].concat();
    group.repeat(4_096 / group.len())
}

#[test]
fn groups_side_by_side_do_not_add_up() {
    for depth in 1..=DEEPEST_GROUP + 2 {
        let body = side_by_side(depth);
        let expected = match depth {
            1..=DEEPEST_GROUP => SUCCESS,
            _ => DESERIALIZING_BODY_FAILED,
        };
        let responses = responses_to(&body, Schema::NoFields, &[4_096]);
        let statuses: Vec<_> = responses[1..3].iter().map(|one| status(one)).collect();
        assert_eq!(statuses, [expected; 2], "depth {depth}");
        let read = read_by_leaf(&body, Schema::Import);
        assert_eq!(read.is_ok(), expected == SUCCESS, "depth {depth}");
    }
}

/// Bytes are not looked into, and those of a group would be damaged.
#[test]
fn bytes_of_a_skipped_field_are_not_looked_into() {
    for_seeds(500, |random| {
        let length = random.below(40);
        let bytes = bytes_field(6, &[&[0x0F][..], &random.bytes(length)].concat());
        for body in [bytes.clone(), [&[0x3B][..], &bytes, &[0x3C]].concat()] {
            assert!(read_by_leaf(&body, Schema::Import).is_ok());
            let said = read_by_client(random, PING, &body);
            assert_eq!(said.code, RESPONSE);
        }
    });
}

/// Any bytes inside groups of some depth: mostly unreadable, and both say so alike.
#[test]
fn any_bytes_inside_groups_are_read_alike() {
    let mut outcomes = Outcomes::default();
    for_seeds(60_000, |random| {
        let depth = random.pick(&[1, 2, 15, 16, 17]);
        let length = random.below(6);
        let inside: Vec<_> = (0..length)
            .map(|_| random.pick(&[0x00, 0x01, 0x33, 0x34, 0x3B, 0x3C, 0x08, 0x0A, 0x80, 0x36]))
            .collect();
        let body = [vec![0x33; depth], inside, vec![0x34; depth]].concat();
        let was_read = read_by_leaf(&body, Schema::Name).is_ok();
        outcomes.count(was_read);
        if random.once_in(20) {
            let opcode = random.pick(&OPCODES);
            let said = read_by_client(random, opcode, &body);
            assert_eq!(said.code == RESPONSE, was_read);
        }
    });
    outcomes.assert_often(&[true, false], 5_000);
}
