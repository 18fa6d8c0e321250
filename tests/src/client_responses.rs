//! Responses from a seed, good and damaged, for a request whose response is awaited: document 02,
//! "The client's half", is what they are meant to reach all of.

use crate::ask::{record, EXPORT, LIST_OPCODES, LIST_PROVIDERS, OPCODES, PING};
use crate::client_asked::some_session;
use crate::client_program::*;
use crate::client_states::Awaited;
use crate::generate::{long_varint, message, mutated, Random};
use crate::oracle::{number_field, response_header, varint};
use crate::tagged::{bytes_record, list_record, number_record, LISTED_TYPES, TAGGED};
use razidkot::Status;

// Where a response has its fields.
pub const H_AT: usize = 4;
pub const MAJOR_AT: usize = 6;
pub const MINOR_AT: usize = 7;
pub const PROVIDER_AT: usize = 8;
pub const SESSION_AT: usize = 9;
pub const CONTENT_TYPE_AT: usize = 17;
pub const CONTENT_LENGTH_AT: usize = 18;
pub const OPCODE_AT: usize = 22;
pub const STATUS_AT: usize = 24;
pub const BODY_AT: usize = 26;

pub const LONGEST_CONTENT: usize = 998;
/// As much as content leaves room for behind a tag and a length of two bytes.
pub const LONGEST_FIELD: usize = LONGEST_CONTENT - 3;

pub fn some_awaited(random: &mut Random) -> Awaited {
    Awaited {
        opcode: random.pick(&OPCODES),
        session: some_session(random),
        accept_type: random.pick(&LISTED_TYPES),
    }
}

/// The response to it with this status and body.
pub fn response(awaited: Awaited, status: u16, body: &[u8]) -> Vec<u8> {
    let Awaited {
        opcode, session, ..
    } = awaited;
    let length = body.len() as u32;
    let mut header = response_header(awaited.provider(), session, length, opcode, status);
    header[CONTENT_TYPE_AT] = awaited.content_type(status);
    [&header[..], body].concat()
}

/// Status 17 with provider, session and opcode zero.
pub fn invalid_header(body: &[u8]) -> Vec<u8> {
    let header = response_header(0, 0, body.len() as u32, 0, Status::InvalidHeader.number());
    [&header[..], body].concat()
}

/// A field of wire type 2, empty ones written too.
pub fn placed_field(number: u64, bytes: &[u8]) -> Vec<u8> {
    [&varint(number << 3 | 2), &varint(bytes.len() as u64), bytes].concat()
}

pub fn set(response: &mut [u8], at: usize, field: &[u8]) {
    response[at..at + field.len()].copy_from_slice(field);
}

// ---- bodies

/// Packed entries of up to so many bytes, some of them longer than needed.
fn packed(random: &mut Random, most: usize) -> Vec<u8> {
    let mut packed = Vec::new();
    for _ in 0..random.pick(&[0, 1, 2, 3, 6, 700]) {
        let shortest = varint(random.number());
        let entry = match random.below(6) {
            0 => long_varint(random.word() >> 1, 10),
            1 => vec![0],
            _ => shortest,
        };
        if packed.len() + entry.len() <= most {
            packed.extend(entry);
        }
    }
    packed
}

/// A body with the output that is awaited, of up to so many bytes.
pub fn good_body(random: &mut Random, awaited: Awaited, most: usize) -> Vec<u8> {
    match awaited.accept_type {
        TAGGED => good_tagged_body(random, awaited.opcode, most),
        _ => good_protobuf_body(random, awaited.opcode, most),
    }
}

fn good_tagged_body(random: &mut Random, opcode: u16, most: usize) -> Vec<u8> {
    let room = most.saturating_sub(3);
    match opcode {
        PING => {
            let [major, minor] = [random.number() as u32, random.number() as u32];
            [number_record(1, major), number_record(2, minor)].concat()
        }
        LIST_PROVIDERS | LIST_OPCODES => {
            let count = random.pick(&[0, 1, 2, 3, room / 4]).min(room / 4);
            let entries: Vec<_> = (0..count).map(|_| random.number() as u32).collect();
            list_record(1, &entries)
        }
        EXPORT => {
            let length = random.pick(&[0, 1, 2, 33, room / 2, room]).min(room);
            bytes_record(1, &random.bytes(length))
        }
        _ => Vec::new(),
    }
}

/// A body of the second format: good, with a slip, or with a field that it has not.
fn some_tagged_body(random: &mut Random, opcode: u16) -> Vec<u8> {
    let most = random.pick(&[20, 60, LONGEST_CONTENT]);
    let body = good_tagged_body(random, opcode, most);
    let mut body = match random.below(10) {
        0 | 1 => mutated(random, body),
        2 => {
            let tag = random.pick(&[0, 1, 2, 3, 9, 255]);
            let length = random.pick(&[0, 1, 3, 4, 5, 8]);
            let value = random.pick(&[vec![0; length], vec![1; length]]);
            let field = record(tag, &value);
            match random.below(2) {
                0 => [body, field].concat(),
                _ => [field, body].concat(),
            }
        }
        3 => good_protobuf_body(random, opcode, most),
        4 => {
            let length = random.below(40);
            random.bytes(length)
        }
        _ => body,
    };
    body.truncate(LONGEST_CONTENT);
    body
}

fn good_protobuf_body(random: &mut Random, opcode: u16, most: usize) -> Vec<u8> {
    let room = most.saturating_sub(3);
    match opcode {
        PING => {
            let [major, minor] = [random.number(), random.number()];
            [number_field(1, major), number_field(2, minor)].concat()
        }
        LIST_PROVIDERS | LIST_OPCODES => placed_field(1, &packed(random, room)),
        EXPORT => {
            let length = random.pick(&[0, 1, 2, 33, room / 2, room]).min(room);
            placed_field(1, &random.bytes(length))
        }
        _ => Vec::new(),
    }
}

/// A list or data behind another, and either one broken now and then.
fn several(random: &mut Random, opcode: u16) -> Vec<u8> {
    let mut body = Vec::new();
    for _ in 0..2 + random.below(2) {
        let field = good_protobuf_body(random, opcode, 60);
        body.extend(match random.below(4) {
            0 => placed_field(1, &[&field[..], &[0x80]].concat()),
            _ => field,
        });
    }
    body
}

/// A body of any kind: good, of several fields, with unlisted fields or slips, or any bytes.
pub fn some_body(random: &mut Random, awaited: Awaited) -> Vec<u8> {
    let opcode = awaited.opcode;
    if awaited.accept_type == TAGGED {
        return some_tagged_body(random, opcode);
    }
    let wire_types: &[u64] = match opcode {
        PING => &[0, 0],
        LIST_PROVIDERS | LIST_OPCODES | EXPORT => &[2],
        _ => &[],
    };
    let mut body = match random.below(12) {
        0 | 1 => several(random, opcode),
        2 => message(random, wire_types),
        3 => {
            let body = good_protobuf_body(random, opcode, 60);
            mutated(random, body)
        }
        4 => {
            let unlisted: [&[u8]; 5] = [b"\x18\x01", b"\x1A\0", b"\x08\x05", b"\x0A\0", b"\x10\0"];
            [
                good_protobuf_body(random, opcode, 60),
                random.pick(&unlisted).to_vec(),
            ]
            .concat()
        }
        5 => {
            let length = random.below(40);
            random.bytes(length)
        }
        _ => {
            let most = random.pick(&[20, 60, LONGEST_CONTENT]);
            good_protobuf_body(random, opcode, most)
        }
    };
    body.truncate(LONGEST_CONTENT);
    body
}

/// Listed or not, and Success as often as not.
pub fn some_status(random: &mut Random) -> u16 {
    match random.below(8) {
        0..=3 => Status::Success.number(),
        4 => random.word() as u16,
        5 => random.pick(&[5, 8, 18, 21, 256, 1_132, 1_150, 0x1100, u16::MAX]),
        _ => random.pick(&Status::REFUSED).number(),
    }
}

/// A status 7 body: an offset, several of them, among unlisted fields or with a slip.
fn some_offset_body(random: &mut Random, accept_type: u8) -> Vec<u8> {
    if accept_type == TAGGED {
        let offset = number_record(1, random.pick(&[0, 1, 255, 256, 4_095, u32::MAX]));
        return match random.below(4) {
            0 => mutated(random, offset),
            1 => record(1, &random.pick(&[vec![0; 4], vec![1; 3], vec![1; 5]])),
            _ => offset,
        };
    }
    let offset = number_field(1, random.pick(&[0, 1, 127, 128, 4_095, 1 << 32 | 5]));
    let mut body = match random.below(8) {
        0 => Vec::new(),
        1 => [offset, vec![0x08], varint(random.number())].concat(),
        2 => message(random, &[0]),
        3 => mutated(random, offset),
        4 => [b"\x18\x01\x0A\x01\xFF".to_vec(), offset].concat(),
        _ => offset,
    };
    body.truncate(LONGEST_CONTENT);
    body
}

/// One that most often can be read: the status of a refused request most often has no body, but for
/// status 7.
pub fn some_response(random: &mut Random, awaited: Awaited) -> Vec<u8> {
    let status = some_status(random);
    if status == Status::DeserializingBodyFailed.number() {
        return response(
            awaited,
            status,
            &some_offset_body(random, awaited.accept_type),
        );
    }
    if status != 0 && !random.once_in(8) {
        return match random.below(8) {
            0 => invalid_header(&[]),
            _ => response(awaited, status, &[]),
        };
    }
    response(awaited, status, &some_body(random, awaited))
}

// ---- faults

/// The response with the fault of this number; later faults are to be put in first.
pub fn with_fault(random: &mut Random, response: &mut Vec<u8>, refusal: u32) {
    let bit = 1 << random.below(8);
    match refusal {
        WRONG_MAGIC => response[random.below(H_AT)] ^= bit,
        WRONG_HEADER_SIZE => {
            let header_size = random.pick(&[0_u16, 19, 21, 22, 20 + 256, u16::MAX]);
            set(response, H_AT, &header_size.to_le_bytes());
        }
        WRONG_VERSION => response[random.pick(&[MAJOR_AT, MINOR_AT])] ^= bit,
        WRONG_CONTENT_TYPE => response[CONTENT_TYPE_AT] ^= bit,
        NOT_ITS_REQUESTS => {
            let session = SESSION_AT + random.below(8);
            let opcode = OPCODE_AT + random.below(2);
            response[random.pick(&[PROVIDER_AT, session, opcode])] ^= bit;
        }
        CONTENT_TOO_LONG => lengthen_content(random, response),
        UNREADABLE_BODY => break_body(random, response),
        other => panic!("no refusal {other}"),
    }
}

/// Content above 998 bytes, with as many behind the header where that can be.
fn lengthen_content(random: &mut Random, response: &mut Vec<u8>) {
    let length = random.pick(&[999_u32, 1_000, 1_024, 0x1_0000, 0x100_0005, u32::MAX]);
    set(response, CONTENT_LENGTH_AT, &length.to_le_bytes());
    response.resize(BODY_AT + length.min(1_100) as usize, 0x0A);
}

/// Tags that make any body of Protocol Buffers unreadable: number 0, a stray end of a group, wire types 6
/// and 7. In the second format all but 2 are not listed, and 2 is by Ping alone.
pub const BAD_TAGS: [u8; 6] = [0x00, 0x04, 0x07, 0x0C, 0x0E, 0x0F];

/// A tag that can't be read in front of the body.
fn break_body(random: &mut Random, response: &mut Vec<u8>) {
    response.insert(BODY_AT, random.pick(&BAD_TAGS));
    response.truncate(BODY_AT + LONGEST_CONTENT);
    let length = (response.len() - BODY_AT) as u32;
    set(response, CONTENT_LENGTH_AT, &length.to_le_bytes());
}
