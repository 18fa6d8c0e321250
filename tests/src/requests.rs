//! Streams of requests from a seed, good and damaged, for the applications of a registry.
//! Document 01, "Order of judgement on one request", and document 02, "Checking signatures", are what
//! they are meant to reach all of.

use crate::ask::*;
use crate::generate::{import_message, importable_key, message, mutated, Random, KEY_NAMES};
use crate::layout::{line_at, name_at, slot_at, Key, Place, LINES, SLOTS};
use crate::signatures::{some_verify_body, with_signed_data};
use crate::tagged::*;
use crate::unlisted::{Class, Sample};

// Where a header has its fields.
const H_AT: usize = 4;
const MAJOR_AT: usize = 6;
const MINOR_AT: usize = 7;
const PROVIDER_AT: usize = 8;
const SESSION_AT: usize = 9;
const CONTENT_TYPE_AT: usize = 17;
const ACCEPT_TYPE_AT: usize = 18;
pub(crate) const AUTH_TYPE_AT: usize = 19;
const CONTENT_LENGTH_AT: usize = 20;
pub(crate) const AUTH_LENGTH_AT: usize = 24;
const OPCODE_AT: usize = 26;
/// 6 + H for H = 22.
const SHORTEST_HEADER: usize = 28;

/// An application of a registry and the names of its keys.
pub struct Application {
    name: Vec<u8>,
    keys: Vec<Vec<u8>>,
}

impl Application {
    pub fn name(&self) -> &[u8] {
        &self.name
    }

    /// The same one, which asks for the other's keys as often as for its own.
    pub fn asking_for_keys_of(&self, other: &Application) -> Application {
        Application {
            name: self.name.clone(),
            keys: [&self.keys[..], &other.keys].concat(),
        }
    }
}

/// The applications of a well-formed registry; of an empty one a single one that it doesn't have.
pub fn applications(registry: &[u8]) -> Vec<Application> {
    let keys = |line| {
        (0..SLOTS)
            .map(move |slot| name_at(registry, slot_at(Place { line, slot })).to_vec())
            .filter(|name| !name.is_empty())
    };
    let mut applications: Vec<_> = (0..LINES)
        .map(|line| Application {
            name: name_at(registry, line_at(line)).to_vec(),
            keys: keys(line).collect(),
        })
        .filter(|application| !application.name.is_empty())
        .collect();
    if applications.is_empty() {
        applications.push(Application {
            name: b"nobody".to_vec(),
            keys: Vec::new(),
        });
    }
    applications
}

/// Imports that fill the slots of an application, and leave two of the names that keys have.
pub fn filling(random: &mut Random, application: &Application) -> Vec<Vec<u8>> {
    let names = KEY_NAMES.iter().take(SLOTS);
    names
        .map(|&name| {
            let key = Key {
                name: vec![name],
                ..importable_key(random, 0)
            };
            request(IMPORT, Some(&application.name), &import_body(&key))
        })
        .collect()
}

/// Up to `most` requests; the last one may be cut.
pub fn requests(random: &mut Random, applications: &[Application], most: usize) -> Vec<Vec<u8>> {
    let count = 1 + random.below(most);
    // Few applications at a time, so that one comes to more requests.
    let applications = &applications[random.below(applications.len())..];
    let few = random.pick(&[1, 2, LINES]).min(applications.len());
    let mut requests: Vec<_> = (0..count)
        .map(|_| {
            let application = random.below(few);
            some_request(random, &applications[application])
        })
        .collect();
    if random.once_in(3) {
        let last = &mut requests[count - 1];
        let nearly_all = last.len().saturating_sub(1);
        last.truncate(random.pick(&[0, 5, 6, 27, 28, last.len() / 2, nearly_all]));
    }
    requests
}

/// One request, good more often than not. Few are out of step with the next one, since what follows
/// those is dropped.
pub fn some_request(random: &mut Random, application: &Application) -> Vec<u8> {
    let request = whole_request(random, application);
    match random.below(200) {
        0..140 => request,
        140..178 => with_bad_header_field(random, request),
        178..184 => oversized(random, &request),
        184..188 => long_request(random, &request),
        188 => unfinished_oversized(random, &request),
        189..192 => with_bad_start(random, request),
        192 => {
            let length = random.below(100);
            random.bytes(length)
        }
        193..196 => mutated(random, request),
        _ => with_one_bit_changed(random, request),
    }
}

/// A request with a header that is good, a body that most often is, and any session and good H.
fn whole_request(random: &mut Random, application: &Application) -> Vec<u8> {
    let opcode = match random.below(27) {
        0 | 1 => PING,
        2 => LIST_PROVIDERS,
        3 | 4 => LIST_OPCODES,
        5..16 => IMPORT,
        16..20 => EXPORT,
        20..24 => VERIFY,
        _ => DESTROY,
    };
    let body = match random.below(10) {
        0 => bad_body(random, opcode, application),
        1 | 2 => {
            let body = body(random, opcode, application);
            with_unlisted_fields(random, body)
        }
        _ => body(random, opcode, application),
    };
    let (content_type, body) = in_some_format(random, opcode, body);
    let is_core = matches!(opcode, PING | LIST_PROVIDERS | LIST_OPCODES);
    let is_sent_by_it = !is_core || random.once_in(2);
    let mut request = request_of(
        opcode,
        (content_type, random.pick(&LISTED_TYPES)),
        is_sent_by_it.then_some(application.name.as_slice()),
        &body,
    );
    set(&mut request, SESSION_AT, &random.word().to_le_bytes());
    let header_size = random.pick(&[22, 22, 22, 23, 30, 64]);
    with_header_size(request, header_size)
}

/// The body as it is, or the same message in the second format, now and then with a slip.
fn in_some_format(random: &mut Random, opcode: u16, body: Vec<u8>) -> (u8, Vec<u8>) {
    match from_protobuf(opcode, &body) {
        Some(tagged) if random.once_in(3) => match random.below(10) {
            0 => (TAGGED, mutated(random, tagged)),
            1 => {
                let kinds = kinds_of(opcode);
                let place = random.below(kinds.len() + 1);
                let (_, fault) = random.pick(&faults(kinds, place));
                (TAGGED, [good_fields(kinds, 0..place), fault].concat())
            }
            _ => (TAGGED, tagged),
        },
        _ => (PROTOBUF, body),
    }
}

fn set(request: &mut [u8], at: usize, field: &[u8]) {
    request[at..at + field.len()].copy_from_slice(field);
}

fn set_lengths(header: &mut [u8], content_length: u32, auth_length: u16) {
    set(header, CONTENT_LENGTH_AT, &content_length.to_le_bytes());
    set(header, AUTH_LENGTH_AT, &auth_length.to_le_bytes());
}

/// The same request with a longer header. Read as a body, the filler begins a tag of wire type 6.
pub fn with_header_size(mut request: Vec<u8>, size: u16) -> Vec<u8> {
    let filler = vec![0xEE; usize::from(size) - 22];
    request.splice(SHORTEST_HEADER..SHORTEST_HEADER, filler);
    set(&mut request, H_AT, &size.to_le_bytes());
    request
}

// ---- bodies

/// A body that can be read and most often served.
fn body(random: &mut Random, opcode: u16, application: &Application) -> Vec<u8> {
    match opcode {
        LIST_OPCODES => {
            let providers: [&[u8]; 5] =
                [b"", b"\x08\x00", b"\x08\x01", b"\x08\x81\x00", b"\x08\x02"];
            random.pick(&providers).to_vec()
        }
        IMPORT if random.once_in(4) => import_message(random),
        IMPORT => {
            let key = Key {
                name: key_name(random, application),
                ..importable_key(random, 0)
            };
            let mut key = with_signed_data(random, key);
            match random.below(10) {
                0 => key.data.resize(random.pick(&[0, 601]), 0xDA),
                1 => key.bits = random.pick(&[0, 1_024, 1_028, 2_056, 4_104]),
                _ => {}
            }
            import_body(&key)
        }
        VERIFY => {
            let name = key_name(random, application);
            some_verify_body(random, &name)
        }
        EXPORT | DESTROY => name_body(&key_name(random, application)),
        _ => Vec::new(),
    }
}

/// A name that the application has, one of a few that it may come to have, or now and then a bad one.
fn key_name(random: &mut Random, application: &Application) -> Vec<u8> {
    match random.below(20) {
        0 => random.pick(&[Vec::new(), vec![b'k'; 33], b"a b".to_vec()]),
        1 => vec![b'k'; 32],
        2..12 if !application.keys.is_empty() => random.pick(&application.keys),
        _ => vec![random.pick(KEY_NAMES)],
    }
}

/// The body with fields before or behind its own that most often are skipped.
fn with_unlisted_fields(random: &mut Random, mut body: Vec<u8>) -> Vec<u8> {
    let classes: Vec<_> = Class::all();
    for _ in 0..random.pick(&[1, 1, 2, 5]) {
        let class = match random.below(4) {
            0 => random.pick(&classes),
            _ => Class::Depth(random.pick(&[0, 0, 1, 2, 16])),
        };
        let sample = Sample::of(random, class).bytes;
        let at = random.pick(&[0, body.len()]);
        body.splice(at..at, sample);
    }
    body
}

/// A body with a slip; some can still be read.
fn bad_body(random: &mut Random, opcode: u16, application: &Application) -> Vec<u8> {
    let body = body(random, opcode, application);
    let wire_types: &[u64] = match opcode {
        IMPORT => &[2, 2, 0, 0, 0],
        VERIFY => &[2, 2, 2],
        EXPORT | DESTROY => &[2],
        LIST_OPCODES => &[0],
        _ => &[],
    };
    match random.below(5) {
        0 if opcode == IMPORT => import_body(&Key {
            data: vec![0xDA; random.pick(&[0, 601])],
            ..importable_key(random, 0)
        }),
        1 => [body, b"\x30\x01".to_vec()].concat(),
        2 => message(random, wire_types),
        3 => [body, b"\x18\x80\x80".to_vec()].concat(),
        _ => mutated(random, body),
    }
}

// ---- slips in a header

/// A field that a test of step 3 refuses, up to the operation's own tests.
fn with_bad_header_field(random: &mut Random, mut request: Vec<u8>) -> Vec<u8> {
    let provider = request[PROVIDER_AT];
    match random.below(10) {
        0 => request[MAJOR_AT] = 2,
        1 => request[MINOR_AT] = 1,
        2 => request[CONTENT_TYPE_AT] = random.pick(&UNLISTED_TYPES),
        3 => request[ACCEPT_TYPE_AT] = random.pick(&UNLISTED_TYPES),
        4 => request[OPCODE_AT] = random.pick(&[0, 2, 4, 10]),
        5 => request[PROVIDER_AT] = random.pick(&[2, 255]),
        6 => request[PROVIDER_AT] = 1 - provider,
        7 => request[AUTH_TYPE_AT] = random.pick(&[0, 2, 255]),
        _ => request = with_auth(random, request),
    }
    request
}

/// The same request with another name, or with none and either auth type.
fn with_auth(random: &mut Random, mut request: Vec<u8>) -> Vec<u8> {
    let auth = random.pick(&[Vec::new(), Vec::new(), b"nobody".to_vec(), vec![b'n'; 65]]);
    let before = u16::from_le_bytes([request[AUTH_LENGTH_AT], request[AUTH_LENGTH_AT + 1]]);
    request.truncate(request.len() - usize::from(before));
    request.extend(&auth);
    let length = auth.len() as u16;
    set(&mut request, AUTH_LENGTH_AT, &length.to_le_bytes());
    request[AUTH_TYPE_AT] = random.below(2) as u8;
    request
}

/// Status 17, and closed.
pub fn with_bad_start(random: &mut Random, mut request: Vec<u8>) -> Vec<u8> {
    let header_size = random.pick(&[0_u16, 21, 65, 22 + 256]);
    match random.below(6) {
        0 | 1 => set(&mut request, H_AT, &header_size.to_le_bytes()),
        place => request[place - 2] ^= 1 << random.below(8),
    }
    request
}

fn with_one_bit_changed(random: &mut Random, mut request: Vec<u8>) -> Vec<u8> {
    let place = random.below(request.len());
    request[place] ^= 1 << random.below(8);
    request
}

// ---- long requests

/// The header of a request with other lengths, and so many bytes: small requests, so that losing
/// step shows.
pub fn with_lengths(request: &[u8], content_length: usize, auth_length: usize) -> Vec<u8> {
    let header_size = u16::from_le_bytes([request[H_AT], request[H_AT + 1]]);
    let mut long = request[..6 + usize::from(header_size)].to_vec();
    set_lengths(&mut long, content_length as u32, auth_length as u16);
    let ping = self::request(PING, None, &[]);
    long.extend(ping.iter().cycle().take(content_length + auth_length));
    long
}

/// Statuses 20 and 11: one length at least is too large.
fn oversized(random: &mut Random, request: &[u8]) -> Vec<u8> {
    let (content_length, auth_length) = random.pick(&[
        (4_097, 0),
        (4_097, 256),
        (4_097, 257),
        (0, 257),
        (4_096, 257),
        (3, 300),
        (40_000, 7),
        (9, 65_535),
    ]);
    with_lengths(request, content_length, auth_length)
}

/// As long as may be, or nearly.
fn long_request(random: &mut Random, request: &[u8]) -> Vec<u8> {
    with_lengths(
        request,
        random.pick(&[4_096, 4_095]),
        random.pick(&[256, 255, 0]),
    )
}

/// An oversized request of which the stream won't bring all the bytes.
fn unfinished_oversized(random: &mut Random, request: &[u8]) -> Vec<u8> {
    let mut header = with_lengths(request, 0, 0);
    let content_length = random.pick(&[1 << 20, 1 << 31, u32::MAX]);
    let auth_length = random.pick(&[0, 256, u16::MAX]);
    set_lengths(&mut header, content_length, auth_length);
    header
}
