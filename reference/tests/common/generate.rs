//! Rosters, lists and streams of good and damaged requests from a seed, the same on every run.
//! Document 01, "A whole stream under the rules", is what they are meant to reach all of.

use super::lists::{list_of, pairs, rsa_public_key, LONGEST_DATA, MOST_PAIRS};
use super::vectors::blocks;
use super::*;
use std::sync::OnceLock;

/// The names that most keys have, one byte each: two more than an application may hold.
pub const KEY_NAMES: &[u8] = b"abcdefghij";

/// A xorshift generator of 64 bits.
pub struct Random(u64);

impl Random {
    /// Neighbouring seeds are spread first, since xorshift keeps them alike for some steps.
    pub fn new(seed: u64) -> Random {
        Random(seed.wrapping_mul(0x9E37_79B9_7F4A_7C15) | 1)
    }

    pub fn next(&mut self) -> u64 {
        self.0 ^= self.0 << 13;
        self.0 ^= self.0 >> 7;
        self.0 ^= self.0 << 17;
        self.0.wrapping_mul(0x2545_F491_4F6C_DD1D) >> 8
    }

    pub fn below(&mut self, bound: usize) -> usize {
        (self.next() % bound as u64) as usize
    }

    /// True once in so many times.
    pub fn once_in(&mut self, times: usize) -> bool {
        self.below(times) == 0
    }

    pub fn pick<T: Clone>(&mut self, choices: &[T]) -> T {
        choices[self.below(choices.len())].clone()
    }

    pub fn bytes(&mut self, length: usize) -> Vec<u8> {
        (0..length).map(|_| self.next() as u8).collect()
    }
}

/// The names of a good roster, most often few.
pub fn names(random: &mut Random) -> Vec<Vec<u8>> {
    let count = random.pick(&[0, 1, 1, 1, 2, 2, 3, 8]);
    let length = random.pick(&[1, 3, 64]);
    let name = |line: u8| vec![b'A' + line; length];
    (0..count).map(name).collect()
}

/// A good list: none, some or all of the names that requests have, and now and then as many more as it
/// may hold.
pub fn list(random: &mut Random) -> Vec<u8> {
    let often = random.pick(&[0, 1, 2, 2]);
    let mut names: Vec<_> = KEY_NAMES.iter().map(|&letter| vec![letter]).collect();
    names.push(vec![b'k'; 32]);
    names.retain(|_| often > 0 && random.once_in(often));
    let mut keys: Vec<_> = names
        .into_iter()
        .map(|name| (name, listed_data(random)))
        .collect();
    if often > 0 && random.once_in(10) {
        keys.extend(pairs(MOST_PAIRS - keys.len()));
    }
    shuffle(random, &mut keys);
    list_of(&keys)
}

/// A key that a signature may be of, one of bits that Import has or has not, or any data.
fn listed_data(random: &mut Random) -> Vec<u8> {
    match random.below(6) {
        0..3 => signed()[random.below(2)].data.clone(),
        3 => rsa_public_key(random.pick(&[1_016, 1_024, 2_048, 2_056, 4_096, 4_104])),
        _ => {
            let length = random.pick(&[1, 2, 138, LONGEST_DATA]);
            random.bytes(length)
        }
    }
}

/// Up to `most` requests; a stream of them may be cut at its end.
pub fn requests(random: &mut Random, names: &[Vec<u8>], most: usize) -> Vec<Vec<u8>> {
    let count = 1 + random.below(most);
    let mut requests: Vec<_> = (0..count).map(|_| request_bytes(random, names)).collect();
    if random.once_in(3) {
        let last = requests.last_mut().expect("one request at least");
        last.truncate(random.below(last.len() + 1));
    }
    requests
}

/// Imports that fill the slots of one application, and leave two of the names that keys have.
pub fn filling(random: &mut Random, names: &[Vec<u8>]) -> Vec<Vec<u8>> {
    let name = names.get(random.below(names.len().max(1)));
    let application = name.map_or(FIRST, Vec::as_slice);
    let first = random.below(KEY_NAMES.len());
    let names = KEY_NAMES.iter().cycle().skip(first).take(SLOTS);
    names
        .map(|&name| import(&key(&[name])).sent_by(application).bytes())
        .collect()
}

/// The bytes of one request, good more often than not.
pub fn request_bytes(random: &mut Random, names: &[Vec<u8>]) -> Vec<u8> {
    let request = good_request(random, names);
    match random.below(100) {
        0..70 => request.bytes(),
        70..86 => with_bad_header_field(random, request).bytes(),
        86..93 => with_bad_body(random, request).bytes(),
        93..95 => oversized(random, request).bytes(),
        95 => unfinished_oversized(random, &request),
        96 => with_bad_start(random, request).bytes(),
        97 => {
            let length = random.below(100);
            random.bytes(length)
        }
        _ => with_one_byte_changed(random, request.bytes()),
    }
}

fn good_request(random: &mut Random, names: &[Vec<u8>]) -> Request {
    let name = names.get(random.below(names.len().max(1)));
    let application = name.map_or(FIRST, Vec::as_slice);
    let request = match random.below(20) {
        0..9 => keystore(IMPORT, import_body(random)),
        9..11 => export(&key_name(random)),
        11..13 => verify_request(random),
        13..15 => destroy(&key_name(random)),
        15 => list_providers(),
        16..18 => list_opcodes(random.pick(&[0, 1, 1, 2, 1 << 32, 1 << 32 | 1])),
        _ => ping(),
    };
    let request = Request {
        header_size: random.pick(&[22, 22, 22, 23, 30, 64]),
        session: random.next(),
        ..request
    };
    if request.provider == 0 && random.once_in(2) {
        return request;
    }
    request.sent_by(application)
}

/// Few legal names, so that keys are found, and now and then a bad one.
fn key_name(random: &mut Random) -> Vec<u8> {
    match random.below(20) {
        0 => random.pick(&[Vec::new(), vec![b'k'; 33], b"a b".to_vec()]),
        1 => vec![b'k'; 32],
        _ => vec![random.pick(KEY_NAMES)],
    }
}

/// A key, a hash and the key's signature.
struct Signed {
    data: Vec<u8>,
    bits: u64,
    hash: Vec<u8>,
    signature: Vec<u8>,
}

/// Of tests/vectors the shortest that are supported, those of the lowest exponents first.
fn signed() -> &'static [Signed] {
    static SIGNED: OnceLock<Vec<Signed>> = OnceLock::new();
    SIGNED.get_or_init(|| {
        let blocks = blocks("signatures.txt").into_iter();
        let short = blocks.filter(|block| block.number("bits") == 2_048);
        short
            .map(|block| Signed {
                data: block.bytes("data"),
                bits: block.number("bits").into(),
                hash: block.bytes("hash"),
                signature: block.bytes("signature"),
            })
            .collect()
    })
}

/// Of two names, so that a key that an import brought is verified with its own signature.
fn signed_key(random: &mut Random) -> (Vec<u8>, &'static Signed) {
    let place = random.below(2);
    (vec![b"ab"[place]], &signed()[place])
}

fn verify_request(random: &mut Random) -> Request {
    let (name, signed) = signed_key(random);
    let (mut hash, mut signature) = (signed.hash.clone(), signed.signature.clone());
    match random.below(8) {
        0 => hash.resize(random.pick(&[0, 31, 33]), 0),
        1 => signature.resize(random.pick(&[0, 255, 257]), 0),
        2 => signature.fill(0xFF),
        3 => hash[random.below(32)] ^= 1,
        4 => signature[random.below(256)] ^= 1,
        _ => {}
    }
    let name = if random.once_in(8) {
        key_name(random)
    } else {
        name
    };
    verify(&name, &hash, &signature)
}

/// A key that verifies, or one that says other bits.
fn signed_import_body(random: &mut Random) -> Vec<u8> {
    let (name, signed) = signed_key(random);
    Key {
        name,
        data: signed.data.clone(),
        bits: random.pick(&[signed.bits, signed.bits, signed.bits, 3_072, 2_056]),
        export_allowed: random.once_in(2),
        verify_allowed: !random.once_in(4),
    }
    .body()
}

fn import_body(random: &mut Random) -> Vec<u8> {
    if random.once_in(3) {
        return signed_import_body(random);
    }
    let length = random.pick(&[1, 1, 2, 2, 5, 5, 40, 40, 128, 600, 0, 601]);
    let bits = random.pick(&[
        1_024,
        2_048,
        2_048,
        3_072,
        4_096,
        1 << 32 | 2_048,
        1_016,
        4_104,
    ]);
    let flags = [random.pick(&[0, 1, 2]), random.pick(&[0, 1, 1 << 40])];
    let data = random.bytes(length);
    let mut fields = vec![
        Body::new().field(1, &key_name(random)).bytes(),
        Body::new().field(2, &data).bytes(),
        Body::new().varint(3, bits).bytes(),
        Body::new().varint(4, flags[0]).bytes(),
        Body::new().varint(5, flags[1]).bytes(),
    ];
    if random.once_in(5) {
        fields.push(random.pick(&fields));
    }
    if random.once_in(5) {
        let bits = long_varint(2_048, 1 + random.below(9).max(1));
        fields.push(Body::new().raw(&[0x98, 0x00]).raw(&bits).bytes());
    }
    shuffle(random, &mut fields);
    fields.concat()
}

fn shuffle<T>(random: &mut Random, items: &mut [T]) {
    for last in (1..items.len()).rev() {
        items.swap(last, random.below(last + 1));
    }
}

fn with_bad_header_field(random: &mut Random, mut request: Request) -> Request {
    match random.below(9) {
        0 => request.major = 2,
        1 => request.minor = 1,
        2 => request.content_type = random.pick(&[0, 2, 3]),
        3 => request.accept_type = random.pick(&[0, 2, 3]),
        4 => request.opcode = random.pick(&[0, 2, 4, 0x101]),
        5 => request.provider = random.pick(&[2, 255]),
        6 => request.provider = 1 - request.provider,
        7 => request.auth_type = random.pick(&[0, 0, 2, 255]),
        _ => request.auth = random.pick(&[Vec::new(), b"nobody".to_vec(), vec![b'A'; 65]]),
    }
    // Without this a keystore operation with auth type 0 always has a name.
    if request.auth_type == 0 && random.once_in(2) {
        request.auth = Vec::new();
    }
    request
}

/// A body with a slip or an unlisted field; some can still be read.
fn with_bad_body(random: &mut Random, mut request: Request) -> Request {
    match random.below(6) {
        0 => request.body.truncate(random.below(request.body.len() + 1)),
        1 => {
            let length = 1 + random.below(12);
            request.body.extend(random.bytes(length));
        }
        2 => request.body.extend(Body::new().varint(6, 1).bytes()),
        3 => request.body.extend([0x08, 0x01]),
        4 => {
            let depth = random.pick(&[1, 2, 16, 17]);
            request.body.extend(vec![0x33; depth]);
            request.body.extend(vec![0x34; depth]);
        }
        _ => request.body.extend([0x18, 0x80, 0x80, 0x80, 0x80, 0x80]),
    }
    request
}

fn oversized(random: &mut Random, request: Request) -> Request {
    let (content_length, auth_length) = random.pick(&[(4_097, 0), (4_200, 257), (3, 300)]);
    Request {
        body: PING_REQUEST.repeat(1 + content_length / 28)[..content_length].to_vec(),
        auth: vec![b'a'; auth_length],
        ..request
    }
}

/// A header of which the stream won't bring all the bytes.
fn unfinished_oversized(random: &mut Random, request: &Request) -> Vec<u8> {
    let content_length = random.pick(&[1 << 20, 1 << 31, u32::MAX]);
    request.header_with_lengths(content_length, random.pick(&[0, 256, u16::MAX]))
}

fn with_bad_start(random: &mut Random, mut request: Request) -> Request {
    match random.below(4) {
        0 => request.header_size = random.pick(&[0, 21, 65, 22 + 256]),
        place => request.magic[place] ^= 0x20,
    }
    request
}

fn with_one_byte_changed(random: &mut Random, mut bytes: Vec<u8>) -> Vec<u8> {
    let place = random.below(bytes.len());
    bytes[place] ^= 1 << random.below(8);
    bytes
}
