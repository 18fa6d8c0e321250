//! A request that a client is asked to write, from a seed and with faults: document 02, "The
//! client's half", its last sentence, "Checking signatures" and "A second body format".

use crate::ask::{DESTROY, EXPORT, IMPORT, LIST_OPCODES, LIST_PROVIDERS, OPCODES, PING, VERIFY};
use crate::generate::Random;
use crate::layout::IMPORT_BITS;
use crate::oracle::key_name_is_legal;
use crate::signatures::verify_body;
use crate::tagged::{some_type, PROTOBUF, TAGGED, UNLISTED_TYPES};
use razidkot_client::raw::{self, Request};
use reference::{BodyFormat, Formats, Operation};

/// The numbers of the refusals, in the order in which they are tried, but for the last.
pub const BUFFER_TOO_SMALL: u32 = 1;
pub const APPLICATION_NAME_ILLEGAL: u32 = 2;
pub const KEY_NAME_ILLEGAL: u32 = 3;
pub const DATA_ILLEGAL: u32 = 4;
pub const BITS_ILLEGAL: u32 = 5;
pub const HASH_ILLEGAL: u32 = 6;
pub const BODY_TOO_LONG: u32 = 7;
/// Tried before all others: a content type or an accept type that is not listed.
pub const TYPE_UNLISTED: u32 = 8;

/// Around what is allowed and what once was, and numbers whose low 16 bits would be allowed.
pub const BITS: [u32; 29] = [
    0,
    1,
    8,
    1_016,
    1_020,
    1_023,
    1_024,
    1_025,
    1_028,
    1_031,
    1_032,
    2_040,
    2_047,
    2_048,
    2_049,
    2_056,
    3_071,
    3_072,
    3_073,
    4_088,
    4_095,
    4_096,
    4_097,
    4_104,
    0xFFFF,
    0x1_0800,
    0x8000_0800,
    u32::MAX - 7,
    u32::MAX,
];

pub const SESSIONS: [u64; 5] = [0, 1, 0x0807_0605_0403_0201, 1 << 63, u64::MAX];

/// What it is asked: an operation's fields are those that its opcode has.
#[derive(Clone, Debug, PartialEq, Eq)]
pub struct Asked {
    pub session: u64,
    pub content_type: u8,
    pub accept_type: u8,
    /// Is an application named? The name of one that is not is no matter.
    pub named: bool,
    pub application: Vec<u8>,
    pub opcode: u16,
    pub provider: u32,
    pub name: Vec<u8>,
    pub data: Vec<u8>,
    pub bits: u32,
    pub export_allowed: bool,
    pub verify_allowed: bool,
    pub hash: Vec<u8>,
    pub signature: Vec<u8>,
}

impl Asked {
    /// One without a fault.
    pub fn good(opcode: u16) -> Asked {
        Asked {
            session: 0x0102_0304_0506_0708,
            content_type: PROTOBUF,
            accept_type: PROTOBUF,
            named: true,
            application: b"application".to_vec(),
            opcode,
            provider: 1,
            name: b"key".to_vec(),
            data: b"data".to_vec(),
            bits: 2_048,
            export_allowed: true,
            verify_allowed: false,
            hash: vec![0x11; 32],
            signature: vec![0x22; 256],
        }
    }

    /// Most often within the bounds, at either end of them, and for nobody as often as named.
    pub fn generate(random: &mut Random) -> Asked {
        Asked {
            session: some_session(random),
            content_type: some_type(random),
            accept_type: some_type(random),
            named: random.once_in(2),
            application: some_name(random, 64),
            opcode: random.pick(&OPCODES),
            provider: random.number() as u32,
            name: some_name(random, 32),
            data: some_data(random),
            bits: match random.below(6) {
                0 => random.pick(&BITS),
                1 => random.word() as u32,
                _ => random.pick(&IMPORT_BITS).into(),
            },
            export_allowed: random.once_in(2),
            verify_allowed: random.once_in(2),
            hash: some_hash(random),
            signature: some_signature(random),
        }
    }

    /// The same with the fault of this number, where it can have it.
    pub fn with_fault(mut self, random: &mut Random, refusal: u32) -> Asked {
        match refusal {
            APPLICATION_NAME_ILLEGAL => {
                self.named = true;
                self.application = bad_name(random, 64);
            }
            KEY_NAME_ILLEGAL => self.name = bad_name(random, 32),
            DATA_ILLEGAL => {
                let length = random.pick(&[0, 601, 1_000]);
                self.data = random.bytes(length);
            }
            BITS_ILLEGAL => self.bits = random.pick(&[0, 1_024, 1_028, 2_056, 4_104, 0x1_0800]),
            HASH_ILLEGAL => self.hash.resize(random.pick(&[0, 31, 33, 64]), 0),
            BODY_TOO_LONG => self
                .signature
                .resize(random.pick(&[4_057, 4_097, 65_537]), 7),
            TYPE_UNLISTED => match random.below(3) {
                0 => self.content_type = random.pick(&UNLISTED_TYPES),
                1 => self.accept_type = random.pick(&UNLISTED_TYPES),
                _ => (self.content_type, self.accept_type) = (0, 3),
            },
            _ => {}
        }
        self
    }

    pub fn has_key_name(&self) -> bool {
        matches!(self.opcode, IMPORT | DESTROY | EXPORT | VERIFY)
    }

    fn operation(&self) -> Operation<'_> {
        let name = &self.name;
        match self.opcode {
            PING => Operation::Ping,
            LIST_PROVIDERS => Operation::ListProviders,
            LIST_OPCODES => Operation::ListOpcodes {
                provider: self.provider,
            },
            IMPORT => Operation::ImportKey {
                name,
                data: &self.data,
                bits: self.bits,
                export_allowed: self.export_allowed,
                verify_allowed: self.verify_allowed,
            },
            DESTROY => Operation::DestroyKey { name },
            EXPORT => Operation::ExportPublicKey { name },
            VERIFY => Operation::VerifySignature {
                name,
                hash: &self.hash,
                signature: &self.signature,
            },
            opcode => panic!("no operation {opcode}"),
        }
    }

    pub fn write_proved(&self, out: &mut [u8]) -> Request {
        let (session, named, application) = (self.session, self.named, &self.application[..]);
        let (content, accept) = (self.content_type, self.accept_type);
        match self.opcode {
            PING => raw::write_ping(out, session, content, accept, named, application),
            LIST_PROVIDERS => {
                raw::write_list_providers(out, session, content, accept, named, application)
            }
            LIST_OPCODES => raw::write_list_opcodes(
                out,
                session,
                content,
                accept,
                named,
                application,
                self.provider,
            ),
            IMPORT => raw::write_import(
                out,
                session,
                content,
                accept,
                named,
                application,
                &self.name,
                &self.data,
                self.bits,
                self.export_allowed,
                self.verify_allowed,
            ),
            DESTROY => raw::write_destroy(
                out,
                session,
                content,
                accept,
                named,
                application,
                &self.name,
            ),
            EXPORT => raw::write_export(
                out,
                session,
                content,
                accept,
                named,
                application,
                &self.name,
            ),
            VERIFY => raw::write_verify(
                out,
                session,
                content,
                accept,
                named,
                application,
                &self.name,
                &self.hash,
                &self.signature,
            ),
            opcode => panic!("no operation {opcode}"),
        }
    }

    /// The formats, unless one is not listed: the reference's type has the listed ones alone.
    fn formats(&self) -> Option<Formats> {
        Some(Formats {
            content: BodyFormat::from_number(self.content_type)?,
            accept: BodyFormat::from_number(self.accept_type)?,
        })
    }

    pub fn write_reference(&self, out: &mut [u8]) -> Request {
        let application = self.named.then_some(&self.application[..]);
        let Some(formats) = self.formats() else {
            return Request {
                code: TYPE_UNLISTED,
                written: 0,
            };
        };
        let operation = &self.operation();
        match reference::write_request(out, self.session, formats, application, operation) {
            Ok(written) => Request { code: 0, written },
            Err(refusal) => Request {
                code: refusal_number(refusal),
                written: 0,
            },
        }
    }

    /// How many bytes a verify's body has as it would be written.
    fn verify_body_length(&self) -> usize {
        let fields = [&self.name, &self.hash, &self.signature];
        match self.content_type {
            TAGGED => fields
                .iter()
                .filter(|field| !field.is_empty())
                .map(|field| 3 + field.len())
                .sum(),
            _ => verify_body(&self.name, &self.hash, &self.signature).len(),
        }
    }

    /// The refusals that apply, not the first one alone, in the order in which they are tried.
    pub fn applying(&self, buffer_length: usize) -> Vec<u32> {
        let (imports, verifies) = (self.opcode == IMPORT, self.opcode == VERIFY);
        let are_import_bits = IMPORT_BITS.map(u32::from).contains(&self.bits);
        let applies = [
            buffer_length < 5_120,
            self.named && !application_name_is_legal(&self.application),
            self.has_key_name() && !key_name_is_legal(&self.name),
            imports && !(1..=600).contains(&self.data.len()),
            imports && !are_import_bits,
            verifies && self.hash.len() != 32,
            verifies && self.verify_body_length() > 4_096,
        ];
        let numbered = (BUFFER_TOO_SMALL..).zip(applies);
        let unlisted = (TYPE_UNLISTED, self.formats().is_none());
        [unlisted]
            .into_iter()
            .chain(numbered)
            .filter_map(|(refusal, applies)| applies.then_some(refusal))
            .collect()
    }

    /// Requests that are a step shorter or simpler.
    pub fn shorter(&self) -> Vec<Asked> {
        let good = Asked::good(self.opcode);
        let half = |bytes: &[u8]| bytes[..bytes.len() / 2].to_vec();
        let less = |bytes: &[u8]| bytes[..bytes.len().saturating_sub(1)].to_vec();
        let mut shorter = vec![self.clone(); 16];
        shorter[0].session = 0;
        shorter[1].named = false;
        shorter[2].application = half(&self.application);
        shorter[3].application = less(&self.application);
        shorter[4].name = half(&self.name);
        shorter[5].name = less(&self.name);
        shorter[6].data = half(&self.data);
        shorter[7].data = less(&self.data);
        shorter[8].bits = good.bits;
        shorter[9].provider = 0;
        shorter[10].hash = half(&self.hash);
        shorter[11].hash = good.hash;
        shorter[12].signature = half(&self.signature);
        shorter[13].signature = less(&self.signature);
        shorter[14].content_type = PROTOBUF;
        shorter[15].accept_type = PROTOBUF;
        shorter.retain(|asked| asked != self);
        shorter
    }
}

pub fn each_with_each<A: Copy, B: Copy>(first: &[A], second: &[B]) -> Vec<(A, B)> {
    let pairs = |&a: &A| second.iter().map(move |&b| (a, b));
    first.iter().flat_map(pairs).collect()
}

/// The refusals that a request of this opcode can have, in the order in which they are tried.
pub fn refusals_of(opcode: u16) -> Vec<u32> {
    let last = match opcode {
        IMPORT => BITS_ILLEGAL,
        DESTROY | EXPORT | VERIFY => KEY_NAME_ILLEGAL,
        _ => APPLICATION_NAME_ILLEGAL,
    };
    let mut refusals = vec![TYPE_UNLISTED];
    refusals.extend(BUFFER_TOO_SMALL..=last);
    if opcode == VERIFY {
        refusals.extend([HASH_ILLEGAL, BODY_TOO_LONG]);
    }
    refusals
}

fn refusal_number(refusal: reference::WriteRefusal) -> u32 {
    use reference::WriteRefusal::*;
    match refusal {
        BufferTooSmall => BUFFER_TOO_SMALL,
        BadApplicationName => APPLICATION_NAME_ILLEGAL,
        BadKeyName => KEY_NAME_ILLEGAL,
        BadData => DATA_ILLEGAL,
        BadBits => BITS_ILLEGAL,
        BadHash => HASH_ILLEGAL,
        BodyTooLong => BODY_TOO_LONG,
    }
}

/// "an application name, 1 to 64 bytes, each 0x21 to 0x7E"
fn application_name_is_legal(name: &[u8]) -> bool {
    (1..=64).contains(&name.len()) && name.iter().all(|byte| (0x21..=0x7E).contains(byte))
}

pub fn some_session(random: &mut Random) -> u64 {
    match random.below(2) {
        0 => random.pick(&SESSIONS),
        _ => random.word(),
    }
}

/// Of any byte that may stand in a name, the first and last of them often.
pub fn legal_name(random: &mut Random, length: usize) -> Vec<u8> {
    (0..length)
        .map(|_| match random.below(4) {
            0 => random.pick(b"!~"),
            _ => 0x21 + random.byte() % 0x5E,
        })
        .collect()
}

fn some_name(random: &mut Random, longest: usize) -> Vec<u8> {
    if random.once_in(8) {
        return bad_name(random, longest);
    }
    let length = random.pick(&[1, 2, longest / 2, longest - 1, longest]);
    legal_name(random, length)
}

/// Too short, too long, or with one byte outside the range.
fn bad_name(random: &mut Random, longest: usize) -> Vec<u8> {
    let length = random.pick(&[0, longest + 1, 2 * longest, 1, 2, longest]);
    let mut name = legal_name(random, length);
    if (1..=longest).contains(&length) {
        let place = random.below(length);
        name[place] = random.pick(&[0, 1, 0x20, 0x7F, 0x80, 0xA1, 0xFF]);
    }
    name
}

fn some_data(random: &mut Random) -> Vec<u8> {
    let length = match random.below(3) {
        0 => random.pick(&[0, 1, 127, 128, 599, 600, 601]),
        _ => 1 + random.below(600),
    };
    random.bytes(length)
}

fn some_hash(random: &mut Random) -> Vec<u8> {
    let length = random.pick(&[32, 32, 32, 32, 32, 32, 0, 31, 33]);
    random.bytes(length)
}

/// Of a modulus's length, none, or of one that the body just has room for or has not.
fn some_signature(random: &mut Random) -> Vec<u8> {
    let length = match random.below(4) {
        0 => random.pick(&[0, 1, 127, 128, 4_025, 4_026, 4_056, 4_057, 4_096, 5_120]),
        1 => random.below(4_200),
        _ => random.pick(&[128, 256, 512]),
    };
    random.bytes(length)
}
