//! Keys, hashes and signatures of tests/vectors, good and bad, for whoever asks to verify.
//! Document 02, "Checking signatures".

use crate::ask::*;
use crate::generate::Random;
use crate::layout::{hold, Key, Place, IMPORT_BITS, SLOTS};
use crate::lent::Lent;
use crate::oracle::bytes_field;
use crate::sha256::sha256;
use crate::vectors::{blocks, from_hex, lines, Block};
use std::sync::OnceLock;

/// A key's data and bits, a hash, and a signature.
#[derive(Clone, Debug, PartialEq, Eq)]
pub struct Signed {
    /// Bits and exponent, or what is wrong.
    pub title: String,
    pub data: Vec<u8>,
    pub bits: u16,
    pub hash: Vec<u8>,
    pub signature: Vec<u8>,
}

impl Signed {
    fn of(block: &Block) -> Signed {
        Signed {
            title: block.title.clone(),
            data: block.bytes("data"),
            bits: block.number("bits") as u16,
            hash: block.bytes("hash"),
            signature: block.bytes("signature"),
        }
    }

    /// A good signature of each key, the shortest first.
    pub fn good() -> &'static [Signed] {
        static GOOD: OnceLock<Vec<Signed>> = OnceLock::new();
        GOOD.get_or_init(|| blocks("signatures.txt").iter().map(Signed::of).collect())
    }

    /// Signatures of another structure or number, each title with what is wrong; all bad.
    pub fn bad() -> &'static [Signed] {
        static BAD: OnceLock<Vec<Signed>> = OnceLock::new();
        BAD.get_or_init(|| {
            let blocks = blocks("structures.txt");
            let bad = |block: &Block| {
                let signed = Signed::of(block);
                let others = block.others();
                let bad: Vec<_> = others
                    .map(|(name, signature)| Signed {
                        title: format!("{}: {name}", signed.title),
                        signature,
                        ..signed.clone()
                    })
                    .collect();
                bad
            };
            blocks.iter().flat_map(bad).collect()
        })
    }

    /// Keys that are not supported, each title with what is wrong.
    pub fn unsupported() -> &'static [Signed] {
        static UNSUPPORTED: OnceLock<Vec<Signed>> = OnceLock::new();
        UNSUPPORTED.get_or_init(|| {
            let blocks = blocks("keys.txt");
            let titled = |block: &Block| Signed {
                title: format!("{}: {}", block.title, block.text("name")),
                ..Signed::of(block)
            };
            blocks.iter().map(titled).collect()
        })
    }

    /// A good signature of each key of bits that Import takes, the shortest first.
    pub fn supported() -> &'static [Signed] {
        static SUPPORTED: OnceLock<Vec<Signed>> = OnceLock::new();
        SUPPORTED.get_or_init(|| {
            let all = Signed::good().iter();
            all.filter(|signed| signed.has_import_bits())
                .cloned()
                .collect()
        })
    }

    pub fn has_import_bits(&self) -> bool {
        IMPORT_BITS.contains(&self.bits)
    }

    /// What verify answers where it would answer this if the key's bits were Import's.
    pub fn status_or_unsupported(&self, status: u16) -> u16 {
        match self.has_import_bits() {
            true => status,
            false => NOT_SUPPORTED,
        }
    }

    /// The one whose key a registry or an Import brings under this name, if it brings one that
    /// verifies: so a Verify of the name has its signature. Long ones are rare, for the time they take.
    pub fn of_name(name: &[u8]) -> &'static Signed {
        let sum: usize = name.iter().map(|&byte| usize::from(byte)).sum();
        let good = Signed::good();
        match sum % 7 {
            6 => &good[sum / 7 % good.len()],
            place => &Signed::supported()[place],
        }
    }

    pub fn body(&self, name: &[u8]) -> Vec<u8> {
        verify_body(name, &self.hash, &self.signature)
    }

    /// The key under this name, which may be used to verify.
    pub fn key(&self, name: &[u8]) -> Key {
        Key {
            name: name.to_vec(),
            data: self.data.clone(),
            bits: self.bits,
            export_allowed: false,
            verify_allowed: true,
        }
    }
}

pub fn verify_body(name: &[u8], hash: &[u8], signature: &[u8]) -> Vec<u8> {
    let fields = [(1, name), (2, hash), (3, signature)];
    fields
        .map(|(number, value)| bytes_field(number, value))
        .concat()
}

/// The key with data that verifies its name's signature, or is nearly so; other keys most often.
pub fn with_signed_data(random: &mut Random, key: Key) -> Key {
    let signed = Signed::of_name(&key.name);
    let unsupported = Signed::unsupported();
    match random.below(12) {
        0..5 => Key {
            data: signed.data.clone(),
            bits: signed.bits,
            verify_allowed: !random.once_in(8),
            ..key
        },
        5 => Key {
            data: signed.data.clone(),
            verify_allowed: true,
            ..key
        },
        6 => {
            let other = random.below(unsupported.len());
            Key {
                data: unsupported[other].data.clone(),
                bits: unsupported[other].bits,
                verify_allowed: true,
                ..key
            }
        }
        _ => key,
    }
}

/// The name's signature, or one with a slip.
pub fn some_verify_body(random: &mut Random, name: &[u8]) -> Vec<u8> {
    let mut signed = Signed::of_name(name).clone();
    let length = signed.signature.len();
    match random.below(16) {
        0 => signed.hash.resize(random.pick(&[0, 31, 33]), 0x11),
        1 => signed
            .signature
            .resize(random.pick(&[0, length - 1, length + 1]), 0),
        2 => signed.signature.fill(0xFF),
        3 => {
            let place = random.below(32);
            signed.hash[place] ^= 1 << random.below(8);
        }
        4 => {
            let place = random.below(length);
            signed.signature[place] ^= 1 << random.below(8);
        }
        5 | 6 => {
            let bad: Vec<_> = of_key(Signed::bad(), &signed.data).collect();
            if !bad.is_empty() {
                let place = random.below(bad.len());
                signed = bad[place].clone();
            }
        }
        _ => {}
    }
    signed.body(name)
}

fn of_key<'a>(signed: &'a [Signed], data: &'a [u8]) -> impl Iterator<Item = &'a Signed> {
    signed.iter().filter(move |signed| signed.data == data)
}

/// The status that both answer to each one's signature, its key in a registry from before.
pub fn statuses(all: &[Signed]) -> Vec<u16> {
    all.chunks(SLOTS).flat_map(held_statuses).collect()
}

/// Of as many as a line holds.
fn held_statuses(all: &[Signed]) -> Vec<u16> {
    let application = b"scanner";
    let mut registry = registry_of(&[application.to_vec()]);
    let names = (b'a'..).map(|letter| [letter]);
    let named: Vec<_> = names.zip(all).collect();
    for (slot, (name, signed)) in named.iter().enumerate() {
        hold(&mut registry, Place { line: 0, slot }, &signed.key(name));
    }
    let mut lent = Lent::fresh(&registry, b"");
    let status = |(name, signed): &([u8; 1], &Signed)| {
        let verify = request(VERIFY, Some(application), &signed.body(name));
        let answer = lent.call_both(&verify);
        assert_eq!(answer.written, 26, "one response, with no body");
        u16::from_le_bytes([lent.response()[24], lent.response()[25]])
    };
    named.iter().map(status).collect()
}

// ---- NIST's vectors

/// One of NIST's entries, and whether its signature is good.
#[derive(Clone, Debug)]
pub struct Vector {
    pub signed: Signed,
    pub is_good: bool,
    /// NIST's words.
    pub result: String,
}

/// The SHA-256 entries of one of NIST's files.
pub fn nist(file: &str) -> Vec<Vector> {
    let mut vectors = Vec::new();
    let mut modulus = Vec::new();
    let [mut exponent, mut message, mut signature] = [const { Vec::new() }; 3];
    for line in lines(file) {
        let Some((name, value)) = line.split_once(" = ") else {
            continue;
        };
        match name {
            "n" => modulus = from_hex(value),
            "e" => exponent = from_hex(value),
            "Msg" => message = from_hex(value),
            "S" => signature = from_hex(value),
            "Result" => vectors.push(Vector {
                signed: Signed {
                    title: format!("{file}, entry {}", vectors.len()),
                    data: rsa_public_key(&modulus, &exponent),
                    bits: 8 * modulus.len() as u16,
                    hash: sha256(&message).to_vec(),
                    signature: signature.clone(),
                },
                is_good: value == "P",
                result: value.to_string(),
            }),
            _ => {}
        }
    }
    vectors
}

/// RFC 8017, appendix A.1.1, in DER.
pub fn rsa_public_key(modulus: &[u8], exponent: &[u8]) -> Vec<u8> {
    element(0x30, &[integer(modulus), integer(exponent)].concat())
}

fn integer(number: &[u8]) -> Vec<u8> {
    let zeros = number.iter().take_while(|&&byte| byte == 0).count();
    let magnitude = &number[zeros..];
    match magnitude {
        [0x80..=0xFF, ..] => element(0x02, &[&[0], magnitude].concat()),
        _ => element(0x02, magnitude),
    }
}

fn element(tag: u8, content: &[u8]) -> Vec<u8> {
    let length = content.len();
    let header = match length {
        0..0x80 => vec![tag, length as u8],
        0x80..0x100 => vec![tag, 0x81, length as u8],
        _ => vec![tag, 0x82, (length >> 8) as u8, length as u8],
    };
    [&header, content].concat()
}
