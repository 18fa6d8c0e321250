//! RSASSA-PKCS1-v1_5 with SHA-256: a key and a signature judged, the hash handed in.
//! Document 02, "Checking signatures"; RFC 8017, sections 5.2.2, 8.2.2 and 9.2.

mod key;
mod modular;

pub use key::modulus_bits;
use key::PublicKey;
use modular::{from_octets, is_below, to_octets, Modulus};

/// Of SHA-256.
pub const HASH_LENGTH: usize = 32;

/// What is said of a key and a signature.
#[derive(Clone, Copy, Debug, PartialEq, Eq)]
#[repr(u8)]
pub enum Outcome {
    Valid = 0,
    InvalidSignature = 1,
    InvalidKey = 2,
}

impl Outcome {
    pub fn number(self) -> u8 {
        self as u8
    }
}

/// The outcome, and how many modular multiplications the power took: none where none was needed.
#[derive(Clone, Copy, Debug, PartialEq, Eq)]
pub struct Verification {
    pub outcome: Outcome,
    pub multiplications: u32,
}

/// Section 8.2.2 on this key's data and bits, and a hash that stands for the message's.
pub fn verify(data: &[u8], bits: u32, hash: &[u8], signature: &[u8]) -> Verification {
    let without_power = |outcome| Verification {
        outcome,
        multiplications: 0,
    };
    let Some(key) = PublicKey::read(data, bits) else {
        return without_power(Outcome::InvalidKey);
    };
    // Step 1: the length of a signature is that of the modulus.
    let length = key.modulus.len();
    let Some(expected) = encoded_message(hash, length).filter(|_| signature.len() == length) else {
        return without_power(Outcome::InvalidSignature);
    };
    // Step 2: a signature that is not below the modulus is out of range.
    let base = from_octets(signature);
    if !is_below(&base, &from_octets(key.modulus)) {
        return without_power(Outcome::InvalidSignature);
    }
    let power = Modulus::new(key.modulus).power(&base, key.exponent);
    // Steps 3 and 4: the encoded messages are compared whole.
    let outcome = match to_octets(&power.number, length) == expected {
        true => Outcome::Valid,
        false => Outcome::InvalidSignature,
    };
    Verification {
        outcome,
        multiplications: power.multiplications,
    }
}

/// DigestInfo of SHA-256 up to the hash, section 9.2, note 1: the NULL parameter is there.
const DIGEST_INFO: [u8; 19] = [
    0x30, 0x31, 0x30, 0x0D, 0x06, 0x09, 0x60, 0x86, 0x48, 0x01, 0x65, 0x03, 0x04, 0x02, 0x01, 0x05,
    0x00, 0x04, 0x20,
];

/// EMSA-PKCS1-v1_5, section 9.2; there is none where not even eight bytes of padding fit.
fn encoded_message(hash: &[u8], length: usize) -> Option<Vec<u8>> {
    let digest_info = [&DIGEST_INFO, hash].concat();
    let padding = length
        .checked_sub(digest_info.len() + 3)
        .filter(|&padding| padding >= 8)?;
    Some([&[0, 1], &vec![0xFF; padding][..], &[0], &digest_info].concat())
}
