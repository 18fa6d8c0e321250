//! Signatures checked: keys and signatures of tests/vectors, and the order of Verify's statuses.
//! Document 02, "Checking signatures"; RFC 8017, section 8.2.2.

mod common;

use common::vectors::{blocks, Block};
use common::*;
use reference::rsa::{self, Outcome, Verification};
use reference::Status;

/// A key, a hash and a signature of tests/vectors.
#[derive(Clone)]
struct Signed {
    title: String,
    data: Vec<u8>,
    bits: u32,
    hash: Vec<u8>,
    signature: Vec<u8>,
}

impl Signed {
    fn of(block: &Block) -> Signed {
        Signed {
            title: block.title.clone(),
            data: block.bytes("data"),
            bits: block.number("bits"),
            hash: block.bytes("hash"),
            signature: block.bytes("signature"),
        }
    }

    fn all() -> Vec<Signed> {
        blocks("signatures.txt").iter().map(Signed::of).collect()
    }

    /// Of 2,048 bits and exponent 3, the quickest that is supported.
    fn short() -> Signed {
        let is_short = |signed: &Signed| signed.title == "2048-3";
        Signed::all().into_iter().find(is_short).expect("the key")
    }

    fn exponent(&self) -> u64 {
        let (_, exponent) = self.title.split_once('-').expect("bits-exponent");
        exponent.parse().expect("a number")
    }

    fn verification(&self) -> Verification {
        rsa::verify(&self.data, self.bits, &self.hash, &self.signature)
    }

    fn outcome(&self) -> Outcome {
        self.verification().outcome
    }

    /// The key under the name `k`.
    fn key(&self) -> Key {
        Key {
            data: self.data.clone(),
            bits: self.bits.into(),
            export_allowed: false,
            verify_allowed: true,
            ..key(b"k")
        }
    }

    /// A service that holds the key, of other bits from a registry made before.
    fn service(&self) -> Service {
        Service::new().holding(0, 0, &self.key())
    }

    fn request(&self) -> Request {
        verify(b"k", &self.hash, &self.signature)
    }

    /// What the service that holds the key answers to its signature.
    fn expect(&self, status: Status) {
        self.service().expect_status(&self.request(), status);
    }

    /// The same where Import takes the key's bits; a key of others is not supported.
    fn expect_where_importable(&self, status: Status) {
        match IMPORTABLE_BITS.contains(&self.bits.into()) {
            true => self.expect(status),
            false => self.expect(Status::PsaErrorNotSupported),
        }
    }
}

/// Changes one bit, counted from the first byte's lowest.
fn flipped(bytes: &[u8], bit: usize) -> Vec<u8> {
    let mut bytes = bytes.to_vec();
    bytes[bit / 8] ^= 1 << (bit % 8);
    bytes
}

#[test]
fn signatures_of_all_moduli_and_exponents_are_valid() {
    let signed = Signed::all();
    assert_eq!(signed.len(), 23);
    for signed in signed {
        assert_eq!(signed.outcome(), Outcome::Valid, "{}", signed.title);
        signed.expect_where_importable(Status::Success);
    }
}

/// Its data is judged no further, and neither is the signature.
#[test]
fn an_old_keys_bits_come_after_the_hash_and_before_all_else() {
    for bits in (1_024..=4_096).step_by(8) {
        if IMPORTABLE_BITS.contains(&bits.into()) {
            continue;
        }
        for data in [Signed::short().data, vec![1]] {
            let signed = Signed {
                data,
                bits,
                ..Signed::short()
            };
            signed.expect(Status::PsaErrorNotSupported);
            let short_hash = verify(b"k", &signed.hash[1..], &[]);
            let mut service = signed.service();
            service.expect_status(&short_hash, Status::PsaErrorInvalidArgument);
        }
    }
}

#[test]
fn the_power_takes_the_multiplications_of_the_written_rule() {
    for (exponent, multiplications) in [(3, 2), (17, 5), (65_537, 17), (4_294_967_295, 62)] {
        let of_exponent = |signed: &Signed| signed.exponent() == exponent;
        let counts = Signed::all().into_iter().filter(of_exponent);
        let counts: Vec<_> = counts
            .map(|signed| signed.verification().multiplications)
            .collect();
        assert!(counts.len() >= 5);
        assert_eq!(counts, vec![multiplications; counts.len()]);
    }
}

#[test]
fn a_power_is_counted_whatever_comes_of_it_and_none_where_none_is_taken() {
    let signed = Signed::short();
    let verification = |data: &[u8], signature: &[u8]| {
        let verification = rsa::verify(data, signed.bits, &signed.hash, signature);
        (verification.outcome, verification.multiplications)
    };
    let zero = [0; 256];
    let (data, signature) = (&signed.data, &signed.signature);
    assert_eq!(verification(data, &zero), (Outcome::InvalidSignature, 2));
    assert_eq!(
        verification(data, &signature[1..]),
        (Outcome::InvalidSignature, 0)
    );
    assert_eq!(
        verification(data, &[0xFF; 256]),
        (Outcome::InvalidSignature, 0)
    );
    assert_eq!(
        verification(&data[1..], signature),
        (Outcome::InvalidKey, 0)
    );
}

#[test]
fn outcomes_have_numbers() {
    let outcomes = [
        Outcome::Valid,
        Outcome::InvalidSignature,
        Outcome::InvalidKey,
    ];
    assert_eq!(outcomes.map(Outcome::number), [0, 1, 2]);
}

#[test]
fn any_bit_changed_in_hash_or_signature_is_invalid_signature() {
    let signed = Signed::short();
    for bit in 0..8 * signed.hash.len() {
        let other = Signed {
            hash: flipped(&signed.hash, bit),
            ..signed.clone()
        };
        assert_eq!(other.outcome(), Outcome::InvalidSignature, "bit {bit}");
    }
    for bit in 0..8 * signed.signature.len() {
        let other = Signed {
            signature: flipped(&signed.signature, bit),
            ..signed.clone()
        };
        assert_eq!(other.outcome(), Outcome::InvalidSignature, "bit {bit}");
    }
}

#[test]
fn any_bit_changed_in_the_key_is_not_valid() {
    let signed = Signed::short();
    let outcomes = (0..8 * signed.data.len()).map(|bit| {
        let other = Signed {
            data: flipped(&signed.data, bit),
            ..signed.clone()
        };
        other.outcome()
    });
    let (keys, signatures): (Vec<_>, Vec<_>) =
        outcomes.partition(|&outcome| outcome == Outcome::InvalidKey);
    assert!(signatures
        .iter()
        .all(|&outcome| outcome == Outcome::InvalidSignature));
    assert!(keys.len() > 50 && signatures.len() > 2_000);
}

#[test]
fn another_structure_or_number_is_invalid_signature() {
    let mut count = 0;
    for block in blocks("structures.txt") {
        let signed = Signed::of(&block);
        assert_eq!(signed.outcome(), Outcome::Valid);
        for (name, signature) in block.others() {
            let other = Signed {
                signature,
                ..signed.clone()
            };
            let title = &signed.title;
            assert_eq!(
                other.outcome(),
                Outcome::InvalidSignature,
                "{name}, {title}"
            );
            other.expect_where_importable(Status::PsaErrorInvalidSignature);
            count += 1;
        }
    }
    assert_eq!(count, 200);
}

#[test]
fn data_that_is_no_supported_key_is_not_supported() {
    let blocks = blocks("keys.txt");
    assert_eq!(blocks.len(), 79);
    for block in blocks {
        let signed = Signed::of(&block);
        let name = block.text("name");
        assert_eq!(signed.outcome(), Outcome::InvalidKey, "{name}");
        signed.expect(Status::PsaErrorNotSupported);
    }
}

#[test]
fn verify_answers_an_empty_body_and_changes_the_count_of_uses_alone() {
    let signed = Signed::short();
    let mut service = signed.service();
    let mut expected = service.clone();
    expected.set_uses(0, 0, 1);
    assert_eq!(service.ask(&signed.request()).body, []);
    assert_eq!(service.registry, expected.registry);
    assert_eq!(service.counters.served[0], 1);
}

#[test]
fn of_verify_fields_any_order_is_read_and_the_last_of_each_counts() {
    let signed = Signed::short();
    let body = Body::new()
        .field(3, b"no")
        .field(2, &[])
        .field(9, b"unlisted")
        .field(2, &signed.hash)
        .varint(1, 7)
        .field(3, &signed.signature)
        .field(1, b"k");
    let mut service = signed.service();
    service.expect_status(&keystore(VERIFY, body.bytes()), Status::Success);
    let without_signature = Body::new().field(1, b"k").field(2, &signed.hash);
    let request = keystore(VERIFY, without_signature.bytes());
    service.expect_status(&request, Status::PsaErrorInvalidSignature);
}

#[test]
fn a_hash_of_another_length_is_invalid_argument() {
    let signed = Signed::short();
    for length in [0, 1, 31, 33, 64] {
        let request = verify(b"k", &vec![0; length], &signed.signature);
        let mut service = signed.service();
        service.expect_status(&request, Status::PsaErrorInvalidArgument);
    }
}

#[test]
fn another_applications_key_does_not_exist() {
    let signed = Signed::short();
    let request = signed.request().sent_by(SECOND);
    let mut service = signed.service();
    service.expect_status(&request, Status::PsaErrorDoesNotExist);
}

// The order: each request has the fault of its name and every later one that can be had with it.

#[test]
fn the_name_comes_before_all_others() {
    for name in [&b""[..], b"a b", &[b'k'; 33]] {
        let mut service = Signed::short().service();
        let request = verify(name, &[], &[]);
        service.expect_status(&request, Status::PsaErrorInvalidArgument);
    }
}

#[test]
fn does_not_exist_comes_before_the_hash() {
    let mut service = Signed::short().service();
    let request = verify(b"other", &[], &[]);
    service.expect_status(&request, Status::PsaErrorDoesNotExist);
}

#[test]
fn not_permitted_comes_before_the_hash() {
    let key = Key {
        data: vec![1],
        verify_allowed: false,
        export_allowed: true,
        ..key(b"k")
    };
    let mut service = Service::new();
    service.expect_status(&import(&key), Status::Success);
    service.expect_status(&verify(b"k", &[], &[]), Status::PsaErrorNotPermitted);
    service.expect_status(&export(b"k"), Status::Success);
}

#[test]
fn the_hash_comes_before_the_key() {
    let signed = Signed {
        data: vec![1],
        hash: vec![0; 31],
        ..Signed::short()
    };
    signed.expect(Status::PsaErrorInvalidArgument);
}

#[test]
fn the_key_comes_before_the_signature() {
    let signed = Signed {
        data: vec![1],
        signature: Vec::new(),
        ..Signed::short()
    };
    signed.expect(Status::PsaErrorNotSupported);
}
