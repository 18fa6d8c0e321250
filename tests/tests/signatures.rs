//! Published and made signatures through the compiled service and the reference: document 02,
//! "Checking signatures". tests/vectors/README.md says where they are from.

use razidkot_tests::ask::*;
use razidkot_tests::foreign;
use razidkot_tests::generate::Random;
use razidkot_tests::run::for_seeds;
use razidkot_tests::signatures::{nist, rsa_public_key, statuses, Signed, Vector};
use reference::rsa::{self, Outcome, Verification};

/// What the second program's bare verification says; the compiled one says the same, and of the
/// power the same count.
fn verification(signed: &Signed) -> Verification {
    let Signed {
        data,
        bits,
        hash,
        signature,
        title,
    } = signed;
    let verification = rsa::verify(data, (*bits).into(), hash, signature);
    let proved = foreign::verify(data, (*bits).into(), hash, signature);
    let expected = (
        verification.outcome.number(),
        verification.multiplications.into(),
    );
    assert_eq!(proved, expected, "{title}");
    verification
}

fn outcome(signed: &Signed) -> Outcome {
    verification(signed).outcome
}

/// Where the key has Import's bits; of others it is not supported, whatever the signature.
fn assert_statuses(all: &[Signed], status: u16) {
    for (signed, answered) in all.iter().zip(statuses(all)) {
        let expected = signed.status_or_unsupported(status);
        assert_eq!(answered, expected, "{}", signed.title);
    }
}

fn published() -> Vec<Vector> {
    [nist("SigVer15_186-3.rsp"), nist("SigVer15EMTest.txt")].concat()
}

#[test]
fn nist_has_15_good_and_105_bad_signatures_of_five_moduli() {
    let vectors = published();
    let good = vectors.iter().filter(|vector| vector.is_good).count();
    assert_eq!((good, vectors.len() - good), (15, 105));
    for bits in [1_024, 1_536, 2_048, 3_072, 4_096] {
        let of_bits = vectors.iter().filter(|vector| vector.signed.bits == bits);
        let good = of_bits.clone().filter(|vector| vector.is_good).count();
        assert_eq!((good, of_bits.count()), (3, 24));
    }
}

#[test]
fn the_second_program_judges_nists_signatures_as_nist_does() {
    for vector in published() {
        let is_good = outcome(&vector.signed) == Outcome::Valid;
        let title = &vector.signed.title;
        assert_eq!(is_good, vector.is_good, "{title}: {}", vector.result);
    }
}

#[test]
fn the_service_judges_nists_signatures_of_its_lengths_as_nist_does() {
    let vectors = published();
    let all: Vec<_> = vectors.iter().map(|vector| vector.signed.clone()).collect();
    for (vector, status) in vectors.iter().zip(statuses(&all)) {
        let expected = if vector.is_good {
            SUCCESS
        } else {
            INVALID_SIGNATURE
        };
        let expected = vector.signed.status_or_unsupported(expected);
        let title = &vector.signed.title;
        assert_eq!(status, expected, "{title}: {}", vector.result);
    }
}

#[test]
fn signatures_of_every_modulus_and_exponent_are_good() {
    assert_eq!((Signed::good().len(), Signed::supported().len()), (23, 12));
    assert_statuses(Signed::good(), SUCCESS);
}

#[test]
fn another_structure_or_number_is_an_invalid_signature() {
    assert_eq!(Signed::bad().len(), 200);
    assert_statuses(Signed::bad(), INVALID_SIGNATURE);
}

#[test]
fn other_key_data_is_not_supported() {
    assert_eq!(Signed::unsupported().len(), 79);
    assert_statuses(Signed::unsupported(), NOT_SUPPORTED);
}

/// Every bit of hash and signature of a short key, and some of longer ones.
#[test]
fn a_bit_changed_in_hash_or_signature_is_an_invalid_signature() {
    let mut changed = Vec::new();
    for signed in Signed::good() {
        let is_first = signed == &Signed::supported()[0];
        let step = if is_first { 1 } else { 97 };
        for bit in (0..8 * signed.hash.len()).step_by(step) {
            let mut other = signed.clone();
            other.hash[bit / 8] ^= 1 << (bit % 8);
            changed.push(other);
        }
        for bit in (0..8 * signed.signature.len()).step_by(step) {
            let mut other = signed.clone();
            other.signature[bit / 8] ^= 1 << (bit % 8);
            changed.push(other);
        }
    }
    assert_statuses(&changed, INVALID_SIGNATURE);
}

/// Another number in the key makes a good signature a bad one; what is no key at all is told so.
#[test]
fn a_bit_changed_in_the_key_is_judged_as_the_second_program_does() {
    let signed = &Signed::supported()[0];
    let changed: Vec<_> = (0..8 * signed.data.len())
        .map(|bit| {
            let mut other = signed.clone();
            other.data[bit / 8] ^= 1 << (bit % 8);
            other
        })
        .collect();
    let statuses = statuses(&changed);
    for (other, status) in changed.iter().zip(&statuses) {
        let expected = match outcome(other) {
            Outcome::Valid => SUCCESS,
            Outcome::InvalidSignature => INVALID_SIGNATURE,
            Outcome::InvalidKey => NOT_SUPPORTED,
        };
        assert_eq!(*status, expected);
    }
    let count = |status| statuses.iter().filter(|&&other| other == status).count();
    assert_eq!(count(SUCCESS), 0);
    assert!(count(INVALID_SIGNATURE) > 2_000 && count(NOT_SUPPORTED) > 50);
}

#[test]
fn the_power_takes_the_multiplications_of_the_written_rule() {
    for (exponent, multiplications) in [(3, 2), (17, 5), (65_537, 17), (4_294_967_295_u32, 62)] {
        let is_its = |signed: &&Signed| signed.title.ends_with(&format!("-{exponent}"));
        let of_exponent: Vec<_> = Signed::good().iter().filter(is_its).collect();
        assert!(of_exponent.len() >= 5);
        for signed in of_exponent {
            assert_eq!(verification(signed).multiplications, multiplications);
        }
    }
}

/// Of any odd numbers: most moduli are no product of two primes, and any exponent has its count.
#[test]
fn generated_keys_and_signatures_have_the_same_outcome_and_count() {
    let mut outcomes = [0; 3];
    for_seeds(4_000, |random| {
        let signed = generated(random);
        let verification = verification(&signed);
        outcomes[usize::from(verification.outcome.number())] += 1;
    });
    let [valid, signature, key] = outcomes;
    assert!(valid == 0 && signature > 1_000 && key > 300, "{outcomes:?}");
}

/// Limbs that are all ones or all zeros are common, since carries and quotients go wrong there.
fn generated(random: &mut Random) -> Signed {
    let length = random.pick(&[128, 129, 136, 192, 255, 256]);
    let mut modulus = some_number(random, length);
    modulus[0] |= random.pick(&[0x80, 0x80, 0x80, 0x80, 0x40]);
    modulus[length - 1] |= !random.once_in(16) as u8;
    let mut signature = some_number(random, length);
    if random.once_in(8) {
        signature = modulus.clone();
    }
    if random.once_in(2) {
        signature[0] = 0;
    }
    let exponent = match random.below(3) {
        0 => random.pick(&[3_u32, 17, 65_537, u32::MAX]),
        _ => random.number() as u32 | 1,
    };
    Signed {
        title: "generated".to_string(),
        data: rsa_public_key(&modulus, &exponent.to_be_bytes()),
        bits: 8 * length as u16,
        hash: random.bytes(32),
        signature,
    }
}

fn some_number(random: &mut Random, length: usize) -> Vec<u8> {
    let mut number = random.bytes(length);
    for limb in number.rchunks_mut(8) {
        match random.below(4) {
            0 => limb.fill(0),
            1 => limb.fill(0xFF),
            _ => {}
        }
    }
    number
}
