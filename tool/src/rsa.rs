//! RSA public keys in strict DER: RSAPublicKey (PKCS#1, RFC 8017) and SubjectPublicKeyInfo (RFC
//! 3279).

const INTEGER: u8 = 0x02;
const BIT_STRING: u8 = 0x03;
const SEQUENCE: u8 = 0x30;

/// The object identifier rsaEncryption, and NULL.
const RSA_ENCRYPTION: &[u8] = b"\x06\x09\x2A\x86\x48\x86\xF7\x0D\x01\x01\x01\x05\x00";

/// How many bits the modulus of an RSAPublicKey has; nothing if it is none.
pub fn modulus_bits(der: &[u8]) -> Option<u32> {
    let (modulus, rest) = value(INTEGER, whole(SEQUENCE, der)?)?;
    let modulus = positive(modulus)?;
    positive(whole(INTEGER, rest)?)?;
    let bits = u32::try_from(modulus.len()).ok()?.checked_mul(8)?;
    Some(bits - modulus[0].leading_zeros())
}

/// What stands for the key in a SubjectPublicKeyInfo whose algorithm is RSA.
pub fn contained_key(der: &[u8]) -> Option<&[u8]> {
    let (algorithm, rest) = value(SEQUENCE, whole(SEQUENCE, der)?)?;
    let (&unused, key) = whole(BIT_STRING, rest)?.split_first()?;
    (algorithm == RSA_ENCRYPTION && unused == 0).then_some(key)
}

/// Is it a sequence whose first number is 0 or 1? So begin private keys: RSAPrivateKey,
/// ECPrivateKey, PrivateKeyInfo.
pub fn begins_with_version(der: &[u8]) -> bool {
    let first = whole(SEQUENCE, der).and_then(|inside| value(INTEGER, inside));
    matches!(first, Some(([0 | 1], _)))
}

/// The bytes of a positive number without its sign; nothing for 0, a negative number, or a needless
/// zero before it.
fn positive(integer: &[u8]) -> Option<&[u8]> {
    match integer {
        [0, first, ..] => (*first >= 0x80).then(|| &integer[1..]),
        [first, ..] => (1..0x80).contains(first).then_some(integer),
        [] => None,
    }
}

/// A value with this tag and nothing behind it.
fn whole(tag: u8, der: &[u8]) -> Option<&[u8]> {
    let (value, rest) = value(tag, der)?;
    rest.is_empty().then_some(value)
}

/// A value with this tag, and what is behind it.
fn value(tag: u8, der: &[u8]) -> Option<(&[u8], &[u8])> {
    let rest = der.strip_prefix(&[tag])?;
    let (length, rest) = length(rest)?;
    rest.split_at_checked(length)
}

/// A length in its shortest form, and what is behind it.
fn length(der: &[u8]) -> Option<(usize, &[u8])> {
    let (&first, rest) = der.split_first()?;
    if first < 0x80 {
        return Some((first.into(), rest));
    }
    // More than four bytes of length are no key's.
    let count = usize::from(first & 0x7F);
    let (bytes, rest) = rest.split_at_checked(count).filter(|_| count <= 4)?;
    let length = bytes
        .iter()
        .fold(0, |sum, &byte| sum << 8 | usize::from(byte));
    let is_shortest = length >= 0x80 && *bytes.first()? > 0;
    is_shortest.then_some((length, rest))
}
