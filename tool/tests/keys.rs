//! The public key of a file: PEM, DER, and what is neither.

mod common;

use common::folder;
use common::keys::{Forms, DER, INFO_PEM, PEM};
use razidkot_tests::run::{for_seeds, Outcomes};
use razidkot_tool::key::{read, KeyFault, PublicKey};

/// A modulus of nine bits and the exponent 3.
const SMALL: &[u8] = b"\x30\x07\x02\x02\x01\x0D\x02\x01\x03";

fn assert_read(forms: &Forms) {
    let expected = PublicKey {
        data: forms.der.clone(),
        bits: Some(forms.bits),
    };
    for (name, file) in forms.files() {
        assert_eq!(read(file).as_ref(), Ok(&expected), "{name}");
    }
}

#[test]
fn the_four_forms_have_the_same_key() {
    assert_read(&Forms::fixed());
}

#[test]
fn keys_of_openssl_are_read() {
    let folder = folder("openssl_keys");
    let bits = [1_024, 1_032, 2_048];
    let made: Vec<_> = bits
        .iter()
        .filter_map(|&bits| Forms::made(&folder, bits))
        .collect();
    match made[..] {
        [] => assert_read(&Forms::fixed()),
        _ => made.iter().for_each(assert_read),
    }
}

#[test]
fn pem_may_have_text_around_it_and_any_line_ends() {
    let expected = read(&DER);
    let returns = PEM.replace('\n', "\r\n");
    let around = format!("a key\n--\n{PEM}\nno more\n");
    let one_line = PEM
        .replace('\n', "")
        .replace("KEY-----M", "KEY-----\nM")
        .replace("-----END", "\n-----END");
    let spaces = PEM.replace('\n', " \n\t ");
    for text in [&returns, &around, &one_line, &spaces, PEM.trim_end()] {
        assert_eq!(read(text.as_bytes()), expected, "{text}");
    }
}

#[test]
fn pem_that_is_no_public_key_is_refused() {
    let (whole, none) = (PEM.len(), KeyFault::NoRsaPublicKey("RSAPublicKey"));
    let no_info = KeyFault::NoRsaPublicKey("SubjectPublicKeyInfo of RSA");
    let other = |label: &str| KeyFault::OtherPem(label.into());
    let cases = [
        (PEM[..whole - 10].into(), KeyFault::PemNotWhole),
        (PEM.replace("END RSA", "END DSA"), KeyFault::PemNotWhole),
        (format!("\u{FEFF}{PEM}"), KeyFault::PemNotWhole),
        (PEM.replace('\n', "\r"), KeyFault::PemNotWhole),
        ([PEM, INFO_PEM].concat(), KeyFault::SeveralPemBlocks),
        (
            PEM.replace("RSA PUBLIC", "RSA PRIVATE"),
            other("RSA PRIVATE KEY"),
        ),
        (PEM.replace("RSA PUBLIC", "PRIVATE"), other("PRIVATE KEY")),
        (
            PEM.replace("RSA PUBLIC KEY", "CERTIFICATE"),
            other("CERTIFICATE"),
        ),
        (PEM.replace("RSA PUBLIC", "PUBLIC"), no_info),
        (INFO_PEM.replace("PUBLIC", "RSA PUBLIC"), none.clone()),
        (PEM.replace("MIIBCg", "MIIBCw"), none.clone()),
        (pem("RSA PUBLIC KEY", ""), none),
    ];
    for (text, fault) in cases {
        assert!(text != INFO_PEM && text != PEM, "{fault}");
        assert_eq!(read(text.as_bytes()), Err(fault), "{text}");
    }
}

fn pem(label: &str, base64: &str) -> String {
    format!("-----BEGIN {label}-----\n{base64}\n-----END {label}-----\n")
}

#[test]
fn base64_is_read_strictly() {
    let small = PublicKey {
        data: SMALL.to_vec(),
        bits: Some(9),
    };
    let read = |text| read(pem("RSA PUBLIC KEY", text).as_bytes());
    assert_eq!(read("MAcCAgENAgED"), Ok(small));
    // No base64 without its padding, with too much of it, in the middle, or with bits left over.
    for text in [
        "MAcCAgENAgE",
        "MAcCAgENAgED=",
        "MAcCAgENAgED====",
        "MAcC=gENAgED",
        "MAcCAgENAgF=",
        "MAcCAgENAg=D",
        "MA_CAgENAgED",
        "MA-CAgENAgED",
        "MAcCAgENA===",
        "Proc-Type: 4",
        "MAcCAgENAgED\0\0\0\0",
    ] {
        assert_eq!(read(text), Err(KeyFault::NotBase64), "{text}");
    }
}

// ---- DER made here

/// A value with its tag and its length in the shortest form.
fn der(tag: u8, value: &[u8]) -> Vec<u8> {
    let length = match value.len() {
        short @ ..0x80 => vec![short as u8],
        middle @ ..0x100 => vec![0x81, middle as u8],
        long => vec![0x82, (long >> 8) as u8, long as u8],
    };
    [&[tag], &length[..], value].concat()
}

fn integer(value: &[u8]) -> Vec<u8> {
    der(2, value)
}

fn sequence(parts: &[Vec<u8>]) -> Vec<u8> {
    der(0x30, &parts.concat())
}

fn encode(data: &[u8]) -> String {
    let digits = b"ABCDEFGHIJKLMNOPQRSTUVWXYZabcdefghijklmnopqrstuvwxyz0123456789+/";
    let four = |three: &[u8]| {
        let byte = |place: usize| u32::from(three.get(place).copied().unwrap_or(0));
        let number = byte(0) << 16 | byte(1) << 8 | byte(2);
        let digit = |place: usize| digits[(number >> (18 - 6 * place)) as usize % 64];
        [0, 1, 2, 3].map(|place| {
            if place > three.len() {
                b'='
            } else {
                digit(place)
            }
        })
    };
    let text = data.chunks(3).flat_map(four).collect();
    String::from_utf8(text).expect("ASCII")
}

#[test]
fn a_key_of_any_length_says_its_bits() {
    let mut ends = Outcomes::default();
    for_seeds(300, |random| {
        let length = 1 + random.below(300);
        let mut modulus = random.bytes(length);
        modulus[0] |= 1;
        let bits = 8 * length as u32 - modulus[0].leading_zeros();
        if modulus[0] >= 0x80 {
            modulus.insert(0, 0);
        }
        let data = sequence(&[integer(&modulus), integer(b"\x01\x00\x01")]);
        let text = encode(&data);
        ends.count(text.matches('=').count());
        let expected = Ok(PublicKey {
            data,
            bits: Some(bits),
        });
        assert_eq!(read(pem("RSA PUBLIC KEY", &text).as_bytes()), expected);
        assert_eq!(read(&expected.clone().expect("a key").data), expected);
    });
    ends.assert_often(&[0, 1, 2], 50);
}

#[test]
fn only_an_rsa_key_is_taken_out() {
    let info = Forms::fixed().info_der;
    // Another object identifier, other parameters than NULL, unused bits, no sequence inside.
    for (place, byte) in [(16, 2), (17, 4), (23, 1), (24, 0x31)] {
        let mut data = info.clone();
        assert_ne!(data[place], byte);
        data[place] = byte;
        let text = pem("PUBLIC KEY", &encode(&data));
        let fault = KeyFault::NoRsaPublicKey("SubjectPublicKeyInfo of RSA");
        assert_eq!(read(text.as_bytes()), Err(fault), "byte {place}");
        let bits = None;
        assert_eq!(
            read(&data.clone()),
            Ok(PublicKey { data, bits }),
            "byte {place}"
        );
    }
}

#[test]
fn data_that_is_no_strict_der_is_sent_as_it_is_and_says_no_bits() {
    let (three, modulus) = (integer(b"\x03"), integer(b"\x01\x0D"));
    assert_eq!(sequence(&[modulus.clone(), three.clone()]), SMALL);
    for data in [
        b"".to_vec(),
        b"\xAA\xBB".to_vec(),
        b"\x30".to_vec(),
        b"\x30\x80".to_vec(),
        b"\x30\x85\0\0\0\0\0".to_vec(),
        // Cut, bytes behind the sequence, behind the exponent, no exponent.
        SMALL[..8].to_vec(),
        [SMALL, b"\0"].concat(),
        sequence(&[modulus.clone(), three.clone(), b"\x05\x00".to_vec()]),
        der(0x30, &modulus),
        // Longer lengths than needed.
        b"\x30\x81\x07\x02\x02\x01\x0D\x02\x01\x03".to_vec(),
        b"\x30\x82\x00\x07\x02\x02\x01\x0D\x02\x01\x03".to_vec(),
        [b"\x30\x82\x00\x89", &DER[3..]].concat(),
        // Other tags.
        [b"\x31", &SMALL[1..]].concat(),
        sequence(&[der(3, b"\x01\x0D"), three.clone()]),
        sequence(&[modulus.clone(), der(4, b"\x03")]),
        // Needless and missing zeros, negative numbers, none at all, an exponent of 0.
        sequence(&[integer(b"\x00\x01\x0D"), three.clone()]),
        sequence(&[integer(b"\x81\x0D"), three.clone()]),
        sequence(&[integer(b""), three.clone()]),
        sequence(&[modulus.clone(), integer(b"\x00\x03")]),
        sequence(&[modulus.clone(), integer(b"\xFD")]),
        sequence(&[modulus.clone(), integer(b"\x00")]),
        sequence(&[modulus, integer(b"")]),
    ] {
        let expected = PublicKey {
            data: data.clone(),
            bits: None,
        };
        assert_eq!(read(&data), Ok(expected), "{data:02X?}");
    }
}

#[test]
fn der_that_begins_like_a_private_key_is_refused() {
    let number = integer(b"\x7F");
    for parts in [
        // RSAPrivateKey, PrivateKeyInfo, ECPrivateKey.
        [integer(b"\x00"), number.clone(), number],
        [integer(b"\x00"), sequence(&[]), der(4, b"key")],
        [integer(b"\x01"), der(4, b"key"), der(0xA0, b"")],
    ] {
        assert_eq!(read(&sequence(&parts)), Err(KeyFault::PrivateKey));
    }
}
