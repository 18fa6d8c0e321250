//! Signatures checked: the bare verification beside OpenSSL's, and whole requests through the call.

use crate::calls;
use crate::registries::FULL;
use crate::rows::{digest, Row, Turn};
use razidkot_tests::ask::*;
use razidkot_tests::foreign;
use razidkot_tests::signatures::Signed;
use reference::rsa::{self, Outcome};
use reference::rules;
use std::hint::black_box;
use std::time::Instant;

/// Bits and exponent, and the operations of a turn.
const KEYS: [(&str, usize); 8] = [
    ("1024-3", 5_000),
    ("1024-65537", 2_000),
    ("2048-3", 2_000),
    ("2048-65537", 500),
    ("3072-3", 1_000),
    ("3072-65537", 200),
    ("4096-3", 500),
    ("4096-65537", 100),
];

pub fn rows() -> Vec<Row> {
    let signed = KEYS.map(|(title, each_turn)| (signed(title), each_turn));
    let bare = signed.iter().map(|&(signed, each)| bare(signed, each));
    // Import takes no key of 1,024 bits, and Verify answers 1134 for one from before.
    let served = signed.iter().filter(|(signed, _)| signed.bits >= 2_048);
    let requests = served.map(|&(signed, each)| requests(signed, each));
    bare.chain(requests).collect()
}

fn signed(title: &str) -> &'static Signed {
    let signed = Signed::good().iter().find(|signed| signed.title == title);
    signed.expect("a kept key")
}

/// Bits, then the exponent.
fn title(signed: &Signed) -> String {
    signed.title.replace('-', " bits, ")
}

/// The key is read each time, but for OpenSSL's own public-key operation.
fn bare(signed: &'static Signed, each_turn: usize) -> Row {
    let Signed {
        data,
        hash,
        signature,
        ..
    } = signed;
    let bits = u32::from(signed.bits);
    let proved = move || foreign::verify(black_box(data), bits as usize, hash, signature).0 == 0;
    let reference =
        move || rsa::verify(black_box(data), bits, hash, signature).outcome == Outcome::Valid;
    let mut programs = vec![
        ("proved", turn(each_turn, proved)),
        ("reference", turn(each_turn, reference)),
    ];
    programs.extend(openssl(signed, each_turn));
    Row {
        name: format!("verify, {}", title(signed)),
        digest: digest(&[data, hash, signature]),
        each_turn,
        programs,
    }
}

#[cfg(openssl)]
fn openssl(signed: &'static Signed, each_turn: usize) -> Vec<(&'static str, Turn)> {
    use crate::openssl::{read_and_verify, Key};
    let Signed {
        data,
        hash,
        signature,
        ..
    } = signed;
    let key = Key::read(data);
    let operation = move || key.verify(black_box(hash), signature);
    let with_key = move || read_and_verify(black_box(data), hash, signature);
    vec![
        ("OpenSSL", turn(each_turn, operation)),
        ("OpenSSL with the key read", turn(each_turn, with_key)),
    ]
}

/// Where Debian's libssl-dev is not.
#[cfg(not(openssl))]
fn openssl(_: &'static Signed, _: usize) -> Vec<(&'static str, Turn)> {
    Vec::new()
}

fn turn(each_turn: usize, verify: impl Fn() -> bool + 'static) -> Turn {
    Box::new(move || {
        let start = Instant::now();
        for _ in 0..each_turn {
            assert!(black_box(verify()), "a good signature");
        }
        start.elapsed()
    })
}

/// The key is one of 32 in a full registry, the last of its line.
fn requests(signed: &'static Signed, each_turn: usize) -> Row {
    let application = FULL.application_name(0);
    let name = FULL.key_name(0, 3);
    let ask = |opcode, body: &[u8]| request(opcode, Some(&application), body);
    let destroy = ask(DESTROY, &name_body(&name));
    let import = ask(IMPORT, &import_body(&signed.key(&name)));
    let outcome = rules::run(&FULL.bytes(), &[destroy, import].concat());
    assert_eq!(outcome.counters.served[0], 2);
    let verify = ask(VERIFY, &signed.body(&name));
    let name = format!("verify requests, {}", title(signed));
    calls::row_of(name, (&outcome.registry, &[]), &[verify], each_turn)
}
