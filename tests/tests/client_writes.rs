//! Requests that the compiled client writes against the reference's: what is said, and every byte of
//! the buffer. Document 02, "The client's half", its last sentence, and "Checking signatures"; document
//! 01's bounds.

use razidkot_tests::ask::{DESTROY, EXPORT, IMPORT, LIST_OPCODES, OPCODES, VERIFY};
use razidkot_tests::client_asked::*;
use razidkot_tests::client_written::Written;
use razidkot_tests::run::for_seeds;

const ENOUGH: usize = 5_120;
const BUFFERS: [usize; 5] = [0, 28, 5_119, ENOUGH, 6_000];

/// The code that both say of a request.
fn code_of(asked: &Asked, length: usize) -> u32 {
    Written::default().compare(asked, length).code
}

#[test]
fn generated_requests_are_written_alike_and_every_order_of_two_refusals_is_reached() {
    let mut written = Written::default();
    for_seeds(60_000, |random| {
        let length = random.pick(&[ENOUGH, ENOUGH, ENOUGH, 6_000, 5_121, 5_119, 0]);
        let mut asked = Asked::generate(random);
        if random.once_in(2) {
            for _ in 0..2 {
                let refusal = random.pick(&refusals_of(asked.opcode));
                asked = asked.with_fault(random, refusal);
            }
        }
        written.compare(&asked, length);
    });
    written.assert_all(100);
}

#[test]
fn every_bound_with_every_other_is_judged_alike() {
    let mut written = Written::default();
    let applications = [(0, false), (0, true), (1, true), (64, true), (65, true)];
    let keys = each_with_each(&[0, 1, 32, 33], &[0, 1, 600, 601]);
    let keys = each_with_each(&keys, &[1_024, 2_048, 2_056, 4_096, 4_104]);
    for_seeds(1, |random| {
        for ((length, named), ((name, data), bits)) in each_with_each(&applications, &keys) {
            let asked = Asked {
                session: some_session(random),
                named,
                application: legal_name(random, length),
                name: legal_name(random, name),
                data: random.bytes(data),
                bits,
                ..Asked::good(IMPORT)
            };
            for (opcode, length) in each_with_each(&OPCODES, &BUFFERS) {
                let types = [(1, 1), (2, 1), (1, 2), (2, 2), (0, 1), (2, 3)];
                let (content_type, accept_type) = random.pick(&types);
                let asked = Asked {
                    opcode,
                    content_type,
                    accept_type,
                    hash: random.pick(&[vec![1; 31], vec![1; 32], vec![1; 32]]),
                    signature: random.pick(&[vec![2; 256], vec![2; 4_025], vec![2; 4_057]]),
                    ..asked.clone()
                };
                written.compare(&asked, length);
            }
        }
    });
    written.assert_all(10);
}

#[test]
fn a_buffer_has_5120_bytes_or_more_whatever_the_request() {
    for opcode in OPCODES {
        for (length, code) in [
            (0, 1),
            (28, 1),
            (5_119, 1),
            (ENOUGH, 0),
            (5_121, 0),
            (6_000, 0),
        ] {
            assert_eq!(code_of(&Asked::good(opcode), length), code, "{length}");
        }
    }
}

#[test]
fn an_application_name_has_1_to_64_bytes_of_0x21_to_0x7e() {
    for opcode in OPCODES {
        for length in 0..=130 {
            let asked = Asked {
                application: vec![b'n'; length],
                ..Asked::good(opcode)
            };
            let is_legal = (1..=64).contains(&length);
            let code = if is_legal {
                0
            } else {
                APPLICATION_NAME_ILLEGAL
            };
            assert_eq!(code_of(&asked, ENOUGH), code, "{length}");
            let nobody = Asked {
                named: false,
                ..asked
            };
            assert_eq!(code_of(&nobody, ENOUGH), 0, "nobody is named");
        }
    }
    for (place, byte) in each_with_each(&(0..64).collect::<Vec<_>>(), &ALL_BYTES) {
        let mut asked = Asked {
            application: vec![b'n'; 64],
            ..Asked::good(LIST_OPCODES)
        };
        asked.application[place] = byte;
        let is_legal = (0x21..=0x7E).contains(&byte);
        let code = if is_legal {
            0
        } else {
            APPLICATION_NAME_ILLEGAL
        };
        assert_eq!(code_of(&asked, ENOUGH), code, "{byte} at {place}");
    }
}

const ALL_BYTES: [u8; 256] = {
    let mut bytes = [0; 256];
    let mut byte = 0;
    while byte < 256 {
        bytes[byte] = byte as u8;
        byte += 1;
    }
    bytes
};

#[test]
fn a_key_name_has_1_to_32_bytes_of_0x21_to_0x7e() {
    for opcode in [IMPORT, DESTROY, EXPORT, VERIFY] {
        for length in 0..=70 {
            let asked = Asked {
                name: vec![b'k'; length],
                ..Asked::good(opcode)
            };
            let is_legal = (1..=32).contains(&length);
            let code = if is_legal { 0 } else { KEY_NAME_ILLEGAL };
            assert_eq!(code_of(&asked, ENOUGH), code, "{length}");
        }
        for (place, byte) in each_with_each(&(0..32).collect::<Vec<_>>(), &ALL_BYTES) {
            let mut asked = Asked {
                name: vec![b'k'; 32],
                ..Asked::good(opcode)
            };
            asked.name[place] = byte;
            let is_legal = (0x21..=0x7E).contains(&byte);
            let code = if is_legal { 0 } else { KEY_NAME_ILLEGAL };
            assert_eq!(code_of(&asked, ENOUGH), code, "{byte} at {place}");
        }
    }
}

#[test]
fn data_has_1_to_600_bytes_of_any_content() {
    for_seeds(700, |random| {
        let length = random.below(700);
        for length in [length, 0, 1, 127, 128, 600, 601] {
            let asked = Asked {
                data: random.bytes(length),
                ..Asked::good(IMPORT)
            };
            let is_legal = (1..=600).contains(&length);
            let code = if is_legal { 0 } else { DATA_ILLEGAL };
            assert_eq!(code_of(&asked, ENOUGH), code, "{length}");
        }
    });
}

#[test]
fn bits_are_2048_3072_or_4096() {
    let powers = (0..32).flat_map(|power| {
        let power: u32 = 1 << power;
        [power - 1, power, power + 1, power.wrapping_add(2_048)]
    });
    for bits in (0..=5_000).chain(BITS).chain(powers) {
        let asked = Asked {
            bits,
            ..Asked::good(IMPORT)
        };
        let is_legal = [2_048, 3_072, 4_096].contains(&bits);
        let code = if is_legal { 0 } else { BITS_ILLEGAL };
        assert_eq!(code_of(&asked, ENOUGH), code, "{bits}");
    }
}

#[test]
fn a_hash_has_32_bytes() {
    for length in (0..=70).chain([256 + 32, 5_000, 65_536 + 32]) {
        let asked = Asked {
            hash: vec![0x33; length],
            ..Asked::good(VERIFY)
        };
        let code = if length == 32 { 0 } else { HASH_ILLEGAL };
        assert_eq!(code_of(&asked, ENOUGH), code, "{length}");
    }
}

/// Either side of 4,096 bytes, by a name of 3 bytes and by one of 32.
#[test]
fn a_verify_body_has_at_most_4096_bytes() {
    for name in [vec![b'k'; 3], vec![b'k'; 32]] {
        let longest = 4_096 - (2 + name.len()) - 34 - 3;
        for length in (0..300).chain(longest - 200..longest + 200) {
            let asked = Asked {
                name: name.clone(),
                signature: vec![0x44; length],
                ..Asked::good(VERIFY)
            };
            let code = if length <= longest { 0 } else { BODY_TOO_LONG };
            assert_eq!(code_of(&asked, ENOUGH), code, "{length}");
        }
    }
    for length in [5_120, 65_536, 65_536 + 256, 1 << 20] {
        let asked = Asked {
            signature: vec![0x44; length],
            ..Asked::good(VERIFY)
        };
        assert_eq!(code_of(&asked, ENOUGH), BODY_TOO_LONG, "{length}");
    }
}

#[test]
fn any_session_any_provider_and_either_flag_is_written() {
    for_seeds(2_000, |random| {
        for opcode in OPCODES {
            let asked = Asked {
                session: some_session(random),
                named: random.once_in(2),
                provider: random.number() as u32,
                export_allowed: random.once_in(2),
                verify_allowed: random.once_in(2),
                ..Asked::good(opcode)
            };
            assert_eq!(code_of(&asked, ENOUGH), 0);
        }
    });
}
