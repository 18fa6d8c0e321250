//! The client's header and the programs under examples/ that have it: they compile, run and print
//! what is expected. Layouts and numbers are the same in C, in Rust, in the archive and in the
//! second program.

mod programs;

use programs::{compile, printed, printed_by_package, repository, C, CPP};
use razidkot_client::raw::{self, Answer, OutputNumbers};
use razidkot_client::{
    BodyFormat, Opcode, Operation, Provider, ReadRefusal, Reader, Reading, Request, Response,
    Status, WriteRefusal, LEAST_REQUEST_BUFFER,
};
use razidkot_tests::service::responses;
use std::collections::BTreeMap;
use std::fmt::Debug;
use std::fs;
use std::mem::{offset_of, size_of};
use std::path::Path;
use std::process::Command;

const EXPECTED: &str = include_str!("../../examples/client-expected.txt");

// ---- The examples

#[test]
fn the_c_client_prints_what_is_expected() {
    let source = Path::new("examples/c/client.c");
    let program = compile(C, source, &["client_abi", "abi"], "client");
    assert_eq!(printed(&mut Command::new(program)), EXPECTED);
}

#[test]
fn the_rust_client_prints_what_is_expected() {
    assert_eq!(printed_by_package("razidkot-client-example"), EXPECTED);
}

// ---- The header

/// A program that includes these files and nothing else, in C and in C++.
fn expect_headers(headers: &[&str]) {
    let name = headers.join("-").replace(".h", "");
    let source = Path::new(env!("CARGO_TARGET_TMPDIR")).join(format!("{name}.txt"));
    let includes = headers.iter().map(|file| format!("#include \"{file}\"\n"));
    let text = includes.collect::<String>() + "int main(void) { return 0; }\n";
    fs::write(&source, text).expect("a folder for scratch files");
    compile(C, &source, &[], &format!("{name}-c"));
    compile(CPP, &source, &[], &format!("{name}-cpp"));
}

#[test]
fn each_header_stands_alone() {
    expect_headers(&["razidkot_client.h"]);
    expect_headers(&["razidkot.h"]);
    expect_headers(&["razidkot_status.h"]);
}

#[test]
fn the_headers_stand_beside_each_other() {
    expect_headers(&["razidkot.h", "razidkot_client.h"]);
    expect_headers(&["razidkot_client.h", "razidkot.h"]);
    expect_headers(&["razidkot_client.h", "razidkot_client.h"]);
}

/// The client's archive is all that is linked: no service.
#[test]
fn the_client_header_holds_of_the_archive_alone() {
    let source = Path::new("tests/c/client_interface.c");
    for (language, name) in [(C, "client-interface-c"), (CPP, "client-interface-cpp")] {
        let program = compile(language, source, &["client_abi"], name);
        assert_eq!(printed(&mut Command::new(program)), "");
    }
}

// ---- Layouts

/// Lines as tests/c/client_layouts.c prints them.
macro_rules! layout {
    ($c:literal, $rust:ty, $($field:ident: $kind:ty),+) => {{
        let mut lines = String::new();
        $(
            // Fails to compile for a field of another type.
            let _: fn(&$rust) -> &$kind = |value| &value.$field;
            let place = offset_of!($rust, $field);
            let size = size_of::<$kind>();
            lines += &format!("{}.{} {place} {size}\n", $c, stringify!($field));
        )+
        lines + &format!("{} {}\n", $c, size_of::<$rust>())
    }};
}

#[test]
fn the_structs_have_one_layout_in_c_cpp_and_rust() {
    let rust = [
        layout!("razidkot_client_request", raw::Request, code: u32, written: usize),
        layout!(
            "razidkot_client_output", OutputNumbers,
            kind: u32, major: u32, minor: u32, offset: u32, start: usize, length: usize
        ),
        layout!(
            "razidkot_client_answer", Answer,
            code: u32, status: u32, taken: usize, output: OutputNumbers
        ),
    ]
    .concat();
    let source = Path::new("tests/c/client_layouts.c");
    for (language, name) in [(C, "client-layouts-c"), (CPP, "client-layouts-cpp")] {
        let program = compile(language, source, &[], name);
        assert_eq!(printed(&mut Command::new(program)), rust);
    }
}

// ---- Numbers

/// The name and number of an enum's case or a size; a line that is neither has none. One that is not
/// decimal would be missed, and is a fault. The version is no number of the interface.
fn number_in(line: &str) -> Option<(String, u64)> {
    if line.starts_with("#define RAZIDKOT_VERSION") {
        return None;
    }
    let (name, number) = match line.strip_prefix("#define ") {
        Some(size) => size.split_once(' ')?,
        None => {
            let case = line.trim().strip_suffix(',').unwrap_or(line.trim());
            case.starts_with("RAZIDKOT_").then_some(case)?;
            case.split_once(" = ").expect("a case with its number")
        }
    };
    Some((name.to_string(), number.parse().expect("a decimal number")))
}

/// Every number that a header names: its enums' cases and its sizes.
fn numbers_in(header: &str) -> BTreeMap<String, u64> {
    let text = fs::read_to_string(repository().join("include").join(header)).expect("the header");
    let numbers: Vec<(String, u64)> = text.lines().filter_map(number_in).collect();
    let map: BTreeMap<String, u64> = numbers.iter().cloned().collect();
    assert_eq!(map.len(), numbers.len(), "a name stands twice");
    map
}

/// `WrongProviderID` as the header writes it: WRONG_PROVIDER_ID.
fn in_capitals(case: &impl Debug) -> String {
    let mut name = String::new();
    let mut after_small = false;
    for letter in format!("{case:?}").chars() {
        if after_small && letter.is_uppercase() {
            name.push('_');
        }
        after_small = letter.is_lowercase();
        name.push(letter.to_ascii_uppercase());
    }
    name
}

/// The header's rows for the cases of a Rust enum.
fn rows<T: Debug>(prefix: &str, cases: &[T], number: impl Fn(&T) -> u64) -> Vec<(String, u64)> {
    let row = |case| (format!("{prefix}{}", in_capitals(case)), number(case));
    cases.iter().map(row).collect()
}

fn named<const N: usize>(rows: [(&str, u64); N]) -> Vec<(String, u64)> {
    rows.map(|(name, number)| (format!("RAZIDKOT_CLIENT_{name}"), number))
        .to_vec()
}

fn sizes() -> Vec<(String, u64)> {
    use razidkot_client::*;
    named([
        ("LEAST_REQUEST_BUFFER", LEAST_REQUEST_BUFFER as u64),
        ("LONGEST_REQUEST", LONGEST_REQUEST as u64),
        ("STATE_SIZE", STATE_SIZE as u64),
        ("LONGEST_RESPONSE", LONGEST_RESPONSE as u64),
        ("MOST_ENTRIES", MOST_ENTRIES as u64),
        ("LONGEST_APPLICATION_NAME", LONGEST_APPLICATION_NAME as u64),
        ("LONGEST_KEY_NAME", LONGEST_KEY_NAME as u64),
        ("LONGEST_DATA", LONGEST_DATA as u64),
        ("HASH_SIZE", HASH_SIZE as u64),
        ("LONGEST_BODY", LONGEST_BODY as u64),
        ("LEAST_BITS", LEAST_BITS.into()),
        ("MOST_BITS", MOST_BITS.into()),
        ("BITS_STEP", BITS_STEP.into()),
    ])
}

/// What no enum of the crate has a number for, as the archive says it.
fn numbers_said() -> Vec<(String, u64)> {
    let began = |length: usize, opcode: u16, accept_type: u8| {
        raw::begin(&mut vec![0; length], opcode, 0, accept_type).into()
    };
    let said = |bytes: &[u8]| read(Opcode::Ping, bytes).code.into();
    let kind = |opcode: Opcode| read(opcode, &response(opcode, 0, b"")).output.kind.into();
    let wrote = |accept_type| raw::write_ping(&mut [0; 5_120], 0, 1, accept_type, false, b"").code;
    let ping = response(Opcode::Ping, 0, b"");
    let broken = read(Opcode::Ping, &response(Opcode::Ping, 7, b""));
    let ill_formed = raw::read(&mut [0; 1_037], b"").code.into();
    named([
        ("WRITE_WRITTEN", wrote(2).into()),
        ("WRITE_TYPE_UNLISTED", wrote(3).into()),
        ("BEGIN_FRESH", began(1_037, 1, 2)),
        ("BEGIN_WRONG_SIZE", began(1_036, 2, 0)),
        ("BEGIN_UNLISTED_OPCODE", began(1_037, 2, 0)),
        ("BEGIN_UNLISTED_TYPE", began(1_037, 1, 0)),
        ("READ_WAITING", said(&ping[..25])),
        ("READ_RESPONSE", said(&ping)),
        ("READ_STATE_ILL_FORMED", ill_formed),
        ("OUTPUT_NOTHING", kind(Opcode::PsaImportKey)),
        ("OUTPUT_VERSION", kind(Opcode::Ping)),
        ("OUTPUT_PROVIDERS", kind(Opcode::ListProviders)),
        ("OUTPUT_OPCODES", kind(Opcode::ListOpcodes)),
        ("OUTPUT_DATA", kind(Opcode::PsaExportPublicKey)),
        ("OUTPUT_OFFSET", broken.output.kind.into()),
    ])
}

#[test]
fn every_number_of_the_client_header_is_that_of_rust_and_the_archive() {
    let rust = [
        sizes(),
        numbers_said(),
        rows("RAZIDKOT_CLIENT_OPCODE_", &Opcode::ALL, |case| {
            case.number().into()
        }),
        rows("RAZIDKOT_CLIENT_PROVIDER_", &Provider::ALL, |case| {
            case.number().into()
        }),
        rows("RAZIDKOT_CLIENT_BODY_FORMAT_", &BodyFormat::ALL, |case| {
            case.number().into()
        }),
        rows("RAZIDKOT_CLIENT_WRITE_", &WriteRefusal::ALL, |case| {
            case.number().into()
        }),
        rows("RAZIDKOT_CLIENT_READ_", &ReadRefusal::ALL, |case| {
            case.number().into()
        }),
    ]
    .concat();
    assert_eq!(numbers_in("razidkot_client.h"), rust.into_iter().collect());
}

#[test]
fn every_status_of_the_header_is_that_of_rust_and_the_second_program() {
    let mut rust = rows("RAZIDKOT_", &Status::REFUSED, |case| case.number().into());
    rust.push((
        "RAZIDKOT_SUCCESS".to_string(),
        Status::Success.number().into(),
    ));
    assert_eq!(numbers_in("razidkot_status.h"), rust.into_iter().collect());
    let second = rows("RAZIDKOT_", &reference::Status::ALL, |case| {
        case.number().into()
    });
    assert_eq!(
        numbers_in("razidkot_status.h"),
        second.into_iter().collect()
    );
}

#[test]
fn opcodes_and_providers_are_those_of_the_second_program() {
    for number in 0..=u16::MAX {
        let ours = Opcode::from_number(number.into());
        let second = reference::Opcode::from_number(number);
        let provider = |opcode: reference::Opcode| opcode.provider().number();
        assert_eq!(
            ours.map(|opcode| (opcode.number(), opcode.provider().number())),
            second.map(|opcode| (opcode.number(), provider(opcode)))
        );
        let ours = Provider::from_number(number.into()).map(Provider::number);
        let second = reference::Provider::from_number(number.into());
        assert_eq!(ours, second.map(reference::Provider::number));
    }
}

// ---- Refusals: one input for each, its later faults all there, told alike by all three

/// Magic, H, version, provider, session, content type, content length, opcode, status, body.
fn response(opcode: Opcode, status: u16, body: &[u8]) -> Vec<u8> {
    [
        &b"\x10\xA7\xC0\x5E\x14\x00\x01\x00"[..],
        &[opcode.provider().number() as u8],
        &[0; 8],
        &[1],
        &(body.len() as u32).to_le_bytes(),
        &opcode.number().to_le_bytes(),
        &status.to_le_bytes(),
        body,
    ]
    .concat()
}

fn read(opcode: Opcode, bytes: &[u8]) -> Answer {
    let mut state = [0; razidkot_client::STATE_SIZE];
    assert_eq!(raw::begin(&mut state, opcode.number(), 0, 1), 0);
    raw::read(&mut state, bytes)
}

#[test]
fn write_refusals_are_judged_in_the_second_programs_order() {
    use reference::WriteRefusal::*;
    let pairs = [
        (WriteRefusal::BufferTooSmall, BufferTooSmall),
        (WriteRefusal::ApplicationNameIllegal, BadApplicationName),
        (WriteRefusal::KeyNameIllegal, BadKeyName),
        (WriteRefusal::DataIllegal, BadData),
        (WriteRefusal::BitsIllegal, BadBits),
        (WriteRefusal::HashIllegal, BadHash),
        (WriteRefusal::BodyTooLong, BodyTooLong),
    ];
    assert_eq!(pairs.map(|(ours, _)| ours), WriteRefusal::ALL);
    let [small, application, name, .., hash, body] = pairs;
    let of_verify = [small, application, name, hash, body];
    for (at, (ours, second)) in pairs.into_iter().take(5).enumerate() {
        // The faults before this one are mended.
        let mend = |place: usize, good: &'static [u8]| if at > place { good } else { b"" };
        let mut out = vec![0; if at > 0 { 5_120 } else { 5_119 }];
        let (application, name, data) = (mend(1, b"b"), mend(2, b"a"), mend(3, b"\xAA"));
        let said = raw::write_import(
            &mut out,
            0,
            1,
            1,
            true,
            application,
            name,
            data,
            0,
            true,
            true,
        );
        let operation = reference::Operation::ImportKey {
            name,
            data,
            bits: 0,
            export_allowed: true,
            verify_allowed: true,
        };
        let formats = reference::Formats::PROTOBUF;
        let second_said =
            reference::write_request(&mut out, 0, formats, Some(application), &operation);
        assert_eq!(second_said, Err(second));
        assert_eq!(
            (said.code, ours.number()),
            (second as u32 + 1, second as u32 + 1)
        );
    }
    for (at, (ours, second)) in of_verify.into_iter().enumerate() {
        let mend = |place: usize, good: &'static [u8]| if at > place { good } else { b"" };
        let mut out = vec![0; if at > 0 { 5_120 } else { 5_119 }];
        let (application, name, hash) = (mend(1, b"b"), mend(2, b"a"), mend(3, &[0; 32]));
        let signature = &[0; 4_096];
        let said = raw::write_verify(&mut out, 0, 1, 1, true, application, name, hash, signature);
        let operation = reference::Operation::VerifySignature {
            name,
            hash,
            signature,
        };
        let formats = reference::Formats::PROTOBUF;
        let second_said =
            reference::write_request(&mut out, 0, formats, Some(application), &operation);
        assert_eq!(second_said, Err(second));
        assert_eq!(
            (said.code, ours.number()),
            (second as u32 + 1, second as u32 + 1)
        );
    }
}

#[test]
fn read_refusals_are_judged_in_the_second_programs_order() {
    use reference::ReadRefusal::*;
    // Where a good response to an Export is damaged, and with which byte.
    let damages = [
        (ReadRefusal::WrongMagic, WrongMagic, 0, 0x11),
        (ReadRefusal::WrongHeaderSize, WrongHeaderSize, 4, 22),
        (ReadRefusal::WrongVersion, WrongVersion, 6, 2),
        (ReadRefusal::WrongContentType, WrongContentType, 17, 0),
        (ReadRefusal::NotItsRequests, NotItsRequests, 8, 0),
        (ReadRefusal::ContentTooLong, ContentTooLong, 20, 1),
        (ReadRefusal::UnreadableBody, UnreadableBody, 26, 0x0E),
    ];
    assert_eq!(damages.map(|(ours, ..)| ours), ReadRefusal::ALL);
    let opcode = reference::Opcode::from_number(7).expect("Export");
    for (at, &(ours, second, ..)) in damages.iter().enumerate() {
        let mut bytes = response(Opcode::PsaExportPublicKey, 0, b"\x0A\x00");
        for &(.., place, byte) in &damages[at..] {
            bytes[place] = byte;
        }
        let said = read(Opcode::PsaExportPublicKey, &bytes);
        let format = reference::BodyFormat::Protobuf;
        let second_said = reference::read_response(opcode, 0, format, &bytes);
        assert_eq!(second_said.reading, reference::Reading::Refused(second));
        assert_eq!(said.taken, second_said.taken);
        assert_eq!(
            (said.code, ours.number()),
            (second as u32 + 3, second as u32 + 3)
        );
    }
}

// ---- The client and the service, several requests at once

fn bytes_of(request: &Request) -> Vec<u8> {
    let mut buffer = [0; LEAST_REQUEST_BUFFER];
    let written = request.write(&mut buffer).expect("a request in the bounds");
    buffer[..written].to_vec()
}

/// All responses of a fresh connection to these bytes, joined.
fn served(bytes: &[u8]) -> Vec<u8> {
    responses(&[b"b".to_vec()], bytes, &[]).concat()
}

/// Hands the bytes to one reader after the other, in chunks of this length.
fn read_in_order(readers: &mut [Reader], bytes: &[u8], length: usize) {
    let mut first = 0;
    for mut chunk in bytes.chunks(length) {
        while !chunk.is_empty() {
            let answer = readers[first].read(chunk);
            chunk = &chunk[answer.taken..];
            if answer.said != Ok(Reading::Waiting) {
                first += 1;
            }
        }
    }
}

#[test]
fn status_17_goes_to_the_first_in_line_and_none_behind_it_is_answered() {
    let operations = [
        Operation::Ping,
        Operation::ExportPublicKey { name: b"a" },
        Operation::DestroyKey { name: b"a" },
        Operation::Ping,
    ];
    let requests = [1, 2, 3, 4].map(|session| {
        let operation = operations[session as usize - 1];
        Request::new(session, Some(b"b"), operation)
    });
    let mut sent = requests.map(|request| bytes_of(&request));
    // The first byte of the third is damaged on the way.
    sent[2][0] ^= 1;
    let responses = served(&sent.concat());
    for length in 1..=responses.len() {
        let mut readers = requests.map(|request| Reader::begin(&request));
        read_in_order(&mut readers, &responses, length);
        let statuses = readers.each_ref().map(|reader| match reader.said() {
            Ok(Reading::Response(Response { status, .. })) => Some(status),
            Ok(Reading::Waiting) => None,
            Err(refusal) => panic!("{refusal}"),
        });
        assert_eq!(statuses, [Some(0), Some(1140), Some(17), None]);
    }
}
