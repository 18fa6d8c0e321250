//! The proved program `audit ROSTER LIST JOURNAL REQUESTS RESPONSES` against the reference's auditor, on
//! files: document 02, "The auditor".

mod scratch;

use razidkot_tests::ask::{record, registry_of, request, PING};
use razidkot_tests::generate::Random;
use razidkot_tests::requests::{applications, requests};
use razidkot_tests::run::{for_seeds, Outcomes};
use reference::rules;
use scratch::Scratch;
use std::ffi::OsStr;
use std::fs;
use std::path::{Path, PathBuf};
use std::process::Command;

/// What `./prove audit_program` writes.
const PROGRAM: &str = concat!(env!("CARGO_MANIFEST_DIR"), "/../target/bin/audit_program");
const FILES: [&str; 5] = ["roster", "list", "journal", "requests", "responses"];

/// What it prints; its status is 0 and it complains of nothing.
fn printed(arguments: &[impl AsRef<OsStr>]) -> String {
    let is_there = Path::new(PROGRAM).exists();
    assert!(
        is_there,
        "{PROGRAM} is missing: run `./prove audit_program`"
    );
    let output = Command::new(PROGRAM).args(arguments).output();
    let output = output.expect("a program that can be run");
    assert!(
        output.status.success() && output.stderr.is_empty(),
        "{output:?}"
    );
    String::from_utf8(output.stdout).expect("text")
}

/// Both auditors on files with these bytes.
fn compare(scratch: &Scratch, files: &[Vec<u8>; 5]) -> String {
    let paths: Vec<PathBuf> = FILES
        .iter()
        .zip(files)
        .map(|(name, bytes)| {
            let path = scratch.path().join(name);
            fs::write(&path, bytes).expect("a folder");
            path
        })
        .collect();
    let expected = reference::audit(files.each_ref().map(|bytes| Some(&bytes[..])));
    let text = printed(&paths);
    assert_eq!(text.as_bytes(), expected);
    text
}

fn names() -> Vec<Vec<u8>> {
    [&b"scanner"[..], b"viewer", b"archive"]
        .map(<[u8]>::to_vec)
        .to_vec()
}

/// Files that are good: a capture behind the records of requests before it.
fn good(random: &mut Random) -> [Vec<u8>; 5] {
    let registry = registry_of(&names());
    let some =
        |random: &mut Random, most| requests(random, &applications(&registry), most).concat();
    let before = rules::run(&registry, &some(random, 12));
    let journal = before.records.concat();
    let mut restored = registry.clone();
    let mut state = vec![0; reference::JOURNAL_STATE_SIZE];
    reference::journal_begin(&mut state).expect("a state");
    reference::journal_read(&mut state, &mut restored, &journal).expect("a good journal");
    let stream = some(random, 30);
    let responses = rules::run(&restored, &stream).responses.concat();
    let roster = names().iter().flat_map(|name| record(1, name)).collect();
    [roster, Vec::new(), journal, stream, responses]
}

#[test]
fn captures_and_their_changes_have_the_reference_s_verdict_and_bill() {
    let scratch = Scratch::new("audit-changes");
    let mut outcomes = Outcomes::default();
    for_seeds(150, |random| {
        let mut files = good(random);
        let responses = &mut files[4];
        match random.below(4) {
            0 if !responses.is_empty() => {
                let at = random.below(responses.len());
                responses[at] ^= 1 << random.below(8);
            }
            1 => responses.truncate(random.below(responses.len() + 1)),
            2 => responses.extend(random.bytes(9)),
            _ => (),
        }
        let text = compare(&scratch, &files);
        outcomes.count(text.split_whitespace().next().unwrap_or_default());
        if text.contains("\nkey ") {
            outcomes.count("keys");
        }
    });
    outcomes.assert_often(&["accepted", "wrong", "keys"], 20);
}

/// In this order: the roster, the list, the journal. A cut end of the journal is no fault.
#[test]
fn a_start_that_is_refused_is_said_in_order() {
    let scratch = Scratch::new("audit-starts");
    for_seeds(60, |random| {
        let mut files = good(random);
        for file in &mut files[..3] {
            if random.once_in(2) {
                let length = random.below(9);
                file.extend(random.bytes(length));
            }
        }
        if random.once_in(3) && !files[2].is_empty() {
            let at = random.below(files[2].len());
            files[2][at] ^= 1;
        }
        compare(&scratch, &files);
    });
}

/// Longer than a few chunks of 64 KiB, with the wrong byte near the end.
#[test]
fn long_streams_are_read_in_chunks() {
    let scratch = Scratch::new("audit-long");
    let mut files = good(&mut Random::new(0));
    files[2].clear();
    files[3] = request(PING, None, b"").repeat(20_000);
    let ping = rules::run(&registry_of(&names()), &files[3][..28]).responses;
    files[4] = ping[0].repeat(20_000);
    assert!(compare(&scratch, &files).starts_with("accepted\ntaken 560000\n"));
    files[4][ping[0].len() * 19_998 + 3] ^= 1;
    assert!(compare(&scratch, &files).starts_with("wrong 19999 3\n"));
}

#[test]
fn a_file_that_can_not_be_read_comes_before_all() {
    let scratch = Scratch::new("audit-missing");
    let mut files = good(&mut Random::new(1));
    files[0] = b"\x02\x00\x00".to_vec();
    assert_eq!(compare(&scratch, &files), "roster R2\n");
    let paths = FILES.map(|name| scratch.path().join(name));
    for place in 0..5 {
        assert_eq!(printed(&paths[..place]), "no file\n");
        let mut missing = paths.clone();
        missing[place] = scratch.path().join("there is none");
        assert_eq!(printed(&missing), "no file\n");
    }
}
