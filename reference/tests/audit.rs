//! The auditor by the library and by the executable.
//! Document 02, "The auditor".

mod common;

use common::journal::{destroy_record, import_record};
use common::*;
use reference::rules::run_with_list;
use reference::{audit, audit_from_readers, load_roster, verdict, Verdict, REGISTRY_SIZE};
use std::fs;
use std::io::{self, Read};
use std::path::{Path, PathBuf};
use std::process::Command;

/// The roster of `FIRST`.
fn roster() -> Vec<u8> {
    [&[1, FIRST.len() as u8, 0], FIRST].concat()
}

/// Each operation once, a refused request, and one that is not finished.
fn requests() -> Vec<u8> {
    let requests = [
        ping(),
        list_providers(),
        list_opcodes(1),
        import(&key(b"a")),
        export(b"a"),
        export(b"nobody's"),
        verify(b"a", &[0; 32], &[0; 256]),
        destroy(b"a"),
    ];
    let mut stream: Vec<u8> = requests.iter().flat_map(Request::bytes).collect();
    stream.extend(&PING_REQUEST[..20]);
    stream
}

/// What the rules answer, from the roster's registry.
fn responses_to(requests: &[u8]) -> Vec<Vec<u8>> {
    let mut registry = vec![0; REGISTRY_SIZE];
    load_roster(&roster(), &mut registry).expect("a good roster");
    run_with_list(&registry, &[], requests).responses
}

fn audit_text(journal: &[u8], requests: &[u8], responses: &[u8]) -> String {
    let roster = roster();
    let files = [&roster[..], &[], journal, requests, responses].map(Some);
    String::from_utf8(audit(files)).expect("text")
}

fn first_line(text: &str) -> &str {
    text.lines().next().expect("a line")
}

/// The verdict's line where a capture of these responses is `captured`.
fn line_for(captured: &[u8]) -> String {
    first_line(&audit_text(&[], &requests(), captured)).to_string()
}

#[test]
fn the_rules_responses_are_accepted_and_the_bill_follows() {
    let requests = requests();
    let captured = responses_to(&requests).concat();
    let expected = format!(
        "accepted\ntaken {}\nline 0 scanner 3\nopen 3\nrefused 1133 1\nrefused 1140 1\ndropped 0\nheld 20\n",
        requests.len()
    );
    assert_eq!(audit_text(&[], &requests, &captured), expected);
}

#[test]
fn any_byte_changed_is_wrong_at_its_response_and_place() {
    let responses = responses_to(&requests());
    for (number, response) in responses.iter().enumerate() {
        let before: usize = responses[..number].iter().map(Vec::len).sum();
        for byte in 0..response.len() {
            let mut captured = responses.concat();
            captured[before + byte] ^= 1;
            assert_eq!(line_for(&captured), format!("wrong {} {byte}", number + 1));
        }
    }
}

#[test]
fn an_early_end_is_wrong_at_the_first_missing_byte() {
    let responses = responses_to(&requests());
    for (number, response) in responses.iter().enumerate() {
        for byte in 0..response.len() {
            let captured = [responses[..number].concat(), response[..byte].to_vec()].concat();
            assert_eq!(line_for(&captured), format!("wrong {} {byte}", number + 1));
        }
    }
}

#[test]
fn a_stream_that_runs_on_is_wrong_at_byte_0_of_one_response_more() {
    let responses = responses_to(&requests());
    for more in [&[0][..], &responses[0], &[0x10, 0xA7]] {
        let captured = [&responses.concat(), more].concat();
        assert_eq!(
            line_for(&captured),
            format!("wrong {} 0", responses.len() + 1)
        );
    }
}

#[test]
fn a_stream_that_runs_on_behind_a_close_is_wrong_too() {
    let closed = [&PING_REQUEST[..], &[0xFF; 9]].concat();
    let responses = responses_to(&closed);
    assert_eq!(responses.len(), 2);
    let text = audit_text(&[], &closed, &responses.concat());
    assert_eq!(
        text,
        "accepted\ntaken 37\nline 0 scanner 0\nopen 1\nrefused 17 1\ndropped 3\nheld 0\n"
    );
    let captured = [&responses.concat()[..], &[0]].concat();
    assert_eq!(
        first_line(&audit_text(&[], &closed, &captured)),
        "wrong 3 0"
    );
}

#[test]
fn two_empty_streams_are_accepted() {
    let expected = "accepted\ntaken 0\nline 0 scanner 0\nopen 0\ndropped 0\nheld 0\n";
    assert_eq!(audit_text(&[], &[], &[]), expected);
    assert_eq!(first_line(&audit_text(&[], &[], &[7])), "wrong 1 0");
}

#[test]
fn the_start_has_the_journals_keys_and_a_cut_end_is_no_fault() {
    let journal = [
        import_record(0, &key(b"a")),
        import_record(0, &key(b"b")),
        destroy_record(0, b"a"),
    ]
    .concat();
    let answer = [&[0x0A, 2][..], &key(b"b").data].concat();
    let request = export(b"b").bytes();
    for cut in [0, 3] {
        let whole = [&journal[..], &import_record(0, &key(b"c"))[..cut]].concat();
        let mut captured = responses_to(&export(b"b").bytes()).concat();
        // Without the journal the key does not exist: the response has another status and no body.
        assert_eq!(
            first_line(&audit_text(&whole, &request, &captured)),
            "wrong 1 18"
        );
        captured[18] = answer.len() as u8;
        captured[24..26].copy_from_slice(&[0, 0]);
        captured.extend(&answer);
        let expected = format!(
            "accepted\ntaken {}\nline 0 scanner 1\nkey 0 1 1\nopen 0\ndropped 0\nheld 0\n",
            request.len()
        );
        assert_eq!(audit_text(&whole, &request, &captured), expected);
    }
}

#[test]
fn a_refused_start_prints_one_line_roster_then_list_then_journal() {
    let bad_crc = [import_record(0, &key(b"a")), vec![0; 7]].concat();
    let another_layout = journal::record(9, b"");
    let refused = journal::record(3, &[&[0], &b"nobody's"[..]].concat());
    let text = |roster: &[u8], list: &[u8], journal: &[u8]| {
        String::from_utf8(audit([roster, list, journal, &requests(), &[]].map(Some))).expect("text")
    };
    assert_eq!(text(&[1], &[9], &bad_crc), "roster R1\n");
    assert_eq!(text(&roster(), &[9], &bad_crc), "list C6\n");
    assert_eq!(text(&roster(), &[], &bad_crc), "journal J1\n");
    assert_eq!(text(&roster(), &[], &another_layout), "journal J2\n");
    assert_eq!(text(&roster(), &[], &refused), "journal J3\n");
}

#[test]
fn any_unreadable_file_prints_only_no_file() {
    let roster = roster();
    let good = [&roster[..], &[], &[], &PING_REQUEST, &PING_RESPONSE].map(Some);
    assert!(audit(good).starts_with(b"accepted\n"));
    for missing in 0..5 {
        let mut files = good;
        files[missing] = None;
        assert_eq!(audit(files), b"no file\n");
        // A bad roster does not come first.
        if missing != 0 {
            files[0] = Some(&[1]);
            assert_eq!(audit(files), b"no file\n");
        }
    }
}

/// Hands out a byte or two at a time, and then fails if it is to.
struct Trickle<'a> {
    bytes: &'a [u8],
    fails: bool,
}

impl Read for Trickle<'_> {
    fn read(&mut self, out: &mut [u8]) -> io::Result<usize> {
        if self.bytes.is_empty() && self.fails {
            return Err(io::Error::other("the file can't be read"));
        }
        let count = (1 + self.bytes.len() % 2)
            .min(self.bytes.len())
            .min(out.len());
        let (now, later) = self.bytes.split_at(count);
        out[..count].copy_from_slice(now);
        self.bytes = later;
        Ok(count)
    }
}

#[test]
fn cuts_of_the_files_make_no_difference_and_a_failed_read_is_told() {
    let journal = import_record(0, &key(b"z"));
    let requests = requests();
    let captured = responses_to(&requests).concat();
    let slow = |bytes, fails| Trickle { bytes, fails };
    let whole = audit_text(&journal, &requests, &captured);
    let cut = audit_from_readers(
        &roster(),
        &[],
        slow(&journal, false),
        slow(&requests, false),
        slow(&captured, false),
    );
    assert_eq!(cut.expect("files"), whole.as_bytes());
    for failing in 0..3 {
        let fails = |which| which == failing;
        let read = audit_from_readers(
            &roster(),
            &[9],
            slow(&journal, fails(0)),
            slow(&requests, fails(1)),
            slow(&captured, fails(2)),
        );
        assert!(read.is_err());
    }
}

#[test]
fn the_verdict_is_that_of_the_rule_on_lists() {
    let responses = responses_to(&requests());
    let captured = responses.concat();
    assert_eq!(verdict(&responses, &captured), Verdict::Accepted);
    for cut in 0..=captured.len() + 1 {
        let mut stream = [&captured[..], &[5]].concat();
        stream.truncate(cut);
        assert_eq!(verdict(&responses, &stream).to_string(), line_for(&stream));
        if let Some(byte) = stream.last_mut() {
            *byte = !*byte;
            assert_eq!(verdict(&responses, &stream).to_string(), line_for(&stream));
        }
    }
}

/// Writes a file for one test; `name` keeps tests that run at once apart.
fn file(name: &str, bytes: &[u8]) -> PathBuf {
    let path = Path::new(env!("CARGO_TARGET_TMPDIR")).join(format!("audit.{name}"));
    fs::write(&path, bytes).expect("a file for the test");
    path
}

#[test]
fn the_executable_prints_what_the_library_says() {
    let files: Vec<_> = [
        ("roster", roster()),
        ("list", vec![]),
        ("journal", vec![]),
        ("requests", PING_REQUEST.to_vec()),
        ("responses", PING_RESPONSE.to_vec()),
    ]
    .iter()
    .map(|(name, bytes)| file(name, bytes))
    .collect();
    let printed = |files: &[PathBuf]| {
        let output = Command::new(env!("CARGO_BIN_EXE_audit"))
            .args(files)
            .output()
            .expect("the executable runs");
        assert_eq!(output.status.code(), Some(0));
        String::from_utf8(output.stdout).expect("text")
    };
    assert_eq!(
        printed(&files),
        "accepted\ntaken 28\nline 0 scanner 0\nopen 1\ndropped 0\nheld 0\n"
    );
    assert_eq!(printed(&files[..4]), "no file\n");
}
