//! The bill by the library and by the executable.
//! Document 01, "The bill"; document 02, "Keys we ship" and "Use per key".

mod common;

use common::*;
use reference::{bill, bill_text, Status};
use std::fs;
use std::path::{Path, PathBuf};
use std::process::Command;

const ROSTER_OF_B: [u8; 4] = [0x01, 0x01, 0x00, 0x62];

/// Writes a file for one test; `name` keeps tests that run at once apart.
fn file(name: &str, bytes: &[u8]) -> PathBuf {
    let path = Path::new(env!("CARGO_TARGET_TMPDIR")).join(name);
    fs::write(&path, bytes).expect("a file for the test");
    path
}

fn missing_file() -> PathBuf {
    Path::new(env!("CARGO_TARGET_TMPDIR")).join("there is no such file")
}

/// What the executable prints; its exit status is 0 in every case.
fn run_bill(arguments: &[&Path]) -> String {
    let output = Command::new(env!("CARGO_BIN_EXE_bill"))
        .args(arguments)
        .output()
        .expect("the executable runs");
    assert_eq!(output.status.code(), Some(0));
    assert_eq!(output.stderr, b"");
    String::from_utf8(output.stdout).expect("a bill is text")
}

/// Checks the library and the executable, with the empty list.
fn expect_bill(name: &str, roster: &[u8], stream: &[u8], expected: &str) {
    expect_bill_with_list(name, roster, stream, &[], expected);
}

fn expect_bill_with_list(name: &str, roster: &[u8], stream: &[u8], list: &[u8], expected: &str) {
    let text = bill(Some(roster), Some(stream), Some(list));
    assert_eq!(String::from_utf8(text).unwrap(), expected);
    let roster = file(&format!("{name}.roster"), roster);
    let stream = file(&format!("{name}.stream"), stream);
    let list = file(&format!("{name}.list"), list);
    assert_eq!(run_bill(&[&roster, &stream, &list]), expected);
}

#[test]
fn a_ping_of_application_b() {
    let stream = ping().sent_by(b"b").bytes();
    let expected = "taken 29\nline 0 b 1\nopen 0\ndropped 0\nheld 0\n";
    expect_bill("ping_from_b", &ROSTER_OF_B, &stream, expected);
}

#[test]
fn an_empty_roster_a_ping_and_six_bytes_ff() {
    let stream = [&PING_REQUEST[..], &[0xFF; 6]].concat();
    let expected = "taken 34\nopen 1\nrefused 17 1\ndropped 0\nheld 0\n";
    expect_bill("empty_roster", &[], &stream, expected);
}

#[test]
fn an_empty_roster_and_an_empty_stream() {
    let expected = "taken 0\nopen 0\ndropped 0\nheld 0\n";
    expect_bill("both_empty", &[], &[], expected);
}

#[test]
fn every_used_line_and_every_refusal_that_is_not_zero_in_ascending_order() {
    let names: [&[u8]; 3] = [b"z", b"idle", b"a"];
    let requests = [
        import(&key(b"k")).sent_by(b"a"),
        import(&key(b"k")).sent_by(b"a"),
        export(b"k").sent_by(b"z"),
        ping().sent_by(b"z"),
        ping().sent_by(b"nobody"),
        ping(),
        Request { major: 0, ..ping() },
        Request::new(1, PING, Vec::new()),
    ];
    let stream: Vec<u8> = requests.iter().flat_map(Request::bytes).collect();
    let expected = format!(
        "taken {}\nline 0 z 1\nline 1 idle 0\nline 2 a 1\nkey 2 0 0\nopen 1\nrefused 1 1\n\
         refused 4 1\nrefused 11 1\nrefused 1139 1\nrefused 1140 1\ndropped 0\nheld 0\n",
        stream.len()
    );
    expect_bill("every_line", &roster_of(&names), &stream, &expected);
}

/// Slots are filled and freed in another order than the bill has them; a free one has no line.
#[test]
fn key_lines_stand_behind_all_roster_lines_by_line_and_then_slot() {
    let [first, second]: [&[u8]; 2] = [b"z", b"a"];
    let mut requests: Vec<Request> = [b"d", b"c", b"b", b"a"]
        .map(|name| import(&key(name)).sent_by(second))
        .into();
    requests.extend([
        import(&key(b"k")).sent_by(first),
        import(&key(b"l")).sent_by(first),
        export(b"a").sent_by(second),
        export(b"c").sent_by(second),
        export(b"l").sent_by(first),
        export(b"a").sent_by(second),
        destroy(b"c").sent_by(second),
        destroy(b"k").sent_by(first),
        // Refused: no use.
        export(b"c").sent_by(second),
        export(b"a").sent_by(first),
    ]);
    let stream: Vec<u8> = requests.iter().flat_map(Request::bytes).collect();
    let expected = format!(
        "taken {}\nline 0 z 4\nline 1 a 8\nkey 0 1 1\nkey 1 0 0\nkey 1 2 0\nkey 1 3 2\nopen 0\n\
         refused 1140 2\ndropped 0\nheld 0\n",
        stream.len()
    );
    expect_bill(
        "key_lines",
        &roster_of(&[first, second]),
        &stream,
        &expected,
    );
}

#[test]
fn the_highest_counts_of_all_64_keys_are_billed() {
    let names: [&[u8]; 8] = [b"0", b"1", b"2", b"3", b"4", b"5", b"6", b"7"];
    let mut service = Service::with_roster(&names);
    let mut expected = String::new();
    for (line, name) in names.iter().enumerate() {
        for slot in 0..SLOTS {
            let request = import(&key(&[b'a' + slot as u8])).sent_by(name);
            service.expect_status(&request, Status::Success);
            service.set_uses(line, slot, u32::MAX);
            expected += &format!("key {line} {slot} 4294967295\n");
        }
    }
    let text = bill_text(&service.counters, &service.registry, &service.connection);
    let text = String::from_utf8(text).unwrap();
    assert!(
        text.contains(&format!("\nline 7 7 {SLOTS}\n{expected}open 0\n")),
        "{text}"
    );
}

#[test]
fn dropped_bytes_behind_an_invalid_header() {
    let stream = [&[0; 6], &PING_REQUEST[..]].concat();
    let expected = "taken 34\nopen 0\nrefused 17 1\ndropped 28\nheld 0\n";
    expect_bill("dropped", &[], &stream, expected);
}

#[test]
fn held_bytes_of_an_unfinished_request() {
    let stream = [&PING_REQUEST[..], &PING_REQUEST[..11]].concat();
    let expected = "taken 39\nopen 1\ndropped 0\nheld 11\n";
    expect_bill("held", &[], &stream, expected);
}

#[test]
fn held_bytes_count_the_skipped_ones_too() {
    let header = ping().header_with_lengths(4_097, 300);
    let stream = [&header[..], &[0; 10]].concat();
    let expected = "taken 38\nopen 0\ndropped 0\nheld 38\n";
    expect_bill("held_skipping", &[], &stream, expected);
}

#[test]
fn a_stream_longer_than_a_chunk() {
    let oversized = Request {
        body: vec![0; 200_000],
        ..ping()
    };
    let stream = [
        PING_REQUEST.repeat(5_000),
        oversized.bytes(),
        PING_REQUEST.repeat(5_000),
    ]
    .concat();
    let expected = "taken 480028\nopen 10000\nrefused 20 1\ndropped 0\nheld 0\n";
    expect_bill("long_stream", &[], &stream, expected);
}

#[test]
fn a_refused_roster_prints_one_line() {
    let names: [&[u8]; 9] = [b"0", b"1", b"2", b"3", b"4", b"5", b"6", b"7", b"8"];
    let rosters = [
        (vec![1, 1], "roster R1\n"),
        (roster_record(2, b"a"), "roster R2\n"),
        (roster_of(&[b""]), "roster R3\n"),
        (roster_of(&names), "roster R4\n"),
        (roster_of(&[b"a", b"a"]), "roster R5\n"),
    ];
    for (place, (roster, expected)) in rosters.iter().enumerate() {
        let name = format!("refused_roster_{place}");
        expect_bill(&name, roster, &PING_REQUEST, expected);
    }
}

#[test]
fn a_stream_is_billed_with_the_keys_of_the_list() {
    let requests = [
        export(b"shipped").sent_by(b"b"),
        destroy(b"shipped").sent_by(b"b"),
        import(&key(b"shipped")).sent_by(b"b"),
        export(b"other").sent_by(b"b"),
    ];
    let stream: Vec<u8> = requests.iter().flat_map(Request::bytes).collect();
    let list = lists::pair(b"shipped", b"data");
    let expected = format!(
        "taken {}\nline 0 b 1\nopen 0\nrefused 1133 1\nrefused 1139 1\nrefused 1140 1\n\
         dropped 0\nheld 0\n",
        stream.len()
    );
    expect_bill_with_list("with_list", &ROSTER_OF_B, &stream, &list, &expected);
}

#[test]
fn a_bad_list_prints_one_line() {
    let bad = lists::bad_lists();
    for (title, list) in &bad {
        let text = bill(Some(&ROSTER_OF_B), Some(&PING_REQUEST), Some(list));
        assert_eq!(text, b"list C6\n", "{title}");
    }
    let (_, list) = &bad[0];
    for (name, stream) in [("ping", &PING_REQUEST[..]), ("nothing", &[])] {
        let name = format!("bad_list_{name}");
        expect_bill_with_list(&name, &ROSTER_OF_B, stream, list, "list C6\n");
    }
}

#[test]
fn a_refused_roster_comes_before_a_bad_list() {
    expect_bill_with_list("roster_first", &[1, 1], &[], &[1], "roster R1\n");
}

/// Each file in turn, a folder or one that is not there; the others good or refused.
#[test]
fn any_file_unreadable_prints_no_file() {
    let directory = Path::new(env!("CARGO_TARGET_TMPDIR")).to_path_buf();
    let good = [&[][..], &PING_REQUEST, &[]];
    let bad = [&roster_of(&[b""])[..], &[0xFF; 6], &[1]];
    for (kind, files) in [("good", good), ("bad", bad)] {
        let paths: [PathBuf; 3] =
            std::array::from_fn(|place| file(&format!("unreadable_{kind}_{place}"), files[place]));
        for place in 0..3 {
            for unreadable in [&directory, &missing_file()] {
                let mut arguments = paths.clone();
                arguments[place] = unreadable.clone();
                let arguments = arguments.each_ref().map(PathBuf::as_path);
                assert_eq!(run_bill(&arguments), "no file\n");
            }
            let mut files = files.map(Some);
            files[place] = None;
            assert_eq!(bill(files[0], files[1], files[2]), b"no file\n");
        }
    }
    assert_eq!(bill(None, None, None), b"no file\n");
}

#[test]
fn a_missing_argument_prints_no_file() {
    let roster = file("missing_argument.roster", &[]);
    let stream = file("missing_argument.stream", &PING_REQUEST);
    assert_eq!(run_bill(&[&roster, &stream]), "no file\n");
    assert_eq!(run_bill(&[&roster]), "no file\n");
    assert_eq!(run_bill(&[]), "no file\n");
}

/// A stream that fails after its first bytes.
struct FailsMidway(bool);

impl std::io::Read for FailsMidway {
    fn read(&mut self, buffer: &mut [u8]) -> std::io::Result<usize> {
        if self.0 {
            return Err(std::io::ErrorKind::Other.into());
        }
        self.0 = true;
        buffer[..28].copy_from_slice(&PING_REQUEST);
        Ok(28)
    }
}

#[test]
fn a_read_that_fails_midway_is_an_unreadable_file() {
    for roster in [roster_of(&[b"b"]), roster_of(&[b""])] {
        for list in [&[][..], &[1]] {
            let text = reference::bill_from_reader(&roster, FailsMidway(false), list);
            assert!(text.is_err());
        }
    }
}

#[test]
fn the_text_of_a_bill_on_lent_memory() {
    let mut service = Service::with_keys(&[b"a", b"b"]);
    service.expect_status(&export(b"c"), Status::PsaErrorDoesNotExist);
    service.send(&PING_REQUEST[..7]);
    let expected = format!(
        "taken {}\nline 0 scanner 2\nline 1 archive 0\nkey 0 0 0\nkey 0 1 0\nopen 0\n\
         refused 1140 1\ndropped 0\nheld 7\n",
        service.counters.taken
    );
    let text = bill_text(&service.counters, &service.registry, &service.connection);
    assert_eq!(String::from_utf8(text).unwrap(), expected);
}
