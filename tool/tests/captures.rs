//! `capture show` against the bill: what it shows of each request adds up to the counters.

mod common;

use common::{folder, razidkot, sample};
use razidkot_tests::ask::{registry_of, request, DESTROY, IMPORT, PING};
use razidkot_tests::bill::{printed, roster_of, text};
use razidkot_tests::generate::{name, Random};
use razidkot_tests::requests::{applications, requests, with_header_size, with_lengths};
use razidkot_tests::run::{for_seeds, Outcomes};
use reference::rules;
use std::collections::BTreeMap;
use std::path::Path;

/// What `capture show` prints, without its heading.
fn shown(stream: &Path, roster: &Path) -> String {
    let text = razidkot(words!["capture", "show", stream, "--roster", roster]).text();
    let (heading, rows) = text.split_once('\n').expect("a heading");
    let words: Vec<_> = heading.split_whitespace().collect();
    assert_eq!(
        words,
        ["offset", "length", "status", "operation", "application"]
    );
    rows.into()
}

/// What is shown, added up.
#[derive(Default)]
struct Sums {
    taken: u64,
    /// The requests' statuses, in their order.
    statuses: Vec<u16>,
    /// Served, by what is shown of the application.
    served: BTreeMap<String, u64>,
    refused: BTreeMap<u16, u64>,
    held: u64,
    dropped: u64,
}

impl Sums {
    /// Each line has to begin at the byte where the one before it ended.
    fn of(shown: &str) -> Sums {
        let mut sums = Sums::default();
        for line in shown.lines() {
            let words: Vec<_> = line.split_whitespace().collect();
            let number = |place: usize| words[place].parse::<u64>().expect("a number");
            assert_eq!(number(0), sums.taken, "{line}");
            sums.taken += number(1);
            match words[2] {
                "held" => sums.held += number(1),
                "dropped" => sums.dropped += number(1),
                status => sums.count(status.parse().expect("a status"), words[5]),
            }
        }
        sums
    }

    fn count(&mut self, status: u16, application: &str) {
        self.statuses.push(status);
        match status {
            0 => *self.served.entry(application.into()).or_default() += 1,
            _ => *self.refused.entry(status).or_default() += 1,
        }
    }

    /// The bill of a roster with these names, without the keys, which are not shown.
    fn bill(mut self, names: &[Vec<u8>]) -> String {
        let mut bill = format!("taken {}\n", self.taken);
        for (line, name) in names.iter().enumerate() {
            let shown = format!("\"{}\"", name.escape_ascii());
            let served = self.served.remove(&shown).unwrap_or(0);
            let name = String::from_utf8_lossy(name);
            bill += &format!("line {line} {name} {served}\n");
        }
        let open = self.served.remove("nobody").unwrap_or(0);
        assert!(
            self.served.is_empty(),
            "others were served: {:?}",
            self.served
        );
        bill += &format!("open {open}\n");
        for (status, count) in self.refused {
            bill += &format!("refused {status} {count}\n");
        }
        bill + &format!("dropped {}\nheld {}\n", self.dropped, self.held)
    }
}

/// A bill's lines but those of keys.
fn without_keys(bill: &str) -> String {
    let lines = bill.split_inclusive('\n');
    lines.filter(|line| !line.starts_with("key ")).collect()
}

#[test]
fn the_samples_are_shown_as_they_are_billed() {
    for (roster, stream) in [
        ("servers.roster", "day.stream"),
        ("servers.roster", "closed.stream"),
        ("worked.roster", "worked.stream"),
        ("worked.roster", "day.stream"),
    ] {
        let (roster, stream) = (sample(roster), sample(stream));
        let names = razidkot(words!["roster", "show", roster]).text();
        let names: Vec<_> = names.lines().map(|name| name.as_bytes().to_vec()).collect();
        let bill = Sums::of(&shown(&stream, &roster)).bill(&names);
        let printed = text(printed(&[roster, stream, "/dev/null".into()]));
        assert_eq!(bill, without_keys(&printed));
    }
}

fn some_names(random: &mut Random) -> Vec<Vec<u8>> {
    let count = random.below(9);
    let some_name = |number| {
        let length = random.pick(&[1, 2, 64]);
        name(random, number, length)
    };
    (0..count).map(some_name).collect()
}

#[test]
fn any_stream_is_shown_as_the_reference_has_it() {
    let folder = folder("any_capture");
    let mut outcomes = Outcomes::default();
    for_seeds(400, |random| {
        let names = some_names(random);
        let (roster, registry) = (roster_of(&names), registry_of(&names));
        let stream = requests(random, &applications(&registry), 30).concat();
        let [roster_file, stream_file] = [("roster", &roster), ("stream", &stream)]
            .map(|(name, bytes)| folder.file(name, bytes));
        let sums = Sums::of(&shown(&stream_file, &roster_file));

        let responses = rules::run(&registry, &stream).responses;
        let status = |response: &Vec<u8>| u16::from_le_bytes([response[24], response[25]]);
        let statuses: Vec<_> = responses.iter().map(status).collect();
        assert_eq!(sums.statuses, statuses);
        statuses.iter().for_each(|status| outcomes.count(status));
        outcomes.count(format!("held {}", sums.held > 0));
        outcomes.count(format!("dropped {}", sums.dropped > 0));
        let bill = text(reference::bill(Some(&roster), Some(&stream), Some(&[])));
        assert_eq!(sums.bill(&names), without_keys(&bill));
    });
    outcomes.assert_often(&["held true", "held false"], 10);
    outcomes.assert_often(&["dropped true", "dropped false"], 10);
    let statuses = [0, 1, 2, 3, 4, 6, 7, 9, 11, 12, 17, 19, 20, 1_135, 1_140];
    outcomes.assert_often(&statuses, 10);
}

// ---- what is shown of a request

/// The rows of this stream, on a roster of `b`.
fn rows(test: &str, stream: &[&[u8]]) -> String {
    let folder = folder(test);
    let roster = folder.file("roster", b"\x01\x01\x00b");
    shown(&folder.file("stream", &stream.concat()), &roster)
}

/// The lines, with one space between words.
fn squeezed(rows: &str) -> Vec<String> {
    let squeeze = |line: &str| line.split_whitespace().collect::<Vec<_>>().join(" ");
    rows.lines().map(squeeze).collect()
}

fn with_byte(mut request: Vec<u8>, place: usize, byte: u8) -> Vec<u8> {
    request[place] = byte;
    request
}

#[test]
fn operations_and_applications_are_shown() {
    let ping = request(PING, None, b"");
    let rows = rows(
        "fields",
        &[
            &ping,
            &request(PING, Some(b"b"), b""),
            &request(PING, Some(b"a \"quoted\" one\n"), b""),
            &request(PING, Some(b""), b""),
            &with_byte(ping.clone(), 19, 7),
            &request(513, Some(b"b"), b""),
            &with_header_size(request(IMPORT, Some(b"b"), b"\x0A\x01k"), 30),
            &with_byte(request(DESTROY, Some(b"b"), b"\x0A\x01k"), 26, 5),
        ],
    );
    let expected = r#"
         0         28       0 Success                         Ping                nobody
        28         29       0 Success                         Ping                "b"
        57         43      11 AuthenticationError             Ping                "a \"quoted\" one\n"
       100         28      11 AuthenticationError             Ping                ""
       128         28      12 AuthenticatorDoesNotExist       Ping                auth-type-7
       156         29       9 OpcodeDoesNotExist              opcode-513          "b"
       185         40    1135 PsaErrorInvalidArgument         PsaImportKey        "b"
       225         32    1140 PsaErrorDoesNotExist            PsaAsymmetricVerify "b"
"#;
    assert_eq!(rows, expected[1..]);
}

#[test]
fn where_a_body_broke_is_shown() {
    let import = |body: &[u8]| request(IMPORT, Some(b"b"), body);
    let stream = [
        // A name that is cut; data that is cut, behind a name; a tag of number 0.
        import(b"\x0A\x02k"),
        import(b"\x0A\x01k\x12\x03\xAA\xBB"),
        import(b"\x0A\x01k\x12\x02\xAA\xBB\x18\x80\x10\x20\x01\x00"),
        // A group that ends with another's number, two deep; an end without a group.
        import(b"\x0A\x01k\x3B\x43\x3C"),
        request(PING, None, b"\x08\x01\x0C"),
    ];
    let stream: Vec<&[u8]> = stream.iter().map(Vec::as_slice).collect();
    let expected = [
        "0 32 7 DeserializingBodyFailed PsaImportKey \"b\" byte 0 of the body",
        "32 36 7 DeserializingBodyFailed PsaImportKey \"b\" byte 3 of the body",
        "68 42 7 DeserializingBodyFailed PsaImportKey \"b\" byte 12 of the body",
        "110 35 7 DeserializingBodyFailed PsaImportKey \"b\" byte 3 of the body",
        "145 31 7 DeserializingBodyFailed Ping nobody byte 2 of the body",
    ];
    assert_eq!(squeezed(&rows("broken", &stream)), expected);
}

/// The response has the accept type's format, and the offset is read from either.
#[test]
fn where_tagged_records_broke_is_shown() {
    let body = b"\x01\x01\x00k\x02\x03\x00\xAA\xBB";
    let import = with_byte(request(IMPORT, Some(b"b"), body), 17, 2);
    let other = with_byte(import.clone(), 18, 2);
    let expected = [
        "0 38 7 DeserializingBodyFailed PsaImportKey \"b\" byte 4 of the body",
        "38 38 7 DeserializingBodyFailed PsaImportKey \"b\" byte 4 of the body",
    ];
    let rows = rows("broken_records", &[&import, &other]);
    assert_eq!(squeezed(&rows), expected);
}

#[test]
fn an_oversized_request_is_shown_whole_and_its_name_is_not() {
    let named = request(PING, Some(b"b"), b"");
    // Longer than a chunk, and as short as can be: the name is read of neither.
    let long = with_lengths(&named, 200_000, 1);
    let short = with_lengths(&named, 4_097, 1);
    let auth = with_lengths(&named, 0, 257);
    let open = with_lengths(&request(PING, None, b""), 4_097, 0);
    let stream = [&long[..], &short, &auth, &open, &named];
    let expected = [
        "0 200029 20 BodySizeExceedsLimit Ping unread",
        "200029 4126 20 BodySizeExceedsLimit Ping unread",
        "204155 285 11 AuthenticationError Ping unread",
        "204440 4125 20 BodySizeExceedsLimit Ping nobody",
        "208565 29 0 Success Ping \"b\"",
    ];
    assert_eq!(squeezed(&rows("oversized", &stream)), expected);
}

#[test]
fn the_name_of_the_longest_request_that_is_read_is_shown() {
    let named = request(PING, Some(b"b"), b"");
    let longest = with_lengths(&with_header_size(named, 64), 4_096, 256);
    let rows = rows("longest", &[&longest]);
    let auth = longest[longest.len() - 256..].escape_ascii();
    let expected = format!("0 4422 11 AuthenticationError Ping \"{auth}\"");
    assert_eq!(squeezed(&rows), [expected]);
}

#[test]
fn what_is_held_and_dropped_is_shown() {
    let import = request(IMPORT, Some(b"b"), b"\x0A\x01k");
    let long = with_lengths(&import, 4_097, 1);
    for (stream, expected) in [
        (&b""[..], ""),
        (
            &import[..5],
            "0 5 held a request not finished: its header is not whole",
        ),
        (
            &import[..27],
            "0 27 held a request not finished: its header is not whole",
        ),
        (
            &import[..28],
            "0 28 held a request not finished: PsaImportKey, bytes to go: 4",
        ),
        (
            &import[..31],
            "0 31 held a request not finished: PsaImportKey, bytes to go: 1",
        ),
        (
            &long[..100],
            "0 100 held an oversized request not finished: PsaImportKey, bytes to go: 4026",
        ),
        (b"GET / ", "0 6 17 InvalidHeader unread unread"),
        (
            b"GET / HTTP",
            "0 6 17 InvalidHeader unread unread|6 4 dropped behind a close",
        ),
    ] {
        assert_eq!(squeezed(&rows("rests", &[stream])).join("|"), expected);
    }
}

/// A wrong start may be followed by bytes that look like a header.
#[test]
fn a_wrong_start_has_no_fields() {
    let ping = with_byte(request(PING, Some(b"b"), b""), 0, 0);
    let rows = rows("wrong_start", &[&ping]);
    let first = rows.lines().next().expect("a row");
    assert!(first.ends_with(" unread              unread"), "{first}");
}

// ---- bad input

#[test]
fn a_file_that_cannot_be_read_is_named() {
    let (folder, good) = (folder("no_capture"), sample("servers.roster"));
    let (missing, stream) = (folder.missing(), sample("day.stream"));
    let show = |stream: &Path, roster: &Path| {
        razidkot(words!["capture", "show", stream, "--roster", roster])
    };
    let not_there = format!(
        "{}: No such file or directory (os error 2)",
        missing.display()
    );
    show(&missing, &good).assert_failed(&not_there);
    show(&stream, &missing).assert_failed(&not_there);

    let refused = folder.file("refused.roster", b"\x01\x01\x00");
    let said = format!("{}: roster R1: a record is cut", refused.display());
    show(&stream, &refused).assert_failed(&said);

    let said = format!("{}: Is a directory (os error 21)", folder.path().display());
    show(&stream, folder.path()).assert_failed(&said);
    show(folder.path(), &good).assert_failed(&said);
}

/// What is shown with captured responses: the marked line's number, from 1, and the last line.
fn audited(stream: &Path, roster: &Path, responses: &Path) -> (Option<usize>, String, bool) {
    let words = words![
        "capture",
        "show",
        stream,
        "--roster",
        roster,
        "--responses",
        responses
    ];
    let output = razidkot(words);
    let text = String::from_utf8(output.out).expect("text");
    let marked = text.lines().position(|line| line.contains("<- captured"));
    let last = text.lines().last().unwrap_or_default();
    (marked, last.into(), output.status == 0)
}

#[test]
fn the_first_wrong_response_is_marked_and_the_verdict_is_the_reference_s() {
    let names = [b"scanner".to_vec(), b"viewer".to_vec()];
    let folder = folder("audited");
    let roster = folder.file("roster", &roster_of(&names));
    for_seeds(20, |random| {
        let registry = registry_of(&names);
        let requests = requests(random, &applications(&registry), 12).concat();
        let expected = rules::run(&registry, &requests).responses;
        let mut captured = expected.concat();
        match random.below(3) {
            0 if !captured.is_empty() => {
                let at = random.below(captured.len());
                captured[at] ^= 1;
            }
            1 => captured.extend(b"more"),
            _ => (),
        }
        let stream = folder.file("stream", &requests);
        let responses = folder.file("responses", &captured);
        let verdict = reference::verdict(&expected, &captured);
        let (marked, last, is_good) = audited(&stream, &roster, &responses);
        assert_eq!(last, verdict.to_string());
        assert_eq!(is_good, verdict == reference::Verdict::Accepted);
        // The line 0 is the heading. One response more than there are has no line.
        let wrong = match verdict {
            reference::Verdict::Wrong { response, .. } => Some(response as usize),
            reference::Verdict::Accepted => None,
        };
        assert_eq!(marked, wrong.filter(|&number| number <= expected.len()));
    });
}
