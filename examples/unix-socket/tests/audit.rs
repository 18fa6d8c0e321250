//! Captured responses beside captured requests: the auditor accepts what the server answered to all of
//! its clients, and the second program's auditor says the same.

mod common;

use common::program::{refused, Folder, Program};
use common::*;
use razidkot::{Audit, Audited, JournalReader, List, Registry, Verdict};
use razidkot_tests::ask::{registry_of, request, PING};
use razidkot_tests::generate::Random;
use razidkot_tests::requests::{applications, requests};
use std::fs::{self, File};
use std::path::Path;
use std::sync::mpsc;
use std::thread;
use unix_socket::{Server, Settings, Totals};

const CROWD: u64 = 200;

fn start(folder: &Folder, journal: Option<&Path>) -> Server {
    let server = Server::start(Settings {
        socket: &folder.socket(),
        roster: &roster(),
        list: b"",
        journal,
        capture: Some(&folder.at("requests")),
        capture_responses: Some(&folder.at("responses")),
        patience: TOO_LONG,
        say: |_| {},
        stop: mpsc::channel().0,
    });
    server.expect("a server")
}

/// Requests of any application, good and damaged; most of them meet others' keys.
fn generated(seed: u64) -> Vec<u8> {
    let registry = registry_of(&NAMES.map(<[u8]>::to_vec));
    requests(&mut Random::new(seed), &applications(&registry), 30).concat()
}

/// So many clients at once. Some are gone before they have read anything.
fn run(path: &Path, seeds: std::ops::Range<u64>) {
    thread::scope(|scope| {
        for seed in seeds {
            let manner = match seed % 5 {
                0 => Manner::LeavesUnread,
                1 => Manner::Prompt,
                size => Manner::Chunks([1_000, 29, 7][size as usize - 2]),
            };
            scope.spawn(move || converse(path, &generated(seed), manner));
        }
    });
}

/// The audit of what was captured behind these bytes of both files, from this part of a journal.
fn audit(folder: &Folder, journal: &[u8], begin: [usize; 2]) -> Audited {
    let mut reader = JournalReader::begin(Registry::load(&roster()).expect("a roster"));
    reader.read(journal).expect("a good journal");
    let restored = reader.finish().expect("a good journal");
    let files = ["requests", "responses"].map(|name| fs::read(folder.at(name)).expect("a capture"));
    let [mut requests, mut responses] = [&files[0][begin[0]..], &files[1][begin[1]..]];
    let roster = roster();
    let all = [&roster[..], b"", journal, requests, responses].map(Some);
    let audit = Audit::begin(restored.registry, List::new());
    let audited = audit.read(&mut requests, &mut responses);
    let audited = audited.expect("bytes that can be read");
    let printed = format!("{}\n{}", audited.verdict, audited.bill);
    assert_eq!(printed.as_bytes(), reference::audit(all));
    audited
}

fn assert_captured(totals: &Totals) -> [u64; 2] {
    let captured = totals.captured.as_ref().expect("a capture");
    assert!(captured.fault.is_none(), "{captured:?}");
    let responses = captured.responses.as_ref().expect("captured responses");
    [captured.begin, responses.begin]
}

#[test]
fn the_capture_of_two_hundred_clients_is_accepted_and_one_changed_byte_is_not() {
    let folder = Folder::new("audited");
    let server = start(&folder, None);
    run(&folder.socket(), 0..CROWD);
    let totals = server.stop();
    assert_eq!(assert_captured(&totals), [0, 0]);
    assert_eq!(totals.connections, CROWD);
    let audited = audit(&folder, b"", [0, 0]);
    assert_eq!(audited.verdict, Verdict::Accepted);
    assert_eq!(audited.counters.served, totals.counters.served);
    let path = folder.at("responses");
    let right = fs::read(&path).expect("a capture");
    assert!(right.len() > 50_000, "{}", right.len());
    let mut random = Random::new(0);
    for _ in 0..5 {
        let mut changed = right.clone();
        changed[random.below(right.len())] ^= 1 << random.below(8);
        fs::write(&path, changed).expect("a folder");
        assert_ne!(audit(&folder, b"", [0, 0]).verdict, Verdict::Accepted);
    }
}

/// The one end of a connection is captured, and a bad start with the response that closed it.
#[test]
fn a_bad_start_is_captured_with_its_response() {
    for end in [&b""[..], b"\x10\xA7\xC0", b"GET / HTTP/1.0", &[0; 10_000]] {
        let folder = Folder::new(&format!("audited-end-{}", end.len()));
        let server = start(&folder, None);
        let stream = [&request(PING, None, b""), end].concat();
        converse(&folder.socket(), &stream, Manner::Chunks(9));
        let totals = server.stop();
        assert_captured(&totals);
        let audited = audit(&folder, b"", [0, 0]);
        assert_eq!(audited.verdict, Verdict::Accepted);
        assert_eq!(audited.bill, totals.bill);
    }
}

/// As the README says: the auditor takes the beginning of the journal that the server named.
#[test]
fn a_capture_behind_a_journal_is_accepted_from_the_journal_s_beginning() {
    let folder = Folder::new("audited-journal");
    let journal = folder.at("journal");
    let mut lengths = Vec::new();
    for seed in 0..3 {
        let bytes = fs::metadata(&journal).map_or(0, |found| found.len());
        let server = start(&folder, Some(&journal));
        run(&folder.socket(), 100 * seed..100 * seed + 12);
        let totals = server.stop();
        let begin = assert_captured(&totals).map(|place| place as usize);
        let all = fs::read(&journal).expect("a journal");
        let audited = audit(&folder, &all[..bytes as usize], begin);
        assert_eq!(audited.verdict, Verdict::Accepted);
        lengths.push(bytes);
    }
    assert!(
        lengths[0] < lengths[1] && lengths[1] < lengths[2],
        "{lengths:?}"
    );
}

#[test]
fn the_program_says_how_many_bytes_the_journal_had() {
    let folder = Folder::new("audited-said");
    let files = ["journal", "requests", "responses"].map(|name| folder.at(name));
    let [journal, requests, responses] = files.each_ref().map(|file| file.to_str().expect("UTF-8"));
    let options = ["--journal", journal, "--capture", requests];
    let options = [&options[..], &["--capture-responses", responses]].concat();
    let program = Program::start(&folder, &options);
    converse(&folder.socket(), &generated(1), Manner::Prompt);
    let output = program.stop("TERM");
    let said = "begins behind the first 0 bytes of the journal";
    assert_eq!(output.count(said), 1, "{output:?}");
    assert_eq!(output.count("responses in"), 1, "{output:?}");
    let bytes = File::open(journal).and_then(|file| file.metadata());
    let bytes = bytes.expect("a journal").len();
    let output = Program::start(&folder, &options).stop("TERM");
    let said = format!("begins behind the first {bytes} bytes of the journal");
    assert_eq!(output.count(&said), 1, "{output:?}");
}

#[test]
fn responses_are_not_captured_alone() {
    let folder = Folder::new("audited-alone");
    let output = refused(&folder.arguments(&["--capture-responses", "file"]));
    assert_eq!(output.count("--capture-responses needs --capture"), 1);
}

/// No response is captured where its request can't be, nor a request without its response.
#[test]
fn a_full_disk_leaves_whole_requests_with_their_responses() {
    let folder = Folder::new("audited-full");
    let files = ["requests", "responses"].map(|name| folder.at(name));
    let [requests, responses] = files.each_ref().map(|file| file.to_str().expect("UTF-8"));
    let options = ["--capture", requests, "--capture-responses", responses];
    let program = Program::start_limited("trap '' XFSZ; ulimit -f 8", &folder, &options);
    for seed in 0..12 {
        converse(&folder.socket(), &generated(seed), Manner::Prompt);
    }
    program.signal("TERM");
    let output = program.end();
    assert_eq!(output.status.code(), Some(1), "{output:?}");
    assert_eq!(
        output.count("nothing is captured behind byte"),
        1,
        "{output:?}"
    );
    assert_eq!(audit(&folder, b"", [0, 0]).verdict, Verdict::Accepted);
}
