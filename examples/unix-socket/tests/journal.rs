//! The journal: what was answered is there after the server was killed, and what is not fit stops it.

mod common;

use common::client::{import, Client};
use common::program::{refused, Folder, Output, Program};
use common::*;
use razidkot_client::{Operation, Output as Read, Reading};
use razidkot_tests::ask::record;
use razidkot_tests::generate::Random;
use razidkot_tests::journals::{destroy_record, import_record, key, whole_record};
use std::collections::BTreeMap;
use std::fs::{self, File};
use std::io::{self, Write};
use std::path::{Path, PathBuf};
use std::process::Command;
use std::sync::atomic::{AtomicUsize, Ordering};
use std::thread;
use std::time::Duration;

fn journal(folder: &Folder) -> PathBuf {
    folder.at("journal")
}

fn options(folder: &Folder) -> [String; 2] {
    let path = journal(folder).to_str().expect("UTF-8").to_string();
    ["--journal".to_string(), path]
}

fn start(folder: &Folder) -> Program {
    start_limited("true", folder)
}

fn start_limited(limits: &str, folder: &Folder) -> Program {
    let options = options(folder);
    Program::start_limited(limits, folder, &[&options[0], &options[1]])
}

/// The one message of a server that does not start, without the file's name in front.
fn refusal(folder: &Folder) -> String {
    let options = options(folder);
    let output = refused(&folder.arguments(&[&options[0], &options[1]]));
    assert_eq!(output.status.code(), Some(1), "{output:?}");
    assert_eq!(output.stdout, "");
    assert_eq!(output.messages.len(), 1, "{output:?}");
    let front = format!("unix-socket: {}: ", journal(folder).display());
    let said = output.messages[0].strip_prefix(&front);
    said.expect("the journal's name").to_string()
}

fn scanner(folder: &Folder) -> Client {
    Client::connect(&folder.socket(), Some(b"scanner"))
}

fn said_restored(output: &Output, keys: usize, kept: u64, cut: u64) {
    let said =
        format!(": restored keys {keys}, from {kept} bytes; dropped {cut} bytes of a cut record");
    assert_eq!(output.count(&said), 1, "{said}: {output:?}");
}

fn length(folder: &Folder) -> u64 {
    journal(folder).metadata().expect("a journal").len()
}

fn append(folder: &Folder, bytes: &[u8]) {
    let file = File::options().append(true).open(journal(folder));
    file.expect("a journal")
        .write_all(bytes)
        .expect("a disk with room");
}

/// A journal that a server has made, with this behind it.
fn written(folder: &Folder, bytes: &[u8]) {
    start(folder).stop("TERM");
    append(folder, bytes);
}

/// The line of NAMES that scanner is in.
const SCANNER: u8 = 6;

// ---- restored

#[test]
fn keys_are_there_again_after_a_stop_and_after_a_kill() {
    let folder = Folder::new("restored");
    let program = start(&folder);
    let mut client = scanner(&folder);
    assert_eq!(client.ask(import(b"a", b"first")), 0);
    assert_eq!(client.ask(import(b"b", b"second")), 0);
    assert_eq!(client.export(b"a"), b"first");
    let output = program.stop("TERM");
    said_restored(&output, 0, 0, 0);
    assert_eq!(output.stdout.matches("key 6 ").count(), 2);

    let kept = length(&folder);
    let program = start(&folder);
    let mut client = scanner(&folder);
    assert_eq!(client.export(b"a"), b"first");
    assert_eq!(client.export(b"b"), b"second");
    assert_eq!(client.ask(Operation::DestroyKey { name: b"a" }), 0);
    program.signal("KILL");
    said_restored(&program.end(), 2, kept, 0);

    let program = start(&folder);
    let mut client = scanner(&folder);
    assert_eq!(client.ask(Operation::ExportPublicKey { name: b"a" }), 1140);
    assert_eq!(client.export(b"b"), b"second");
    let output = program.stop("TERM");
    assert!(
        output.stdout.contains("\nkey 6 1 1\n"),
        "uses begin again: {output:?}"
    );
}

#[test]
fn a_cut_record_is_dropped_and_the_file_goes_on_behind_the_whole_ones() {
    let folder = Folder::new("cut");
    let whole = import_record(SCANNER, &key(b"a"));
    let other = import_record(SCANNER, &key(b"b"));
    written(&folder, &whole);
    for cut in [1, 3, 5, other.len() - 1] {
        append(&folder, &other[..cut]);
        let program = start(&folder);
        assert_eq!(length(&folder), whole.len() as u64);
        assert_eq!(scanner(&folder).export(b"a"), [0xAA, 0xBB]);
        let output = program.stop("TERM");
        said_restored(&output, 1, whole.len() as u64, cut as u64);
    }
    append(&folder, &other[..5]);
    let program = start(&folder);
    assert_eq!(scanner(&folder).ask(import(b"c", b"third")), 0);
    program.signal("KILL");
    program.end();
    let program = start(&folder);
    assert_eq!(scanner(&folder).export(b"c"), b"third");
    said_restored(&program.stop("TERM"), 2, length(&folder), 0);
}

#[test]
fn the_sample_is_restored_and_billed() {
    let folder = Folder::new("sample");
    let samples = Path::new(env!("CARGO_MANIFEST_DIR")).join("../../samples");
    fs::copy(samples.join("servers.roster"), folder.roster()).expect("a roster");
    fs::copy(samples.join("servers.roster"), folder.at("journal.roster")).expect("its copy");
    fs::copy(samples.join("day.journal"), journal(&folder)).expect("a journal");
    let output = start(&folder).stop("TERM");
    said_restored(&output, 15, 7_123, 0);
    let bill = fs::read_to_string(samples.join("restored.bill"));
    assert_eq!(output.stdout, bill.expect("a bill"));
}

/// The order of records is that of the calls, whoever sent them.
#[test]
fn clients_at_once_leave_a_journal_that_gives_their_keys_back() {
    let folder = Folder::new("at-once");
    let program = start(&folder);
    thread::scope(|scope| {
        for name in NAMES {
            for round in 0..2 {
                let folder = &folder;
                scope.spawn(move || {
                    let mut client = Client::connect(&folder.socket(), Some(name));
                    for step in 0..40_usize {
                        // Two clients of an application contend for the same keys.
                        let key = [b"abcdefghi"[(step * 5 + round) % 9]];
                        let operation = match step % 3 {
                            2 => Operation::DestroyKey { name: &key },
                            _ => import(&key, b"data"),
                        };
                        assert!([0, 1139, 1140, 1142].contains(&client.ask(operation)));
                    }
                });
            }
        }
    });
    let before = program.stop("TERM").stdout;
    let after = start(&folder).stop("TERM").stdout;
    let keys = |bill: &str| -> Vec<String> {
        let keys = bill.lines().filter(|line| line.starts_with("key "));
        keys.map(String::from).collect()
    };
    assert!(keys(&before).len() > 8, "{before}");
    assert_eq!(keys(&after), keys(&before));
}

#[test]
fn a_capture_does_not_claim_the_bill_of_restored_keys() {
    let folder = Folder::new("captured");
    written(&folder, &import_record(SCANNER, &key(b"a")));
    let options = options(&folder);
    let capture = folder.at("capture");
    let capture = capture.to_str().expect("UTF-8");
    let program = Program::start(&folder, &[&options[0], &options[1], "--capture", capture]);
    let output = program.stop("TERM");
    assert_eq!(output.count("with the same bill"), 0);
    let said = "a bill of it begins without the 1 keys that were restored";
    assert_eq!(output.count(said), 1, "{output:?}");
}

// ---- refused

#[test]
fn a_refused_record_stops_it_with_its_offset_and_what_to_do() {
    let good = import_record(SCANNER, &key(b"a"));
    let mut wrong_crc = import_record(SCANNER, &key(b"b"));
    wrong_crc[9] ^= 4;
    for (number, bad, why) in [
        (1, wrong_crc, "its CRC is wrong"),
        (2, whole_record(9, b"b"), "no import or destroy"),
        (
            3,
            good.clone(),
            "its line is not in use, or Import or Destroy would refuse it",
        ),
        (3, destroy_record(SCANNER, b"b"), "its line is not in use"),
    ] {
        let folder = Folder::new(&format!("refused-{number}"));
        written(&folder, &[&good[..], &bad, &good[..7]].concat());
        let before = length(&folder);
        let said = refusal(&folder);
        let front = format!("journal J{number}, at the record that begins at byte 16: {why}");
        assert!(said.starts_with(&front), "{said}");
        assert!(
            said.ends_with("all behind it: truncate --size=16"),
            "{said}"
        );
        assert_eq!(length(&folder), before, "nothing is cut");
        // What it says to do.
        let file = File::options().write(true).open(journal(&folder));
        file.expect("a journal").set_len(16).expect("cut");
        let output = start(&folder).stop("TERM");
        said_restored(&output, 1, 16, 0);
    }
}

#[test]
fn a_second_server_does_not_get_the_journal() {
    let folder = Folder::new("second");
    let program = start(&folder);
    let other = Folder::new("second-other");
    let options = options(&folder);
    let output = refused(&other.arguments(&[&options[0], &options[1]]));
    assert_eq!(output.status.code(), Some(1));
    assert_eq!(
        output.count("another server has this journal"),
        1,
        "{output:?}"
    );
    assert_eq!(scanner(&folder).ask(Operation::Ping), 0);
    program.stop("TERM");
}

#[test]
fn a_journal_is_a_file() {
    for path in ["/dev/null", "/dev/full", "/"] {
        let folder = Folder::new("no-file");
        let output = refused(&folder.arguments(&["--journal", path]));
        assert_eq!(output.status.code(), Some(1));
        assert_eq!(
            output.count("not a file that can be a journal"),
            1,
            "{output:?}"
        );
    }
    let folder = Folder::new("no-folder");
    let path = folder.at("missing/journal");
    let output = refused(&folder.arguments(&["--journal", path.to_str().expect("UTF-8")]));
    assert_eq!(output.count("no journal: No such file"), 1, "{output:?}");
}

// ---- the roster

fn names(names: &[&[u8]]) -> Vec<u8> {
    names.iter().flat_map(|name| record(1, name)).collect()
}

#[test]
fn a_journal_is_tied_to_its_roster() {
    let folder = Folder::new("tied");
    let with_roster = |roster: &[&[u8]]| {
        fs::write(folder.roster(), names(roster)).expect("a roster");
    };
    let copy = folder.at("journal.roster");
    with_roster(&[b"scanner", b"viewer"]);
    let program = start(&folder);
    assert_eq!(scanner(&folder).ask(import(b"a", b"data")), 0);
    program.stop("TERM");
    assert_eq!(
        fs::read(&copy).expect("a copy"),
        names(&[b"scanner", b"viewer"])
    );

    let other = "another roster: the journal is of ";
    for roster in [
        &[&b"viewer"[..], b"scanner"][..],
        &[b"scanner"],
        &[],
        &[b"scanner", b"x"],
    ] {
        with_roster(roster);
        assert!(refusal(&folder).starts_with(other), "{roster:?}");
    }
    // More names at the end change no line, and are then the journal's roster too.
    with_roster(&[b"scanner", b"viewer", b"archive"]);
    let program = start(&folder);
    assert_eq!(scanner(&folder).export(b"a"), b"data");
    program.stop("TERM");
    with_roster(&[b"scanner", b"viewer"]);
    assert!(refusal(&folder).starts_with(other));
    with_roster(&[b"scanner", b"viewer", b"archive"]);

    fs::remove_file(&copy).expect("a copy");
    let said = refusal(&folder);
    assert!(
        said.ends_with("copy the roster there that the journal was written with"),
        "{said}"
    );
    fs::copy(folder.roster(), &copy).expect("a copy");
    said_restored(&start(&folder).stop("TERM"), 1, length(&folder), 0);
}

/// Without a record, no line has a number that counts.
#[test]
fn an_empty_journal_takes_any_roster() {
    let folder = Folder::new("untied");
    written(&folder, b"");
    fs::write(folder.roster(), names(&[b"viewer"])).expect("a roster");
    start(&folder).stop("TERM");
    let copy = fs::read(folder.at("journal.roster"));
    assert_eq!(copy.expect("a copy"), names(&[b"viewer"]));
}

// ---- a disk that is full

/// A file may not grow above a limit, as if the disk were full.
#[test]
fn a_record_that_cant_be_written_is_not_answered_and_stops_the_server() {
    let folder = Folder::new("full");
    // Half a kilobyte; the signal would end the program by itself.
    let mut program = start_limited("trap '' XFSZ; ulimit -f 1", &folder);
    let mut other = Client::connect(&folder.socket(), Some(b"viewer"));
    assert_eq!(other.ask(Operation::Ping), 0);
    let mut client = scanner(&folder);
    let data = [7; 150];
    let mut kept = Vec::new();
    for name in b"abcdefgh" {
        let mut reader = client.send(import(&[*name], &data));
        match client.receive(&mut reader) {
            Ok(status) => kept.push((*name, status)),
            Err(error) => {
                assert_eq!(error.kind(), io::ErrorKind::UnexpectedEof);
                break;
            }
        }
    }
    assert!(
        matches!(kept[..], [(_, 0), ..]) && kept.len() < 8,
        "{kept:?}"
    );
    program.wait_for("unix-socket: stopping: the journal can't be written: ");
    let output = program.end();
    assert_eq!(output.status.code(), Some(1), "{output:?}");
    assert!(output
        .messages
        .last()
        .is_some_and(|last| last.contains("not answered")));
    assert!(!folder.socket().exists(), "the socket is gone");

    let program = start(&folder);
    let mut client = scanner(&folder);
    for (name, _) in &kept {
        assert_eq!(client.export(&[*name]), data);
    }
    let next = [b"abcdefgh"[kept.len()]];
    let status = client.ask(Operation::ExportPublicKey { name: &next });
    assert_eq!(status, 1140, "what was not answered is not kept");
    assert_eq!(client.ask(import(&next, &data)), 0, "there is room again");
    program.stop("TERM");
}

// ---- synced before it is answered

/// Runs the server with tests/preload.c before the C library, and with these settings.
fn start_noted(folder: &Folder, settings: &str) -> Program {
    let library = folder.at("preload.so");
    let source = Path::new(env!("CARGO_MANIFEST_DIR")).join("tests/preload.c");
    let mut compiler = Command::new("cc");
    compiler.args(["-shared", "-fPIC", "-Wall", "-Wextra", "-Werror", "-o"]);
    let done = compiler.arg(&library).arg(source).arg("-ldl").status();
    assert!(done.expect("a C compiler").success());
    let (library, notes) = (library.display(), folder.at("notes"));
    let notes = notes.display();
    let exports = format!("export LD_PRELOAD={library} NOTES={notes} {settings}");
    start_limited(&exports, folder)
}

/// What was written to and synced since the last look.
fn noted(folder: &Folder, seen: &mut usize) -> Vec<String> {
    let text = fs::read_to_string(folder.at("notes")).expect("notes");
    let lines: Vec<_> = text.lines().skip(*seen).map(String::from).collect();
    *seen += lines.len();
    lines
}

#[test]
fn a_record_is_written_and_synced_before_its_response_is_sent() {
    let folder = Folder::new("synced");
    let program = start_noted(&folder, "");
    let seen = &mut 0;
    // The journal; its roster's copy, whole before it has its name; the folder, which has both.
    let start = ["sync file", "write file", "sync file", "sync folder"];
    assert_eq!(noted(&folder, seen), start);
    let mut client = scanner(&folder);
    let recorded = ["write file", "sync file", "write socket"];
    let answered = ["write socket"];
    assert_eq!(client.ask(import(b"a", b"data")), 0);
    assert_eq!(noted(&folder, seen), recorded);
    assert_eq!(client.ask(import(b"a", b"data")), 1139);
    assert_eq!(noted(&folder, seen), answered);
    assert_eq!(client.export(b"a"), b"data");
    assert_eq!(noted(&folder, seen), answered);
    assert_eq!(client.ask(Operation::DestroyKey { name: b"a" }), 0);
    assert_eq!(noted(&folder, seen), recorded);
    program.stop("TERM");
}

#[test]
fn a_record_that_cant_be_synced_is_not_answered_and_stops_the_server() {
    let folder = Folder::new("unsynced");
    let mut program = start_noted(&folder, "FAIL=1");
    let mut client = scanner(&folder);
    assert_eq!(client.ask(Operation::Ping), 0);
    let mut reader = client.send(import(b"a", b"data"));
    let answer = client.receive(&mut reader).map_err(|error| error.kind());
    assert_eq!(answer, Err(io::ErrorKind::UnexpectedEof));
    program.wait_for("unix-socket: stopping: the journal can't be written: ");
    assert_eq!(program.end().status.code(), Some(1));
}

// ---- killed under load

const ROUNDS: u64 = 200;
const CLIENTS: usize = 3;

/// What an application was told of its keys.
#[derive(Default)]
struct Told {
    keys: BTreeMap<u8, Vec<u8>>,
    /// A change that has been sent and not answered: the key's name, and its data if it is imported.
    asked: Option<(u8, Option<Vec<u8>>)>,
    acknowledged: u64,
}

impl Told {
    /// Changes keys one after the other until the server is gone.
    fn change(&mut self, client: &mut Client, random: &mut Random) {
        loop {
            let name = b'a' + random.below(10) as u8;
            let data = match self.keys.contains_key(&name) {
                true => None,
                false if self.keys.len() == 8 => continue,
                false => {
                    let length = 1 + random.below(600);
                    Some(random.bytes(length))
                }
            };
            let key = [name];
            let operation = match &data {
                Some(data) => import(&key, data),
                None => Operation::DestroyKey { name: &key },
            };
            let (request, mut reader) = client.write(operation);
            self.asked = Some((name, data));
            let sent = client.socket.write_all(&request);
            match sent.and_then(|()| client.receive(&mut reader)) {
                Ok(status) => assert_eq!(status, 0),
                Err(_) => return,
            }
            self.acknowledge();
        }
    }

    fn acknowledge(&mut self) {
        self.acknowledged += 1;
        match self.asked.take() {
            Some((name, Some(data))) => drop(self.keys.insert(name, data)),
            Some((name, None)) => drop(self.keys.remove(&name)),
            None => {}
        }
    }

    /// Asks for every key; how many are not as the application was told. What was not answered may
    /// have been done or not.
    fn lost(&mut self, client: &mut Client) -> u64 {
        let mut lost = 0;
        for name in b'a'..b'a' + 10 {
            let held = exported(client, name);
            let told = self.keys.get(&name);
            match &self.asked {
                Some((asked, data)) if *asked == name && held.as_ref() == data.as_ref() => {
                    let acknowledged = self.acknowledged;
                    self.acknowledge();
                    self.acknowledged = acknowledged;
                }
                _ => lost += u64::from(held.as_ref() != told),
            }
        }
        self.asked = None;
        lost
    }
}

/// The data of a key, or none if it is not there.
fn exported(client: &mut Client, name: u8) -> Option<Vec<u8>> {
    let mut reader = client.send(Operation::ExportPublicKey { name: &[name] });
    let status = client.receive(&mut reader).expect("a response");
    match (status, reader.said()) {
        (1140, _) => None,
        (0, Ok(Reading::Response(response))) => match response.output {
            Read::Data(data) => Some(data.to_vec()),
            other => panic!("data was asked for, not {other:?}"),
        },
        (status, _) => panic!("status {status}"),
    }
}

/// Starts the server, asks it for every key, changes keys, and kills it; how many keys were lost.
fn round(folder: &Folder, told: &mut [Told], seed: u64) -> u64 {
    let program = start(folder);
    let checked = &AtomicUsize::new(0);
    let lost = thread::scope(|scope| {
        let running: Vec<_> = (0..)
            .zip(told)
            .map(|(line, told)| {
                scope.spawn(move || {
                    let mut client = Client::connect(&folder.socket(), Some(NAMES[line]));
                    let lost = told.lost(&mut client);
                    checked.fetch_add(1, Ordering::Relaxed);
                    let seed = seed * CLIENTS as u64 + line as u64;
                    told.change(&mut client, &mut Random::new(seed));
                    lost
                })
            })
            .collect();
        while checked.load(Ordering::Relaxed) < CLIENTS {
            assert!(running.iter().all(|client| !client.is_finished()));
            thread::sleep(Duration::from_millis(1));
        }
        thread::sleep(Duration::from_micros(Random::new(seed).word() % 30_000));
        program.signal("KILL");
        let clients = running.into_iter();
        clients.map(|client| client.join().expect("a client")).sum()
    });
    program.end();
    lost
}

#[test]
fn killed_at_any_moment_it_loses_no_key_that_was_acknowledged() {
    let folder = Folder::new("killed");
    let mut told: Vec<Told> = (0..CLIENTS).map(|_| Told::default()).collect();
    let lost: u64 = (0..ROUNDS)
        .map(|seed| round(&folder, &mut told, seed))
        .sum();
    let acknowledged: u64 = told.iter().map(|told| told.acknowledged).sum();
    // Not by print, which is kept from those who read the gate.
    let text = format!("killed {ROUNDS} times; changes acknowledged {acknowledged}, lost {lost}");
    let _ = writeln!(io::stderr(), "{text}");
    assert_eq!(lost, 0);
    assert!(acknowledged > ROUNDS, "{acknowledged}");
}
