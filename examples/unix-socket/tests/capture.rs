//! The captured stream: the proved program `bill` says of it what the server says of itself.

mod common;

use common::client::{import, Client};
use common::program::{bill, bill_with_list, refused, Folder, Program, NO_LIST};
use common::*;
use razidkot_client::{Operation, Reading};
use razidkot_tests::ask::{record, registry_of, request, PING};
use razidkot_tests::bill::{ping, printed_from_pipe, text};
use razidkot_tests::generate::Random;
use razidkot_tests::requests::{applications, requests, with_lengths};
use reference::rules::ConnectionState;
use std::fs;
use std::io::Read;
use std::path::Path;
use std::process::Command;
use std::sync::mpsc;
use std::thread;
use unix_socket::{Captured, Server, Settings, Totals};

/// Bytes of a request that stand as they came.
const KEPT: usize = 4_422;

fn start(folder: &Folder) -> Server {
    start_with_list(folder, b"")
}

fn start_with_list(folder: &Folder, list: &[u8]) -> Server {
    let server = Server::start(Settings {
        socket: &folder.socket(),
        roster: &roster(),
        list,
        journal: None,
        capture: Some(&folder.at("capture")),
        capture_responses: None,
        patience: TOO_LONG,
        say: |_| {},
        stop: mpsc::channel().0,
    });
    server.expect("a server")
}

fn captured(totals: &Totals) -> &Captured {
    let captured = totals.captured.as_ref().expect("a capture");
    assert!(captured.fault.is_none(), "{captured:?}");
    captured
}

fn assert_same_bill(folder: &Folder, totals: &Totals) {
    assert_eq!(captured(totals).connections, 0, "nothing is left out");
    assert_eq!(bill(&folder.roster(), &folder.at("capture")), totals.bill);
}

/// Clients at once, each with its stream; gives what all have sent.
fn run(path: &Path, streams: &[Vec<u8>]) -> Vec<Vec<u8>> {
    thread::scope(|scope| {
        let running: Vec<_> = streams
            .iter()
            .enumerate()
            .map(|(place, stream)| {
                let manner = Manner::Chunks([1_000, 29, 7][place % 3]);
                scope.spawn(move || converse(path, stream, manner).sent)
            })
            .collect();
        let sent = running.into_iter().map(|one| one.join().expect("a client"));
        sent.collect()
    })
}

// ---- where both bills are the same

/// They import, export and destroy the same keys, so that who comes first decides the status. Each sends
/// all at once, so that calls follow each other closely; gives how many were served and refused.
fn contend(path: &Path, seed: u64) -> [u64; 2] {
    let mut random = Random::new(seed);
    let mut client = Client::connect(path, Some(NAMES[0]));
    let (mut stream, mut readers) = (Vec::new(), Vec::new());
    for _ in 0..2_000 {
        let name: &[u8] = random.pick(&[b"a", b"b", b"c", b"d", b"e"]);
        let (request, reader) = client.write(match random.below(3) {
            0 => Operation::DestroyKey { name },
            1 => Operation::ExportPublicKey { name },
            _ => import(name, b"data"),
        });
        stream.extend(request);
        readers.push(reader);
    }
    let responses = converse(path, &stream, Manner::Prompt).responses;
    let (mut left, mut statuses) = (&responses[..], [0; 2]);
    for mut reader in readers {
        let answer = reader.read(left);
        left = &left[answer.taken..];
        let Ok(Reading::Response(response)) = answer.said else {
            panic!("{answer:?}");
        };
        statuses[usize::from(response.status != 0)] += 1;
    }
    assert_eq!(left, b"");
    statuses
}

#[test]
fn clients_that_contend_for_keys_are_billed_in_the_order_of_their_calls() {
    let folder = Folder::new("contend");
    let server = start(&folder);
    let path = &folder.socket();
    let statuses = thread::scope(|scope| {
        let clients: Vec<_> = (0..12)
            .map(|seed| scope.spawn(move || contend(path, seed)))
            .collect();
        let statuses = clients.into_iter().map(|one| one.join().expect("a client"));
        statuses.fold([0; 2], |sum, one| [sum[0] + one[0], sum[1] + one[1]])
    });
    let totals = server.stop();
    assert_eq!(totals.counters.served[0], statuses[0]);
    assert_eq!(totals.counters.refused.iter().sum::<u64>(), statuses[1]);
    assert!(statuses.iter().all(|&count| count > 2_000), "{statuses:?}");
    assert_same_bill(&folder, &totals);
}

/// The stream without its end, if that is a bad start or an unfinished request.
fn whole_requests(stream: Vec<u8>) -> Vec<u8> {
    let outcome = alone(&stream);
    let answered = outcome.counters.answered as usize;
    match outcome.connection {
        ConnectionState::Closed => stream[..answered - 6].to_vec(),
        _ => stream[..answered].to_vec(),
    }
}

/// Of any application, good and damaged, oversized too.
fn generated(random: &mut Random) -> Vec<u8> {
    let registry = registry_of(&NAMES.map(<[u8]>::to_vec));
    requests(random, &applications(&registry), 40).concat()
}

#[test]
fn generated_requests_of_clients_at_once_have_the_same_bill() {
    let mut refused = 0;
    for seed in 0..20 {
        let folder = Folder::new(&format!("captured-{seed}"));
        let mut random = Random::new(seed);
        let streams: Vec<_> = (0..8)
            .map(|_| whole_requests(generated(&mut random)))
            .collect();
        let server = start(&folder);
        assert_eq!(run(&folder.socket(), &streams), streams);
        let totals = server.stop();
        assert_same_bill(&folder, &totals);
        refused += totals.counters.refused.iter().sum::<u64>();
    }
    assert!(refused > 500, "{refused}");
}

#[test]
fn a_request_stands_whole_where_it_was_answered() {
    let folder = Folder::new("interleaved");
    let server = start(&folder);
    let [early, late] = [NAMES[1], NAMES[2]].map(|name| request(PING, Some(name), &[]));
    let slow = connect(&folder.socket());
    send(&slow, &[&early[..], &late[..9]].concat(), 10);
    let mut response = [0; 28];
    (&slow)
        .read_exact(&mut response)
        .expect("its first response");
    converse(&folder.socket(), &ping(), Manner::Prompt);
    send(&slow, &late[9..], 1);
    end_sending(&slow);
    assert_eq!(read_to_end(&slow).len(), 28);
    let totals = server.stop();
    let stream = fs::read(folder.at("capture")).expect("the capture");
    assert_eq!(stream, [early, ping(), late].concat());
    assert_same_bill(&folder, &totals);
}

#[test]
fn zeros_stand_for_skipped_bytes_that_nothing_reads() {
    for length in [KEPT - 28, KEPT - 27, 3_000_000] {
        let folder = Folder::new(&format!("oversized-{length}"));
        let server = start(&folder);
        let oversized = with_lengths(&request(PING, Some(NAMES[5]), &[]), length, 0);
        let stream = [&oversized[..], &ping()].concat();
        converse(&folder.socket(), &stream, Manner::Prompt);
        let totals = server.stop();
        let mut expected = stream;
        expected[..28 + length][KEPT..].fill(0);
        let stream = fs::read(folder.at("capture")).expect("the capture");
        assert!(stream == expected);
        assert_same_bill(&folder, &totals);
    }
}

/// Listed keys are not in the stream, and `bill` is handed the list that the server had.
#[test]
fn a_server_with_a_list_has_the_same_bill_with_that_list() {
    let folder = Folder::new("listed");
    let list = [record(1, b"shipped"), record(2, b"data")].concat();
    fs::write(folder.at("list"), &list).expect("a list file");
    let server = start_with_list(&folder, &list);
    let mut client = Client::connect(&folder.socket(), Some(NAMES[0]));
    assert_eq!(client.export(b"shipped"), b"data");
    assert_eq!(client.ask(import(b"shipped", b"other")), 1139);
    assert_eq!(client.ask(Operation::DestroyKey { name: b"shipped" }), 1133);
    let totals = server.stop();
    assert_eq!(captured(&totals).connections, 0);
    let [roster, capture] = [folder.roster(), folder.at("capture")];
    assert_eq!(
        bill_with_list(&roster, &capture, &folder.at("list")),
        totals.bill
    );
    assert!(totals.bill.contains("\nline 0 archive 1\n"));
    assert_ne!(bill(&roster, &capture), totals.bill);
}

// ---- ends of connections

fn ends() -> Vec<Vec<u8>> {
    let oversized = with_lengths(&ping(), 100_000, 300);
    vec![
        ping()[..1].to_vec(),
        ping()[..27].to_vec(),
        oversized[..28].to_vec(),
        oversized[..90_000].to_vec(),
        b"GET / ".to_vec(),
        [b"GET / ".to_vec(), ping().repeat(2_000)].concat(),
    ]
}

#[test]
fn the_end_of_one_connection_is_in_the_same_bill() {
    for (place, end) in ends().into_iter().enumerate() {
        let folder = Folder::new(&format!("end-{place}"));
        let server = start(&folder);
        let sent = converse(&folder.socket(), &end, Manner::LeavesUnread).sent;
        // Behind it in time, and in front of it in the stream.
        converse(&folder.socket(), &ping(), Manner::Prompt);
        let totals = server.stop();
        assert_totals(&totals, &[sent, ping()]);
        assert_eq!(totals.counters.unauthenticated, 1);
        assert_same_bill(&folder, &totals);
    }
}

/// The lines of a bill that the ends of connections have no part in.
fn without_ends(bill: &str) -> Vec<&str> {
    let of_ends = ["taken ", "refused 17 ", "dropped ", "held "];
    let lines = bill.lines();
    lines
        .filter(|line| !of_ends.iter().any(|start| line.starts_with(start)))
        .collect()
}

#[test]
fn the_ends_of_several_connections_are_left_out_and_nothing_else() {
    let folder = Folder::new("ends");
    let server = start(&folder);
    let streams: Vec<_> = ends()
        .into_iter()
        .map(|end| [request(PING, Some(NAMES[7]), &[]), end].concat())
        .collect();
    let sent = run(&folder.socket(), &streams);
    let totals = server.stop();
    assert_totals(&totals, &sent);
    let end_bytes = sent.iter().map(|sent| sent.len() as u64 - 34).sum();
    let Captured {
        connections, bytes, ..
    } = *captured(&totals);
    assert_eq!((connections, bytes), (6, end_bytes));
    let printed = bill(&folder.roster(), &folder.at("capture"));
    assert_eq!(without_ends(&printed), without_ends(&totals.bill));
    let taken = totals.counters.taken - bytes;
    assert!(printed.starts_with(&format!("taken {taken}\n")));
    assert!(printed.contains("\nline 7 viewer 6\n"));
    assert!(printed.ends_with("\nopen 0\ndropped 0\nheld 0\n"));
    assert!(totals.bill.contains("\nrefused 17 2\n"));
}

// ---- the file

#[test]
fn a_second_run_goes_on_behind_the_first() {
    let folder = Folder::new("again");
    let capture = folder.at("capture");
    let option = format!("--capture={}", capture.display());
    let mut begin = 0;
    for round in 0..2 {
        let program = Program::start(&folder, &[&option]);
        let mut client = Client::connect(&folder.socket(), Some(NAMES[4]));
        // A key of an earlier run is not there any more.
        assert_eq!(client.ask(import(b"a", b"data")), 0);
        let output = program.stop("TERM");
        let stream = fs::read(&capture).expect("the capture");
        let said = format!("captured bytes {begin} to {}, with the", stream.len());
        assert_eq!(output.count(&said), 1, "{output:?}");
        assert_eq!(output.count("captures behind its"), round);
        let [stdin, no_list] = ["/dev/stdin", NO_LIST].map(Path::new);
        let pipe = [&folder.roster(), stdin, no_list];
        let printed = printed_from_pipe(&pipe, &stream[begin..]);
        assert_eq!(text(printed), output.stdout);
        begin = stream.len();
    }
}

#[test]
fn a_server_that_is_killed_leaves_every_answered_request() {
    let folder = Folder::new("killed");
    let capture = folder.at("capture");
    let option = format!("--capture={}", capture.display());
    let program = Program::start(&folder, &[&option]);
    let mut client = Client::connect(&folder.socket(), Some(NAMES[0]));
    for _ in 0..50 {
        assert_eq!(client.ask(Operation::Ping), 0);
    }
    program.signal("KILL");
    assert_eq!(program.end().stdout, "");
    let printed = bill(&folder.roster(), &capture);
    assert!(printed.contains("\nline 0 archive 50\n"), "{printed}");
}

/// As on a full disk: the file may have no more than so many blocks.
#[test]
fn a_capture_that_can_not_be_written_is_cut_at_a_request_and_said() {
    let folder = Folder::new("full");
    let capture = folder.at("capture");
    let option = format!("--capture={}", capture.display());
    let limits = "trap '' XFSZ; ulimit -f 4";
    let program = Program::start_limited(limits, &folder, &[&option]);
    let mut client = Client::connect(&folder.socket(), Some(NAMES[6]));
    for _ in 0..300 {
        assert_eq!(client.ask(Operation::Ping), 0, "it is served all the same");
    }
    program.signal("TERM");
    let output = program.end();
    assert_eq!(output.status.code(), Some(1));
    assert!(output.stdout.contains("\nline 6 scanner 300\n"));
    let stream = fs::read(&capture).expect("the capture");
    let one = 28 + NAMES[6].len();
    let whole = stream.len() / one;
    assert!(stream.len().is_multiple_of(one) && whole > 50 && whole < 300);
    let printed = bill(&folder.roster(), &capture);
    assert!(printed.contains(&format!("\nline 6 scanner {whole}\n")));
    let named = format!("unix-socket: {}: File too large", capture.display());
    assert_eq!(output.count(&named), 1, "{output:?}");
    assert_eq!(output.count("and not all that was taken"), 1, "{output:?}");
}

#[test]
fn a_file_that_can_not_be_captured_into_is_named() {
    let folder = Folder::new("no-capture");
    let pipe = folder.at("pipe");
    let made = Command::new("mkfifo").arg(&pipe).status();
    assert!(made.expect("mkfifo").success());
    let locked = folder.at("locked");
    let lock = fs::File::create(&locked).expect("a file");
    lock.lock().expect("a lock");
    for (path, why) in [
        (&pipe, "not a file that can be captured into"),
        (&folder.0, "not a file that can be captured into"),
        (
            &folder.at("missing").join("x"),
            "can't be captured into: No such",
        ),
        (&locked, "another program captures into it"),
    ] {
        let option = format!("--capture={}", path.display());
        let output = refused(&folder.arguments(&[&option]));
        assert_eq!(output.status.code(), Some(1));
        let expected = format!("unix-socket: {}: {why}", path.display());
        assert!(output.messages[0].starts_with(&expected), "{output:?}");
        assert!(!folder.socket().exists(), "and nobody listens");
    }
}
