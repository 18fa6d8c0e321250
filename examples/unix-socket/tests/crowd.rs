//! Two hundred clients at once, and more clients than the server has descriptors.

mod common;

use common::client::{import, Client};
use common::program::{bill, Folder, Output, Program};
use common::*;
use razidkot_client::{Operation, Reader};
use std::io::Write;
use std::path::Path;
use std::thread::{self, ScopedJoinHandle};
use std::time::Duration;

const CROWD: usize = 200;
/// Bytes of a request that abrupt clients send, and then are gone.
const BEGUN: u64 = 17;

/// What clients sent.
#[derive(Default)]
struct Sent {
    bytes: u64,
    requests: u64,
    unfinished: u64,
}

impl Sent {
    fn add(self, other: Sent) -> Sent {
        Sent {
            bytes: self.bytes + other.bytes,
            requests: self.requests + other.requests,
            unfinished: self.unfinished + other.unfinished,
        }
    }
}

/// One of an application, with a key of its own for the first of each; it takes its time.
fn worker(mut client: Client, number: usize) -> Sent {
    let data = [number as u8; 300];
    let has_key = number < NAMES.len();
    if has_key {
        assert_eq!(client.ask(import(b"key", &data)), 0);
    }
    for _ in 0..10 {
        assert_eq!(client.ask(Operation::Ping), 0);
        thread::sleep(Duration::from_millis(1));
    }
    if has_key {
        assert_eq!(client.export(b"key"), data);
        assert_eq!(client.ask(Operation::DestroyKey { name: b"key" }), 0);
    }
    Sent {
        bytes: client.sent(),
        requests: 10 + 3 * u64::from(has_key),
        unfinished: 0,
    }
}

/// Sends requests and a part of one, and is gone: its responses may meet nobody.
fn abrupt(mut client: Client) -> Sent {
    let readers: Vec<Reader> = (0..5).map(|_| client.send(Operation::Ping)).collect();
    let (request, _) = client.write(Operation::Ping);
    let begun = &request[..BEGUN as usize];
    client.socket.write_all(begun).expect("a server");
    Sent {
        bytes: client.sent() + BEGUN,
        requests: readers.len() as u64,
        unfinished: BEGUN,
    }
}

/// Never says a word, and waits for the server's end.
fn silent(client: Client) -> Sent {
    assert_eq!(read_to_end(&client.socket), b"");
    Sent::default()
}

/// All are connected before the first one sends anything. The silent ones are there until the end.
fn run_crowd(path: &Path, program: Program) -> (Sent, Output) {
    let name = |number| NAMES[number % NAMES.len()];
    let clients = (0..CROWD).map(|number| (number, Client::connect(path, Some(name(number)))));
    let clients: Vec<_> = clients.collect();
    thread::scope(|scope| {
        let running = clients.into_iter().map(|(number, client)| {
            let is_silent = number % 4 == 3;
            let thread = scope.spawn(move || match number % 4 {
                0 | 1 => worker(client, number),
                2 => abrupt(client),
                _ => silent(client),
            });
            (is_silent, thread)
        });
        let (silent, others): (Vec<_>, Vec<_>) = running.partition(|(is_silent, _)| *is_silent);
        let join = |(_, thread): (_, ScopedJoinHandle<Sent>)| thread.join().expect("a client");
        let sent = others
            .into_iter()
            .map(join)
            .fold(Sent::default(), Sent::add);
        let output = program.stop("TERM");
        (silent.into_iter().map(join).fold(sent, Sent::add), output)
    })
}

/// The last word of a line of a bill.
fn count(line: &str) -> u64 {
    let word = line.rsplit(' ').next().expect("a word");
    word.parse().expect("a number")
}

/// Half of them work, a quarter are gone in the middle of a request, a quarter never say a word.
#[test]
fn two_hundred_clients_at_once_are_served_and_counted() {
    let folder = Folder::new("crowd");
    let capture = folder.at("capture");
    let option = format!("--capture={}", capture.display());
    let program = Program::start(&folder, &[&option]);
    let (sent, output) = run_crowd(&folder.socket(), program);
    let lines: Vec<&str> = output.stdout.lines().collect();
    assert_eq!(lines[0], format!("taken {}", sent.bytes));
    let served: u64 = lines[1..9].iter().map(|line| count(line)).sum();
    assert_eq!(served, sent.requests);
    let held = format!("held {}", sent.unfinished);
    assert_eq!(
        lines[9..],
        ["open 0", "dropped 0", &held],
        "none is refused"
    );
    assert_eq!(output.count("200 connections; "), 1, "{output:?}");

    // The unfinished requests of fifty can't be in one stream.
    let taken = format!("taken {}", sent.bytes - sent.unfinished);
    let expected = output
        .stdout
        .replace(lines[0], &taken)
        .replace(&held, "held 0");
    assert_eq!(bill(&folder.roster(), &capture), expected);
    let bytes = sent.unfinished;
    let left_out = format!("the ends of 50 connections, {bytes} bytes, are left out");
    assert_eq!(output.count(&left_out), 1, "{output:?}");
}

// ---- more clients than descriptors

/// More than the server can have at once, and each has sent a request.
fn too_many(path: &Path) -> Vec<(Client, Reader)> {
    (0..100)
        .map(|_| {
            let mut client = Client::connect(path, None);
            let reader = client.send(Operation::Ping);
            (client, reader)
        })
        .collect()
}

/// Has it a response by now?
fn is_answered(client: &mut Client, reader: &mut Reader) -> bool {
    let short = Some(Duration::from_millis(20));
    client.socket.set_read_timeout(short).expect("a timeout");
    let answered = client.receive(reader).is_ok_and(|status| status == 0);
    let long = Some(TOO_LONG);
    client.socket.set_read_timeout(long).expect("a timeout");
    answered
}

#[test]
fn clients_without_a_descriptor_for_them_are_served_later() {
    let folder = Folder::new("descriptors");
    let mut program = Program::start_limited("ulimit -n 64", &folder, &[]);
    let clients = too_many(&folder.socket());
    program.wait_for("unix-socket: clients wait to be accepted: Too many open files");
    let (served, waiting): (Vec<_>, Vec<_>) = clients
        .into_iter()
        .map(|(mut client, mut reader)| {
            let answered = is_answered(&mut client, &mut reader);
            (client, reader, answered)
        })
        .partition(|(_, _, answered)| *answered);
    assert!(served.len() > 40 && waiting.len() > 36, "{}", served.len());
    drop(served);
    for (mut client, mut reader, _) in waiting {
        assert_eq!(client.receive(&mut reader).expect("its response"), 0);
    }
    let output = program.stop("TERM");
    assert!(output.stdout.starts_with("taken 2800\n"), "{output:?}");
    assert!(output.stdout.contains("\nopen 100\n"), "{output:?}");
    assert_eq!(output.count("clients wait to be accepted"), 1, "said once");
    assert_eq!(output.count("100 connections; "), 1, "{output:?}");
}

/// Nobody leaves, so that no descriptor is free when it is to stop.
#[test]
fn a_stop_without_a_free_descriptor_serves_all_that_wait() {
    for signal in ["TERM", "INT"] {
        let folder = Folder::new(&format!("full-{signal}"));
        let capture = folder.at("capture");
        let option = format!("--capture={}", capture.display());
        let mut program = Program::start_limited("ulimit -n 64", &folder, &[&option]);
        let clients = too_many(&folder.socket());
        program.wait_for("unix-socket: clients wait to be accepted: Too many open files");
        let output = program.stop(signal);
        assert!(output.stdout.contains("\nopen 100\n"), "{output:?}");
        assert_eq!(output.stdout, bill(&folder.roster(), &capture));
        assert!(!folder.socket().exists());
        for (mut client, mut reader) in clients {
            assert_eq!(client.receive(&mut reader).expect("its response"), 0);
        }
    }
}
