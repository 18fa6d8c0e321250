//! The program as people start and stop it: arguments, signals, socket files, messages, statuses.

mod common;

use common::client::{import, Client};
use common::program::{command, refused, signal, Folder, Output, Program};
use common::*;
use razidkot_client::Operation;
use razidkot_tests::bill::ping;
use std::fs;
use std::io::{BufRead, BufReader, Write};
use std::os::unix::fs::symlink;
use std::os::unix::net::{UnixDatagram, UnixListener};
use std::path::Path;
use std::process::{Command, Stdio};
use std::thread;
use std::time::Duration;

/// A bill on which nobody has a count but these, and no key is left.
fn bill_of(taken: u64, served: &[(usize, u64)], open: u64, held: u64) -> String {
    let line = |(number, name): (usize, &&[u8])| {
        let served = served.iter().find(|(line, _)| *line == number);
        let name = String::from_utf8_lossy(name);
        format!(
            "line {number} {name} {}\n",
            served.map_or(0, |(_, count)| *count)
        )
    };
    let lines: String = NAMES.iter().enumerate().map(line).collect();
    format!("taken {taken}\n{lines}open {open}\ndropped 0\nheld {held}\n")
}

/// The one message of a program that has not started.
fn message(output: &Output) -> &str {
    assert_eq!(output.stdout, "");
    assert_eq!(output.messages.len(), 1, "{output:?}");
    &output.messages[0]
}

// ---- signals

#[test]
fn either_signal_stops_it_and_the_bill_is_printed() {
    for name in ["TERM", "INT"] {
        let folder = Folder::new(&format!("signal-{name}"));
        let mut program = Program::start(&folder, &[]);
        let mut worker = Client::connect(&folder.socket(), Some(NAMES[3]));
        assert_eq!(worker.ask(import(b"a", b"data")), 0);
        assert_eq!(worker.export(b"a"), b"data");
        let silent = connect(&folder.socket());
        let mut begun = Client::connect(&folder.socket(), None);
        let (request, mut reader) = begun.write(Operation::Ping);
        begun.socket.write_all(&request).expect("a server");
        begun.socket.write_all(&request[..11]).expect("a server");
        assert!(program.is_running());

        let output = program.stop(name);
        assert_eq!(begun.receive(&mut reader).expect("its response"), 0);
        assert_eq!(read_to_end(&begun.socket), b"", "and its end");
        assert_eq!(read_to_end(&silent), b"");
        let expected = bill_of(worker.sent() + 39, &[(3, 2)], 1, 11);
        let expected = expected.replace("open ", "key 3 0 1\nopen ");
        assert_eq!(output.stdout, expected);
        assert_eq!(output.count(&format!("stopping: SIG{name}")), 1);
        assert_eq!(output.count("3 connections; "), 1, "{output:?}");
        assert!(!folder.socket().exists(), "the socket is gone");
    }
}

#[test]
fn a_signal_that_comes_as_soon_as_it_listens_stops_it() {
    for round in 0..20 {
        let folder = Folder::new(&format!("at-once-{round}"));
        let program = Program::run("true", &folder.arguments(&[]));
        while !folder.socket().exists() {
            thread::yield_now();
        }
        assert_eq!(program.stop("TERM").stdout, bill_of(0, &[], 0, 0));
    }
}

/// As under nohup, or where a shell that is no terminal's starts it in the background.
#[test]
fn ignored_signals_are_as_people_expect() {
    let folder = Folder::new("ignored");
    let mut program = Program::start_limited("trap '' HUP INT", &folder, &[]);
    program.signal("HUP");
    let mut client = Client::connect(&folder.socket(), None);
    assert_eq!(client.ask(Operation::Ping), 0);
    assert!(program.is_running());
    assert_eq!(program.stop("INT").stdout, bill_of(28, &[], 1, 0));
}

// ---- standard input, output and error

#[test]
fn standard_input_stops_it_only_if_asked() {
    let folder = Folder::new("stdin");
    // Standard input is at its end from the start.
    let mut program = Program::start(&folder, &[]);
    thread::sleep(Duration::from_millis(200));
    assert!(program.is_running());
    program.stop("TERM");
    let output = Program::start(&folder, &["--stdin"]).end();
    assert_eq!(output.status.code(), Some(0));
    assert_eq!(output.stdout, bill_of(0, &[], 0, 0));
    assert_eq!(output.count("stopping: standard input has ended"), 1);
    let program = Program::start_limited("exec <&-", &folder, &["--stdin"]);
    assert_eq!(program.end().status.code(), Some(0), "closed, it has ended");
}

#[test]
fn a_signal_stops_it_while_it_reads_standard_input() {
    let folder = Folder::new("stdin-signal");
    let mut command = command("true", &folder.arguments(&["--stdin"]));
    let mut program = Program::spawn(command.stdin(Stdio::piped()));
    program.wait_for("unix-socket: listening at ");
    let output = program.stop("TERM");
    assert_eq!(output.stdout, bill_of(0, &[], 0, 0));
}

/// Whoever read its messages is gone, and it has something to say of each client.
#[test]
fn it_goes_on_where_its_messages_can_not_be_written() {
    let folder = Folder::new("stderr");
    let mut child = command("true", &folder.arguments(&[]))
        .stdin(Stdio::null())
        .stdout(Stdio::piped())
        .stderr(Stdio::piped())
        .spawn()
        .expect("a program that can be run");
    let mut messages = BufReader::new(child.stderr.take().expect("a pipe"));
    messages.read_line(&mut String::new()).expect("a message");
    drop(messages);
    for _ in 0..5 {
        let pings = ping().repeat(1_000);
        converse(&folder.socket(), &pings, Manner::LeavesUnread);
    }
    let mut client = Client::connect(&folder.socket(), None);
    assert_eq!(client.ask(Operation::Ping), 0);
    signal(child.id(), "TERM");
    let output = child.wait_with_output().expect("a program that ends");
    let expected = bill_of(5_001 * 28, &[], 5_001, 0);
    assert_eq!(String::from_utf8_lossy(&output.stdout), expected);
    assert_eq!(output.status.code(), Some(0));
}

#[test]
fn a_bill_that_can_not_be_printed_is_a_failure() {
    let folder = Folder::new("stdout");
    let program = Program::start_limited("exec >/dev/full", &folder, &[]);
    program.signal("TERM");
    let output = program.end();
    assert_eq!(output.status.code(), Some(1));
    assert_eq!(output.count("standard output: "), 1, "{output:?}");
    for line in bill_of(0, &[], 0, 0).lines() {
        let said = format!("unix-socket: {line}");
        assert!(output.messages.contains(&said), "{line}: {output:?}");
    }
    assert!(!folder.socket().exists());
}

// ---- arguments

#[test]
fn help_is_printed_and_wrong_arguments_are_status_2() {
    for help in [&["--help"][..], &["-h"], &["--stdin", "--help", "x"]] {
        let output = refused(help);
        assert_eq!(output.status.code(), Some(0));
        assert!(output.stdout.starts_with("usage: unix-socket "));
        for option in ["--list FILE", "--capture FILE", "--stdin", "--help"] {
            assert!(output.stdout.contains(option), "{option}");
        }
        assert!(output.messages.is_empty());
    }
    for (wrong, why) in [
        (&[][..], "SOCKET and ROSTER are needed, not 0 files"),
        (&["a"], "SOCKET and ROSTER are needed, not 1 files"),
        (
            &["a", "b", "c"],
            "SOCKET and ROSTER are needed, not 3 files",
        ),
        (
            &["--", "--help"],
            "SOCKET and ROSTER are needed, not 1 files",
        ),
        (&["--quick", "a", "b"], "no such option: --quick"),
        (&["a", "b", "-v"], "no such option: -v"),
        (&["a", "b", "--capture"], "--capture needs a file"),
        (&["--capture=", "a", "b"], "--capture needs a file"),
        (&["a", "b", "--list"], "--list needs a file"),
        (&["--list=", "a", "b"], "--list needs a file"),
        (&["--lists=f", "a", "b"], "no such option: --lists=f"),
    ] {
        let output = refused(wrong);
        assert_eq!(output.status.code(), Some(2), "{wrong:?}");
        assert!(message(&output).contains(why), "{output:?}");
    }
}

#[test]
fn a_roster_that_is_missing_or_faulty_is_named() {
    let folder = Folder::new("roster");
    fs::remove_file(folder.roster()).expect("the roster file");
    let output = refused(&folder.arguments(&[]));
    assert_eq!(output.status.code(), Some(1));
    let named = format!("unix-socket: {}: No such file", folder.roster().display());
    assert!(message(&output).starts_with(&named), "{output:?}");

    fs::write(folder.roster(), b"\x01\x02\x00a ").expect("a roster file");
    let output = refused(&folder.arguments(&[]));
    assert_eq!(output.status.code(), Some(1));
    let named = format!(
        "unix-socket: {}: roster R3: a name ",
        folder.roster().display()
    );
    assert!(message(&output).starts_with(&named), "{output:?}");
    assert!(!folder.socket().exists(), "nobody listened");
}

#[test]
fn a_list_that_is_missing_or_faulty_is_named() {
    let folder = Folder::new("list");
    let list = folder.at("list");
    let option = format!("--list={}", list.display());
    let named = |why: &str| format!("unix-socket: {}: {why}", list.display());
    let assert_named = |why: &str| {
        let output = refused(&folder.arguments(&[&option]));
        assert_eq!(output.status.code(), Some(1));
        assert!(message(&output).starts_with(&named(why)), "{output:?}");
        assert!(!folder.socket().exists(), "nobody listened");
    };
    assert_named("No such file");
    fs::write(&list, b"\x01\x01\x00k").expect("a list file");
    assert_named("list C6: a name without data");

    // Of two faulty files the roster is named, as `bill` does.
    fs::write(folder.roster(), b"\x02\x00\x00").expect("a roster file");
    let output = refused(&folder.arguments(&[&option]));
    assert!(message(&output).contains("/roster: roster R2: "));
}

#[test]
fn the_keys_of_a_list_are_every_applications() {
    let folder = Folder::new("with-list");
    let list = folder.at("list");
    fs::write(&list, b"\x01\x07\x00shipped\x02\x04\x00data").expect("a list file");
    let list = list.display().to_string();
    let program = Program::start(&folder, &["--list", &list]);
    let mut sent = 0;
    for name in [NAMES[2], NAMES[7]] {
        let mut client = Client::connect(&folder.socket(), Some(name));
        assert_eq!(client.export(b"shipped"), b"data");
        sent += client.sent();
    }
    let output = program.stop("TERM");
    assert_eq!(output.stdout, bill_of(sent, &[(2, 1), (7, 1)], 0, 0));
}

// ---- the socket's file

fn assert_refused(folder: &Folder, why: &str) {
    let output = refused(&folder.arguments(&[]));
    assert_eq!(output.status.code(), Some(1));
    let expected = format!("unix-socket: {}: {why}", folder.socket().display());
    assert!(message(&output).starts_with(&expected), "{output:?}");
}

#[test]
fn a_stale_socket_file_is_replaced() {
    let folder = Folder::new("stale");
    let program = Program::start(&folder, &[]);
    program.signal("KILL");
    assert_eq!(program.end().status.code(), None, "killed");
    assert!(folder.socket().exists(), "and it left its socket");
    let program = Program::start(&folder, &[]);
    let mut client = Client::connect(&folder.socket(), None);
    assert_eq!(client.ask(Operation::Ping), 0);
    program.stop("TERM");
}

#[test]
fn a_live_socket_is_an_error_and_its_server_goes_on() {
    let folder = Folder::new("live");
    let program = Program::start(&folder, &[]);
    let mut client = Client::connect(&folder.socket(), None);
    assert_refused(&folder, "another server listens there");
    assert_eq!(client.ask(Operation::Ping), 0);
    let mut client = Client::connect(&folder.socket(), None);
    assert_eq!(client.ask(Operation::Ping), 0, "where it was");
    assert_eq!(program.stop("TERM").stdout, bill_of(56, &[], 2, 0));
}

/// A server that accepts nobody and lets one client wait.
const HUNG: &str = "
import socket, sys
server = socket.socket(socket.AF_UNIX)
server.bind(sys.argv[1])
server.listen(0)
print(flush=True)
sys.stdin.read()
";

#[test]
fn a_socket_whose_server_accepts_nobody_is_live() {
    let folder = Folder::new("hung");
    let mut hung = Command::new("python3")
        .args(["-c", HUNG])
        .arg(folder.socket())
        .stdin(Stdio::piped())
        .stdout(Stdio::piped())
        .spawn()
        .expect("Python");
    let mut listening = BufReader::new(hung.stdout.take().expect("a pipe"));
    listening.read_line(&mut String::new()).expect("a line");
    let waiting = connect(&folder.socket());
    assert_refused(&folder, "another server listens there");
    drop((waiting, hung.stdin.take()));
    assert!(hung.wait().expect("its end").success());
}

#[test]
fn what_is_no_servers_socket_stays() {
    let folder = Folder::new("other");
    fs::write(folder.socket(), b"precious").expect("a file");
    assert_refused(&folder, "there is a file that is no socket");
    assert_eq!(fs::read(folder.socket()).expect("the file"), b"precious");

    fs::remove_file(folder.socket()).expect("the file");
    symlink("nowhere", folder.socket()).expect("a link");
    assert_refused(&folder, "there is a file that is no socket");

    fs::remove_file(folder.socket()).expect("the link");
    let datagrams = UnixDatagram::bind(folder.socket()).expect("a socket");
    assert_refused(&folder, "there is a socket, and who listens is unclear: ");
    drop(datagrams);
    assert!(folder.socket().exists());
}

#[test]
fn a_path_that_can_not_be_a_socket_is_named() {
    let folder = Folder::new("path");
    let missing = folder.at("missing").join("socket");
    let long = folder.at(&"x".repeat(200));
    for path in [missing, long] {
        let output = refused(&[path.clone(), folder.roster()]);
        assert_eq!(output.status.code(), Some(1));
        let expected = format!("unix-socket: {}: no socket: ", path.display());
        assert!(message(&output).starts_with(&expected), "{output:?}");
    }
}

/// A stale file is there, and each would replace it.
#[test]
fn of_servers_that_start_at_once_one_listens() {
    for round in 0..10 {
        let folder = Folder::new(&format!("race-{round}"));
        drop(UnixListener::bind(folder.socket()).expect("a socket"));
        let start = || Program::run("true", &folder.arguments(&[]));
        let programs: Vec<_> = (0..6).map(|_| start()).collect();
        let one = |mut program: Program| {
            let first = program.wait_for("unix-socket: ");
            (program, first.contains("listening at"))
        };
        let (listening, refused): (Vec<_>, Vec<_>) = programs
            .into_iter()
            .map(one)
            .partition(|(_, listens)| *listens);
        assert_eq!(listening.len(), 1);
        for (program, _) in refused {
            assert_eq!(program.end().status.code(), Some(1));
        }
        let mut client = Client::connect(&folder.socket(), None);
        assert_eq!(client.ask(Operation::Ping), 0);
        for (program, _) in listening {
            program.stop("TERM");
        }
    }
}

#[test]
fn a_file_that_has_taken_its_place_is_left_alone() {
    let folder = Folder::new("place");
    let path: &Path = &folder.socket();
    let program = Program::start(&folder, &[]);
    fs::remove_file(path).expect("the socket");
    fs::write(path, b"precious").expect("a file");
    let output = program.stop("TERM");
    assert_eq!(output.stdout, bill_of(0, &[], 0, 0));
    assert_eq!(output.count("not removed: another file"), 1, "{output:?}");
    assert_eq!(fs::read(path).expect("the file"), b"precious");

    fs::remove_file(path).expect("the file");
    let program = Program::start(&folder, &[]);
    fs::remove_file(path).expect("the socket");
    assert_eq!(program.stop("INT").stdout, bill_of(0, &[], 0, 0));
}
