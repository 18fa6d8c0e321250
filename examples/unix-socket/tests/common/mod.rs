//! A server for a test, clients of all manners, and what the reference makes of their streams.

// Each file under tests/ uses some of it.
#![allow(dead_code)]

pub mod client;
pub mod program;

use razidkot_tests::ask::{record, registry_of};
use razidkot_tests::lent::to_reference;
use reference::rules::{self, Outcome};
use std::io::{ErrorKind, Read, Write};
use std::net::Shutdown;
use std::os::unix::net::UnixStream;
use std::path::{Path, PathBuf};
use std::sync::mpsc;
use std::thread;
use std::time::Duration;
use unix_socket::{Server, Settings, Totals};

/// An application for each client, so that none meets another's keys.
pub const NAMES: [&[u8]; 8] = [
    b"archive", b"backup", b"console", b"printer", b"reader", b"router", b"scanner", b"viewer",
];

/// No test waits so long unless something hangs.
pub const TOO_LONG: Duration = Duration::from_secs(60);

pub fn roster() -> Vec<u8> {
    NAMES.iter().flat_map(|name| record(1, name)).collect()
}

/// A path of its own; one below target/ might be too long for a socket.
pub fn socket_path(test: &str) -> PathBuf {
    std::env::temp_dir().join(format!("razidkot-{}-{test}", std::process::id()))
}

pub fn start(test: &str) -> (Server, PathBuf) {
    start_with_patience(test, TOO_LONG)
}

pub fn start_with_patience(test: &str, patience: Duration) -> (Server, PathBuf) {
    let path = socket_path(test);
    let server = Server::start(Settings {
        socket: &path,
        roster: &roster(),
        list: b"",
        journal: None,
        capture: None,
        capture_responses: None,
        patience,
        say: |_| {},
        stop: mpsc::channel().0,
    });
    (server.expect("a free path"), path)
}

pub fn connect(path: &Path) -> UnixStream {
    let socket = UnixStream::connect(path).expect("a server");
    socket.set_read_timeout(Some(TOO_LONG)).expect("a timeout");
    socket.set_write_timeout(Some(TOO_LONG)).expect("a timeout");
    socket
}

/// How a client behaves.
#[derive(Clone, Copy, Debug)]
pub enum Manner {
    /// Sends all at once, and reads meanwhile.
    Prompt,
    /// Sends chunks of this size, and reads meanwhile.
    Chunks(usize),
    /// Sends all, and reads a few bytes at a time when that is done.
    ReadsLate,
    /// Waits for its responses, and is gone without a word.
    Leaves,
    /// Is gone without having read.
    LeavesUnread,
}

/// What a client did: all that the server has to count, and nothing else, was sent.
pub struct Conversation {
    pub sent: Vec<u8>,
    /// Nothing where the client doesn't read.
    pub responses: Vec<u8>,
}

/// Sends a stream, or as much of it as the server lets it, and gives what came back.
pub fn converse(path: &Path, stream: &[u8], manner: Manner) -> Conversation {
    let socket = &connect(path);
    let (sent, responses) = match manner {
        Manner::Prompt => send_and_read(socket, stream, stream.len().max(1)),
        Manner::Chunks(size) => send_and_read(socket, stream, size),
        Manner::ReadsLate => {
            let sent = send(socket, stream, 5_000);
            end_sending(socket);
            thread::sleep(Duration::from_millis(50));
            (sent, read_slowly(socket))
        }
        Manner::Leaves => {
            let sent = send(socket, stream, 5_000);
            let mut responses = vec![0; alone(stream).responses.concat().len()];
            (&*socket).read_exact(&mut responses).expect("responses");
            (sent, responses)
        }
        Manner::LeavesUnread => (send(socket, stream, 5_000), Vec::new()),
    };
    let sent = stream[..sent].to_vec();
    Conversation { sent, responses }
}

fn send_and_read(socket: &UnixStream, stream: &[u8], size: usize) -> (usize, Vec<u8>) {
    thread::scope(|scope| {
        let responses = scope.spawn(|| read_to_end(socket));
        let sent = send(socket, stream, size);
        end_sending(socket);
        (sent, responses.join().expect("a client that reads"))
    })
}

/// Sends chunks of this size, and says how many bytes went out before the server closed, if it did.
pub fn send(mut socket: &UnixStream, stream: &[u8], size: usize) -> usize {
    let mut sent = 0;
    while sent < stream.len() {
        let end = stream.len().min(sent + size);
        match socket.write(&stream[sent..end]) {
            Ok(count) => sent += count,
            Err(error) if error.kind() == ErrorKind::BrokenPipe => return sent,
            Err(error) => panic!("a server that reads: {error}"),
        }
    }
    sent
}

/// To a server that has closed it fails, and there is nothing more to end.
pub fn end_sending(socket: &UnixStream) {
    let _ = socket.shutdown(Shutdown::Write);
}

pub fn read_to_end(mut socket: &UnixStream) -> Vec<u8> {
    let mut responses = Vec::new();
    socket.read_to_end(&mut responses).expect("responses");
    responses
}

fn read_slowly(mut socket: &UnixStream) -> Vec<u8> {
    let mut responses = Vec::new();
    let mut few = [0; 7];
    loop {
        match socket.read(&mut few).expect("responses") {
            0 => return responses,
            size => responses.extend(&few[..size]),
        }
    }
}

// ---- what is expected

/// What the reference makes of a client's stream if there is no other client.
pub fn alone(stream: &[u8]) -> Outcome {
    rules::run(&registry_of(&NAMES.map(<[u8]>::to_vec)), stream)
}

/// Bytes of the request that the stream doesn't finish.
fn unfinished(counters: &reference::Counters) -> u64 {
    counters.taken - counters.answered - counters.dropped
}

/// Are the server's totals those of the reference's runs together, and do they add up?
pub fn assert_totals(totals: &Totals, streams: &[Vec<u8>]) {
    let expected = streams
        .iter()
        .map(|stream| alone(stream).counters)
        .fold(reference::Counters::default(), sum);
    assert_eq!(to_reference(&totals.counters), expected);
    assert_eq!(totals.unfinished, unfinished(&expected));
    let sent: usize = streams.iter().map(Vec::len).sum();
    assert_eq!(totals.counters.taken, sent as u64);
}

fn sum(mut sum: reference::Counters, other: reference::Counters) -> reference::Counters {
    let add = |sum: &mut [u64], other: &[u64]| {
        for (sum, other) in sum.iter_mut().zip(other) {
            *sum += other;
        }
    };
    sum.taken += other.taken;
    sum.answered += other.answered;
    sum.dropped += other.dropped;
    sum.unauthenticated += other.unauthenticated;
    add(&mut sum.served, &other.served);
    add(&mut sum.refused, &other.refused);
    sum
}
