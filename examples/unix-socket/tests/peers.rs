//! Peers that are slow, deaf or gone, and a server that stops meanwhile.

mod common;

use common::*;
use razidkot_tests::ask::{import_body, name_body, request, EXPORT, IMPORT, PING};
use razidkot_tests::generate::{key, Random};
use razidkot_tests::layout::Key;
use std::io::Read;
use std::sync::mpsc::{self, TryRecvError};
use std::thread;
use std::time::{Duration, Instant};

fn ping() -> Vec<u8> {
    request(PING, None, &[])
}

/// So many that they fit into a socket's buffer at once, and their responses, each by itself, don't.
const PINGS: usize = 2_000;

fn many_pings() -> Vec<u8> {
    ping().repeat(PINGS)
}

#[test]
fn a_peer_that_does_not_read_yet_holds_no_other_up() {
    let (server, path) = start("not-yet");
    let late = connect(&path);
    send(&late, &many_pings(), 100_000);
    thread::sleep(Duration::from_millis(100));
    for _ in 0..10 {
        let responses = converse(&path, &ping(), Manner::Prompt).responses;
        assert_eq!(responses, alone(&ping()).responses.concat());
    }
    end_sending(&late);
    let expected = alone(&many_pings()).responses.concat();
    assert!(read_to_end(&late) == expected, "all responses, and whole");
    let totals = server.stop();
    assert_totals(&totals, &[many_pings(), ping().repeat(10)]);
    assert_eq!(totals.undelivered, 0);
}

#[test]
fn a_peer_that_never_reads_is_counted_and_gets_no_more_responses() {
    let (server, path) = start_with_patience("never", Duration::from_millis(50));
    let deaf = connect(&path);
    send(&deaf, &many_pings(), 100_000);
    end_sending(&deaf);
    let totals = server.stop();
    assert_totals(&totals, &[many_pings()]);
    // Whole responses that fitted into the socket's buffer, and then its end.
    let responses = read_to_end(&deaf);
    let lost = totals.undelivered as usize;
    assert!(lost > 0);
    assert_eq!(responses.len() / 28, PINGS - lost);
    assert!(alone(&many_pings())
        .responses
        .concat()
        .starts_with(&responses));
}

#[test]
fn a_peer_that_leaves_before_its_responses_is_counted_whole() {
    let (server, path) = start("gone");
    for _ in 0..20 {
        converse(&path, &many_pings(), Manner::LeavesUnread);
    }
    let totals = server.stop();
    assert_totals(&totals, &vec![many_pings(); 20]);
    assert!(totals.undelivered > 0);
}

/// INTEGRATOR, "What a close means".
#[test]
fn a_bad_start_is_answered_and_its_transport_closed() {
    let (server, path) = start("closed");
    let socket = connect(&path);
    send(&socket, b"GET / ", 6);
    assert_eq!(read_to_end(&socket), alone(b"GET / ").responses.concat());
    let sent = send(&socket, &ping(), 28);
    assert_eq!(sent, 0, "nothing more can be sent");
    let served = converse(&path, &ping(), Manner::Prompt).responses;
    assert_eq!(served, alone(&ping()).responses.concat(), "on a fresh one");
    assert_totals(&server.stop(), &[b"GET / ".to_vec(), ping()]);
}

#[test]
fn what_arrived_behind_a_bad_start_is_dropped_and_counted() {
    let (server, path) = start("behind");
    let stream = [b"GET / ".to_vec(), ping().repeat(10_000)].concat();
    let mut sent = Vec::new();
    for size in [1, 29, 34, 5_000, stream.len()] {
        let conversation = converse(&path, &stream, Manner::Chunks(size));
        assert_eq!(conversation.responses, alone(&stream).responses.concat());
        sent.push(conversation.sent);
    }
    // All of it arrives before the close.
    let at_once = [b"GET / ".to_vec(), ping()].concat();
    let conversation = converse(&path, &at_once, Manner::Prompt);
    assert_eq!(conversation.sent.len(), 34);
    sent.push(conversation.sent);
    let totals = server.stop();
    assert!(totals.counters.dropped >= 28);
    assert_totals(&totals, &sent);
}

#[test]
fn a_key_of_one_connection_is_exported_on_another() {
    let (server, path) = start("shared");
    let key = Key {
        bits: 2_048,
        export_allowed: true,
        ..key(&mut Random::new(0), 0)
    };
    let import = request(IMPORT, Some(NAMES[0]), &import_body(&key));
    let export = request(EXPORT, Some(NAMES[0]), &name_body(&key.name));
    let both = alone(&[import.clone(), export.clone()].concat()).responses;
    for (request, response) in [import, export].iter().zip(&both) {
        assert_eq!(
            &converse(&path, request, Manner::Prompt).responses,
            response
        );
    }
    let totals = server.stop();
    assert_eq!(totals.counters.served[0], 2);
}

#[test]
fn a_stop_serves_what_has_arrived_and_ends_idle_peers() {
    let (server, path) = start("stop");
    let (idle, begun) = (connect(&path), connect(&path));
    let sent = [ping(), ping()[..9].to_vec()].concat();
    send(&begun, &sent, sent.len());
    let totals = server.stop();
    assert_eq!(read_to_end(&idle), b"");
    assert_eq!(read_to_end(&begun), alone(&sent).responses.concat());
    assert_eq!(totals.unfinished, 9);
    assert_totals(&totals, &[sent]);
    assert!(!path.exists(), "the socket is gone");
}

/// A peer that reads just enough not to be given up.
#[test]
fn a_stop_takes_hardly_longer_than_the_patience() {
    let (server, path) = start_with_patience("trickle", Duration::from_millis(500));
    let trickle = connect(&path);
    send(&trickle, &many_pings(), 100_000);
    let (stopped, is_stopped) = mpsc::channel();
    let reading = thread::spawn(move || {
        let mut few = [0; 28];
        while is_stopped.try_recv() == Err(TryRecvError::Empty) {
            (&trickle).read_exact(&mut few).expect("a response");
            thread::sleep(Duration::from_millis(50));
        }
    });
    thread::sleep(Duration::from_millis(100));
    let begun = Instant::now();
    let totals = server.stop();
    let took = begun.elapsed();
    stopped.send(()).expect("a client that reads");
    reading.join().expect("a client that reads");
    assert!(took < Duration::from_secs(5), "{took:?}");
    assert!(totals.undelivered > 0);
    assert_totals(&totals, &[many_pings()]);
}
