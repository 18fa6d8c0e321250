//! Clients at once: each gets, byte for byte, what the reference gives it alone, and the counters
//! are those of all together.

mod common;

use common::*;
use razidkot_tests::ask::{import_body, name_body, registry_of, request, EXPORT, IMPORT, PING};
use razidkot_tests::generate::{key, Random};
use razidkot_tests::layout::Key;
use razidkot_tests::requests::{applications, requests, with_lengths};
use reference::rules::ConnectionState;
use std::path::Path;
use std::thread;

struct Client {
    stream: Vec<u8>,
    manner: Manner,
}

/// Runs them at once, checks what each got, and gives what each sent.
fn run(path: &Path, clients: &[Client]) -> Vec<Vec<u8>> {
    thread::scope(|scope| {
        let running: Vec<_> = clients
            .iter()
            .map(|client| scope.spawn(|| run_one(path, client)))
            .collect();
        let sent = running.into_iter().map(|one| one.join().expect("a client"));
        sent.collect()
    })
}

fn run_one(path: &Path, Client { stream, manner }: &Client) -> Vec<u8> {
    let Conversation { sent, responses } = converse(path, stream, *manner);
    let expected = alone(stream).responses.concat();
    match manner {
        Manner::LeavesUnread => {}
        _ => assert!(responses == expected, "{manner:?} {stream:02X?}"),
    }
    let is_closed = alone(&sent).connection == ConnectionState::Closed;
    assert!(sent == *stream || is_closed, "only a close ends a stream");
    sent
}

/// An import and an export of a key, and a Ping.
fn work(random: &mut Random, name: &[u8]) -> Vec<u8> {
    let key = Key {
        bits: 2_048,
        export_allowed: true,
        ..key(random, 0)
    };
    [
        request(IMPORT, Some(name), &import_body(&key)),
        request(EXPORT, Some(name), &name_body(&key.name)),
        request(PING, Some(name), &[]),
    ]
    .concat()
}

/// What an application does, with a slip of its own.
fn clients(random: &mut Random) -> Vec<Client> {
    let [archive, backup, console, printer, reader, router, scanner, viewer] =
        NAMES.map(|name| work(random, name));
    let ping = request(PING, None, &[]);
    let oversized = with_lengths(&request(PING, Some(b"printer"), &[]), 100_000, 300);
    let in_mid_request = |work: &[u8]| [work, &work[..40]].concat();
    let in_mid_skip = [&scanner[..], &oversized[..50_000]].concat();
    let bad_start = [&reader[..], b"GET / HTTP/1.0\r\n", &ping.repeat(500)].concat();
    let client = |stream, manner| Client { stream, manner };
    vec![
        client(archive.repeat(3), Manner::Prompt),
        client(backup, Manner::Chunks(1)),
        client(console.repeat(2), Manner::ReadsLate),
        client(
            [&printer, &oversized, &ping].map(|part| &part[..]).concat(),
            Manner::Chunks(777),
        ),
        client(bad_start, Manner::Chunks(13)),
        client(in_mid_request(&router), Manner::Leaves),
        client(in_mid_request(&viewer), Manner::LeavesUnread),
        client(in_mid_skip, Manner::Leaves),
        client(b"\x10\xA7\xC0".to_vec(), Manner::LeavesUnread),
        client(Vec::new(), Manner::Leaves),
    ]
}

#[test]
fn clients_of_all_manners_at_once_are_served_as_if_alone() {
    for seed in 0..10 {
        let clients = clients(&mut Random::new(seed));
        let (server, path) = start(&format!("manners-{seed}"));
        let sent = run(&path, &clients);
        let totals = server.stop();
        assert!(totals.counters.served.iter().all(|&served| served >= 3));
        assert!(totals.unfinished > 50_000);
        assert_totals(&totals, &sent);
    }
}

/// Requests of one application only, good and damaged, cut in any way.
fn generated(random: &mut Random) -> Vec<Client> {
    NAMES
        .iter()
        .map(|name| {
            let registry = registry_of(&[name.to_vec()]);
            let stream = requests(random, &applications(&registry), 60).concat();
            let manner = random.pick(&[
                Manner::Prompt,
                Manner::Chunks(1),
                Manner::Chunks(29),
                Manner::Chunks(1_000),
                Manner::ReadsLate,
                Manner::Leaves,
                Manner::LeavesUnread,
            ]);
            Client { stream, manner }
        })
        .collect()
}

#[test]
fn generated_requests_at_once_are_served_as_if_alone() {
    for seed in 0..30 {
        let clients = generated(&mut Random::new(seed));
        let (server, path) = start(&format!("generated-{seed}"));
        let sent = run(&path, &clients);
        assert_totals(&server.stop(), &sent);
    }
}
