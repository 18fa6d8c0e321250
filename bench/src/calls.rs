//! Requests in chunks of 4,096 bytes through the compiled call and through the reference's. Both judge
//! all seven refusals on every call.

use crate::registries::Registry;
use crate::rows::{digest, Row, Turn, EACH_TURN};
use razidkot::{raw, Counters};
use razidkot_tests::ask::{name_body, request, request_of, EXPORT, PING};
use razidkot_tests::tagged::{bytes_record, TAGGED};
use reference::{CONNECTION_SIZE, MIN_JOURNAL_BUFFER, MIN_RESPONSE_BUFFER};
use std::hint::black_box;
use std::rc::Rc;
use std::time::Instant;

const CHUNK: usize = 4_096;
/// A turn sends a stream of a tenth of its requests, and that ten times.
const STREAMS: usize = 10;

pub fn pings(registry: Registry) -> Row {
    row("Pings", registry, &[request(PING, None, &[])])
}

/// By each application in turn.
pub fn named_pings(registry: Registry) -> Row {
    let pings: Vec<_> = registry
        .application_names()
        .map(|name| request(PING, Some(&name), &[]))
        .collect();
    row("named Pings", registry, &pings)
}

/// Of each key in turn, by its application.
pub fn exports(registry: Registry) -> Row {
    let exports: Vec<_> = registry
        .places()
        .map(|(line, slot)| {
            let body = name_body(&registry.key_name(line, slot));
            request(EXPORT, Some(&registry.application_name(line)), &body)
        })
        .collect();
    row("exports", registry, &exports)
}

/// Pings and exports of the second body format, both ways.
pub fn tagged_pings(registry: Registry) -> Row {
    let ping = request_of(PING, (TAGGED, TAGGED), None, &[]);
    row("Pings, format 2", registry, &[ping])
}

pub fn tagged_exports(registry: Registry) -> Row {
    let exports: Vec<_> = registry
        .places()
        .map(|(line, slot)| {
            let body = bytes_record(1, &registry.key_name(line, slot));
            let application = registry.application_name(line);
            request_of(EXPORT, (TAGGED, TAGGED), Some(&application), &body)
        })
        .collect();
    row("exports, format 2", registry, &exports)
}

/// So many Pings, by the compiled call alone.
pub fn make_pings(registry: Registry, count: usize) {
    let mut service = Proved::new(&registry.bytes(), &[]);
    send(&mut service, &stream(&[request(PING, None, &[])], count));
    assert_eq!(service.served(), count as u64, "all requests are served");
}

fn row(operations: &str, registry: Registry, requests: &[Vec<u8>]) -> Row {
    let name = format!("{operations}, {}", registry.title);
    row_of(name, (&registry.bytes(), &[]), requests, EACH_TURN)
}

/// These requests in turn, on this registry and this list, of which each is served.
pub fn row_of(
    name: String,
    (registry, list): (&[u8], &[u8]),
    requests: &[Vec<u8>],
    each_turn: usize,
) -> Row {
    let stream: Rc<[u8]> = stream(requests, each_turn / STREAMS).into();
    let turns = (Rc::clone(&stream), each_turn);
    Row {
        name,
        digest: digest(&[registry, list, &stream]),
        each_turn,
        programs: vec![
            ("proved", turn(Proved::new(registry, list), turns.clone())),
            ("reference", turn(Reference::new(registry, list), turns)),
        ],
    }
}

fn stream(requests: &[Vec<u8>], count: usize) -> Vec<u8> {
    let requests = requests.iter().cycle().take(count);
    requests.flatten().copied().collect()
}

fn turn(mut service: impl Service + 'static, (stream, each): (Rc<[u8]>, usize)) -> Turn {
    Box::new(move || {
        let served = service.served();
        let start = Instant::now();
        for _ in 0..STREAMS {
            send(&mut service, &stream);
        }
        let time = start.elapsed();
        let served = service.served() - served;
        assert_eq!(served, each as u64, "all requests are served");
        time
    })
}

/// A call answers one request at most, so what is left of a chunk is handed over again.
fn send(service: &mut impl Service, stream: &[u8]) {
    for chunk in stream.chunks(CHUNK) {
        let mut rest = chunk;
        while !rest.is_empty() {
            rest = &rest[service.call(black_box(rest))..];
        }
    }
}

trait Service {
    /// How many bytes of the chunk it took.
    fn call(&mut self, chunk: &[u8]) -> usize;
    fn served(&self) -> u64;
}

/// What a caller of the compiled service keeps.
struct Proved {
    connection: Vec<u8>,
    registry: Vec<u8>,
    list: Vec<u8>,
    counters: Counters,
    response: Vec<u8>,
    journal: Vec<u8>,
}

impl Proved {
    fn new(registry: &[u8], list: &[u8]) -> Proved {
        Proved {
            connection: vec![0; CONNECTION_SIZE],
            registry: registry.to_vec(),
            list: list.to_vec(),
            counters: Counters::default(),
            response: vec![0; MIN_RESPONSE_BUFFER],
            journal: vec![0; MIN_JOURNAL_BUFFER],
        }
    }
}

impl Service for Proved {
    fn call(&mut self, chunk: &[u8]) -> usize {
        let answer = raw::call(
            chunk,
            &mut self.connection,
            &mut self.registry,
            &self.list,
            &mut self.counters,
            &mut self.response,
            &mut self.journal,
        );
        answer.result().expect("a call that is taken").taken
    }

    fn served(&self) -> u64 {
        self.counters.unauthenticated + self.counters.served.iter().sum::<u64>()
    }
}

/// What a caller of the reference keeps.
struct Reference {
    connection: Vec<u8>,
    registry: Vec<u8>,
    list: Vec<u8>,
    counters: reference::Counters,
    response: Vec<u8>,
    journal: Vec<u8>,
}

impl Reference {
    fn new(registry: &[u8], list: &[u8]) -> Reference {
        Reference {
            connection: vec![0; CONNECTION_SIZE],
            registry: registry.to_vec(),
            list: list.to_vec(),
            counters: reference::Counters::default(),
            response: vec![0; MIN_RESPONSE_BUFFER],
            journal: vec![0; MIN_JOURNAL_BUFFER],
        }
    }
}

impl Service for Reference {
    fn call(&mut self, chunk: &[u8]) -> usize {
        let taken = reference::call(
            chunk,
            &mut self.connection,
            &mut self.registry,
            &self.list,
            &mut self.counters,
            &mut self.response,
            &mut self.journal,
        );
        taken.expect("a call that is taken").taken
    }

    fn served(&self) -> u64 {
        self.counters.unauthenticated + self.counters.served.iter().sum::<u64>()
    }
}
