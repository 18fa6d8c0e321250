//! Requests written and responses read by the compiled client and by the reference's, on memory that
//! each is lent. Both judge all that a client refuses.

use crate::registries::FULL;
use crate::rows::{digest, Row, Turn, EACH_TURN};
use razidkot_client::{raw, LEAST_REQUEST_BUFFER, STATE_SIZE};
use razidkot_tests::generate::Random;
use reference::{client_begin, client_read, rules, write_request};
use reference::{BodyFormat, Formats, Operation, Output, Reading};
use std::hint::black_box;
use std::rc::Rc;
use std::time::Instant;

pub fn rows() -> Vec<Row> {
    vec![
        written("client: Pings written", Kind::Ping, PROTOBUF),
        written("client: exports written", Kind::Export, PROTOBUF),
        written("client: exports written, format 2", Kind::Export, TAGGED),
        read("client: Pings read", Kind::Ping, PROTOBUF, usize::MAX),
        read("client: exports read", Kind::Export, PROTOBUF, usize::MAX),
        read("client: exports by 64", Kind::Export, PROTOBUF, 64),
        read(
            "client: Pings read, format 2",
            Kind::Ping,
            TAGGED,
            usize::MAX,
        ),
        read(
            "client: exports read, format 2",
            Kind::Export,
            TAGGED,
            usize::MAX,
        ),
    ]
}

const PROTOBUF: BodyFormat = BodyFormat::Protobuf;
const TAGGED: BodyFormat = BodyFormat::Tagged;

// ---- what is written and read

#[derive(Clone, Copy)]
enum Kind {
    Ping,
    Export,
}

/// A request by an application of the full registry, of its key where the kind has one, and the
/// response to it.
struct Exchange {
    kind: Kind,
    /// Both ways.
    format: BodyFormat,
    session: u64,
    application: Vec<u8>,
    key: Vec<u8>,
    response: Vec<u8>,
}

impl Exchange {
    fn operation(&self) -> Operation<'_> {
        match self.kind {
            Kind::Ping => Operation::Ping,
            Kind::Export => Operation::ExportPublicKey { name: &self.key },
        }
    }

    fn bytes(&self) -> Vec<u8> {
        let session = self.session.to_le_bytes();
        [&session[..], &self.application, &self.key, &self.response].concat()
    }
}

/// One for each key of the full registry.
fn exchanges(kind: Kind, format: BodyFormat) -> Rc<[Exchange]> {
    let registry = FULL.bytes();
    let mut random = Random::new(0);
    let mut client = Reference::new();
    let answered = FULL.places().map(|(line, slot)| {
        let mut exchange = Exchange {
            kind,
            format,
            session: random.word(),
            application: FULL.application_name(line),
            key: FULL.key_name(line, slot),
            response: Vec::new(),
        };
        let length = client.write(&exchange);
        let outcome = rules::run(&registry, &client.buffer[..length]);
        exchange.response = outcome.responses.concat();
        exchange
    });
    answered.collect()
}

// ---- rows

fn written(name: &str, kind: Kind, format: BodyFormat) -> Row {
    let exchanges = exchanges(kind, format);
    let (mut proved, mut reference) = (Proved::new(), Reference::new());
    for exchange in exchanges.iter() {
        assert_eq!(proved.write(exchange), reference.write(exchange));
        assert_eq!(proved.buffer, reference.buffer, "the same request");
    }
    Row {
        name: name.into(),
        digest: digest_of(&exchanges),
        each_turn: EACH_TURN,
        programs: vec![
            ("proved", write_turn(proved, Rc::clone(&exchanges))),
            ("reference", write_turn(reference, exchanges)),
        ],
    }
}

/// A state is begun for each response, which comes in chunks of that many bytes.
fn read(name: &str, kind: Kind, format: BodyFormat, chunk: usize) -> Row {
    let exchanges = exchanges(kind, format);
    let (mut proved, mut reference) = (Proved::new(), Reference::new());
    for exchange in exchanges.iter() {
        let received = reference.read(exchange, chunk);
        assert_eq!(received, proved.read(exchange, chunk));
        assert_eq!(received.data.is_empty(), matches!(kind, Kind::Ping));
        assert_eq!(proved.state, reference.state, "the same state");
    }
    Row {
        name: name.into(),
        digest: digest_of(&exchanges),
        each_turn: EACH_TURN,
        programs: vec![
            ("proved", read_turn(proved, Rc::clone(&exchanges), chunk)),
            ("reference", read_turn(reference, exchanges, chunk)),
        ],
    }
}

fn digest_of(exchanges: &[Exchange]) -> u64 {
    digest(&[&exchanges
        .iter()
        .flat_map(Exchange::bytes)
        .collect::<Vec<_>>()])
}

fn write_turn(mut client: impl Client + 'static, exchanges: Rc<[Exchange]>) -> Turn {
    turn(exchanges, move |exchange| client.write(exchange))
}

fn read_turn(mut client: impl Client + 'static, exchanges: Rc<[Exchange]>, chunk: usize) -> Turn {
    turn(exchanges, move |exchange| {
        let received = black_box(client.read(exchange, chunk));
        received.data.len() + (received.major + received.minor + received.status) as usize
    })
}

/// The exchanges one after the other, again and again. What they come to is compared with a first
/// pass, so that none is left out.
fn turn(exchanges: Rc<[Exchange]>, mut make: impl FnMut(&Exchange) -> usize + 'static) -> Turn {
    let all: Vec<_> = exchanges.iter().map(&mut make).collect();
    let expected: usize = all.iter().cycle().take(EACH_TURN).sum();
    Box::new(move || {
        let mut sum = 0;
        let start = Instant::now();
        for exchange in exchanges.iter().cycle().take(EACH_TURN) {
            sum += make(black_box(exchange));
        }
        let time = start.elapsed();
        assert_eq!(sum, expected, "all are made");
        time
    })
}

// ---- the two clients

trait Client {
    /// How many bytes the request has.
    fn write(&mut self, exchange: &Exchange) -> usize;
    fn read(&mut self, exchange: &Exchange, chunk: usize) -> Received<'_>;
}

/// A response's status and output: a version, or data.
#[derive(Debug, PartialEq, Eq)]
struct Received<'a> {
    status: u32,
    major: u32,
    minor: u32,
    data: &'a [u8],
}

/// What a caller of the compiled client keeps.
struct Proved {
    buffer: Vec<u8>,
    state: Vec<u8>,
}

impl Proved {
    fn new() -> Proved {
        Proved {
            buffer: vec![0; LEAST_REQUEST_BUFFER],
            state: vec![0; STATE_SIZE],
        }
    }
}

impl Client for Proved {
    fn write(&mut self, exchange: &Exchange) -> usize {
        let (out, session) = (&mut self.buffer[..], exchange.session);
        let (application, format) = (&exchange.application, exchange.format.number());
        let request = match exchange.kind {
            Kind::Ping => raw::write_ping(out, session, format, format, true, application),
            Kind::Export => raw::write_export(
                out,
                session,
                format,
                format,
                true,
                application,
                &exchange.key,
            ),
        };
        assert_eq!(request.code, 0, "a request that is written");
        black_box(&mut self.buffer);
        request.written
    }

    fn read(&mut self, exchange: &Exchange, chunk: usize) -> Received<'_> {
        let opcode = exchange.operation().opcode().number();
        let format = exchange.format.number();
        let begun = raw::begin(&mut self.state, opcode, exchange.session, format);
        assert_eq!(begun, 0, "a state that is begun");
        let mut chunks = exchange.response.chunks(chunk);
        let answer = loop {
            let answer = raw::read(&mut self.state, chunks.next().expect("a whole response"));
            if answer.code != 0 {
                break answer;
            }
        };
        assert_eq!(answer.code, 1, "a response that is read");
        let output = answer.output;
        Received {
            status: answer.status,
            major: output.major,
            minor: output.minor,
            data: &self.state[output.start..][..output.length],
        }
    }
}

/// What a caller of the reference's client keeps.
struct Reference {
    buffer: Vec<u8>,
    state: Vec<u8>,
    data: Vec<u8>,
}

impl Reference {
    fn new() -> Reference {
        Reference {
            buffer: vec![0; LEAST_REQUEST_BUFFER],
            state: vec![0; STATE_SIZE],
            data: Vec::new(),
        }
    }
}

impl Client for Reference {
    fn write(&mut self, exchange: &Exchange) -> usize {
        let application = Some(&exchange.application[..]);
        let operation = exchange.operation();
        let (session, format) = (exchange.session, exchange.format);
        let formats = Formats {
            content: format,
            accept: format,
        };
        let written = write_request(&mut self.buffer, session, formats, application, &operation);
        black_box(&mut self.buffer);
        written.expect("a request that is written")
    }

    fn read(&mut self, exchange: &Exchange, chunk: usize) -> Received<'_> {
        let opcode = exchange.operation().opcode();
        let begun = client_begin(&mut self.state, opcode, exchange.session, exchange.format);
        begun.expect("a state that is begun");
        let mut chunks = exchange.response.chunks(chunk);
        let reading = loop {
            let chunk = chunks.next().expect("a whole response");
            let answer = client_read(&mut self.state, chunk).expect("a well-formed state");
            if answer.reading != Reading::Waiting {
                break answer.reading;
            }
        };
        self.received(reading)
    }
}

impl Reference {
    fn received(&mut self, reading: Reading) -> Received<'_> {
        let Reading::Response { status, output } = reading else {
            panic!("a response that is read");
        };
        let (major, minor, data) = match output {
            Output::Version { major, minor } => (major, minor, Vec::new()),
            Output::Data(data) => (0, 0, data),
            other => panic!("{other:?} is no output of a row"),
        };
        self.data = data;
        Received {
            status: status.into(),
            major,
            minor,
            data: &self.data,
        }
    }
}
