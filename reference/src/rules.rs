//! The rules fed the start registry and the uncut stream, and nothing that `call` keeps.
//! Document 01, "A whole stream under the rules"; the four cases stand in the paper's order. Document
//! 02, "Keys we ship", has the list as one more fixed input, and "Surviving a power cut" the records.

use crate::connection;
use crate::counters::Counters;
use crate::service::{answer_bad_start, answer_oversized, answer_whole, Answer, Caller, Verdict};
use crate::wire::{header_length, start_is_good, Header, START_LENGTH};
use crate::{CONNECTION_SIZE, LONGEST_RECORD, LONGEST_RESPONSE};

/// What the rules make of a whole stream.
#[derive(Clone, Debug, PartialEq, Eq)]
pub struct Outcome {
    pub responses: Vec<Vec<u8>>,
    /// One for each served import and destroy.
    pub records: Vec<Vec<u8>>,
    pub registry: Vec<u8>,
    pub counters: Counters,
    pub connection: ConnectionState,
}

#[derive(Clone, Debug, PartialEq, Eq)]
pub enum ConnectionState {
    /// The bytes of an unfinished request.
    Open(Vec<u8>),
    Skipping {
        header: Vec<u8>,
        to_go: u64,
    },
    Closed,
}

impl ConnectionState {
    /// The connection memory in this state.
    pub fn to_memory(&self) -> Vec<u8> {
        let mut memory = vec![0; CONNECTION_SIZE];
        match self {
            ConnectionState::Open(held) => connection::hold(&mut memory, 0, held),
            ConnectionState::Skipping { header, to_go } => {
                connection::hold(&mut memory, 0, header);
                connection::skip(&mut memory, *to_go);
            }
            ConnectionState::Closed => connection::close(&mut memory),
        }
        memory
    }
}

/// What the bytes not yet read begin with.
enum Next {
    Unfinished(ConnectionState),
    BadStart,
    Request(Header),
}

/// `run_with_list` with the empty list.
pub fn run(registry: &[u8], stream: &[u8]) -> Outcome {
    run_with_list(registry, &[], stream)
}

/// Runs the rules on a well-formed registry, a good list and a stream that begins on a fresh
/// connection.
pub fn run_with_list(registry: &[u8], list: &[u8], stream: &[u8]) -> Outcome {
    let mut outcome = begin(registry, stream.len() as u64);
    let mut unread = stream;
    loop {
        match read_next(unread) {
            Next::Unfinished(connection) => {
                outcome.connection = connection;
                return outcome;
            }
            Next::BadStart => {
                close(&mut outcome, (unread.len() - START_LENGTH) as u64);
                return outcome;
            }
            Next::Request(header) => {
                let (request, behind) = unread.split_at(header.request_length() as usize);
                answer(&mut outcome, list, &header, request);
                unread = behind;
            }
        }
    }
}

fn begin(registry: &[u8], taken: u64) -> Outcome {
    Outcome {
        responses: Vec::new(),
        records: Vec::new(),
        registry: registry.to_vec(),
        counters: Counters {
            taken,
            ..Counters::default()
        },
        connection: ConnectionState::Open(Vec::new()),
    }
}

fn read_next(unread: &[u8]) -> Next {
    let is_start = unread.len() >= START_LENGTH;
    let is_good = is_start && start_is_good(unread);
    if !is_start || is_good && unread.len() < header_length(unread) {
        return Next::Unfinished(ConnectionState::Open(unread.to_vec()));
    }
    if !is_good {
        return Next::BadStart;
    }
    let header = Header::read(unread);
    if (unread.len() as u64) < header.request_length() {
        return Next::Unfinished(unfinished_payload(&header, unread));
    }
    Next::Request(header)
}

/// The connection where the header is whole and the request is not.
fn unfinished_payload(header: &Header, unread: &[u8]) -> ConnectionState {
    if header.is_oversized() {
        ConnectionState::Skipping {
            header: unread[..header.length].to_vec(),
            to_go: header.request_length() - unread.len() as u64,
        }
    } else {
        ConnectionState::Open(unread.to_vec())
    }
}

fn close(outcome: &mut Outcome, dropped: u64) {
    let mut response = [0; LONGEST_RESPONSE];
    let answer = answer_bad_start(&mut response);
    outcome.counters.dropped += dropped;
    outcome.connection = ConnectionState::Closed;
    join(outcome, START_LENGTH as u64, answer, &response);
}

fn answer(outcome: &mut Outcome, list: &[u8], header: &Header, request: &[u8]) {
    let mut response = [0; LONGEST_RESPONSE];
    let mut record = [0; LONGEST_RECORD];
    let answer = if header.is_oversized() {
        answer_oversized(header, &mut response)
    } else {
        let registry = &mut outcome.registry;
        answer_whole(request, registry, list, &mut response, &mut record)
    };
    if answer.recorded > 0 {
        outcome.records.push(record[..answer.recorded].to_vec());
    }
    join(outcome, request.len() as u64, answer, &response);
}

/// Joins on one response and counts the request that it answers.
fn join(outcome: &mut Outcome, answered: u64, answer: Answer, response: &[u8]) {
    outcome.responses.push(response[..answer.written].to_vec());
    outcome.counters.answered += answered;
    let counter = match answer.verdict {
        Verdict::Served(Caller::Application(line)) => {
            Some(&mut outcome.counters.served[line.number()])
        }
        Verdict::Served(Caller::Unauthenticated) => Some(&mut outcome.counters.unauthenticated),
        Verdict::Refused(status) => outcome.counters.refused_with(status),
    };
    if let Some(counter) = counter {
        *counter += 1;
    }
}
