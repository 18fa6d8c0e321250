//! One call: the seven refusals, then bytes taken until one response or to the chunk's end.
//! Document 01, "When a call is not taken"; document 02, "Keys we ship", for the sixth, and "Surviving
//! a power cut", for the seventh and for the record.

use crate::connection::{self, State};
use crate::counters::Counters;
use crate::list::list_is_well_formed;
use crate::registry::registry_is_well_formed;
use crate::service::{self, Answer, Caller, Verdict};
use crate::wire::{header_length, start_is_good, Header, START_LENGTH};

pub const MIN_RESPONSE_BUFFER: usize = 1_024;
/// For the record of any one call.
pub const MIN_JOURNAL_BUFFER: usize = 1_024;
/// A chunk is what document 01 calls a piece.
pub const MAX_CHUNK: usize = 65_536;
/// For each counter by itself; a counter of just this is not too high.
const HIGHEST_COUNTER: u64 = 1 << 62;

/// Why a call is not taken; `number` gives the digit of C1 to C7.
#[derive(Clone, Copy, Debug, PartialEq, Eq)]
#[repr(u8)]
pub enum Refusal {
    ResponseBufferTooSmall = 1,
    ChunkTooLong = 2,
    ConnectionIllFormed = 3,
    RegistryIllFormed = 4,
    CounterTooHigh = 5,
    ListIllFormed = 6,
    JournalBufferTooSmall = 7,
}

impl Refusal {
    pub fn number(self) -> u8 {
        self as u8
    }
}

/// How many bytes of the chunk a call took, how many of a response it wrote, and how many of a record.
#[derive(Clone, Copy, Debug, PartialEq, Eq)]
pub struct Taken {
    pub taken: usize,
    pub written: usize,
    /// 0 but for a served import or destroy.
    pub recorded: usize,
}

/// Takes bytes of `chunk` until one response is written or to its end; a refused call changes
/// nothing. Bytes of `response` past the response stay, and those of `journal` past the record.
pub fn call(
    chunk: &[u8],
    connection: &mut [u8],
    registry: &mut [u8],
    list: &[u8],
    counters: &mut Counters,
    response: &mut [u8],
    journal: &mut [u8],
) -> Result<Taken, Refusal> {
    let state = judge_call(
        chunk, connection, registry, list, counters, response, journal,
    )?;
    let mut lent = Lent {
        connection,
        registry,
        list,
        counters,
        response,
        journal,
    };
    let taken = match state {
        State::Open { held: 0 } => lent.begin(chunk),
        State::Open { held } => lent.resume(held, chunk),
        State::Skipping { to_go } => lent.skip(to_go, chunk),
        State::Closed => lent.drop_bytes(chunk),
    };
    lent.counters.taken += taken.taken as u64;
    Ok(taken)
}

/// The refusals in their order, else the connection's state.
fn judge_call(
    chunk: &[u8],
    connection: &[u8],
    registry: &[u8],
    list: &[u8],
    counters: &Counters,
    response: &[u8],
    journal: &[u8],
) -> Result<State, Refusal> {
    if response.len() < MIN_RESPONSE_BUFFER {
        return Err(Refusal::ResponseBufferTooSmall);
    }
    if chunk.len() > MAX_CHUNK {
        return Err(Refusal::ChunkTooLong);
    }
    let state = connection::read_state(connection).ok_or(Refusal::ConnectionIllFormed)?;
    if !registry_is_well_formed(registry) {
        return Err(Refusal::RegistryIllFormed);
    }
    if counters.highest() > HIGHEST_COUNTER {
        return Err(Refusal::CounterTooHigh);
    }
    if !list_is_well_formed(list) {
        return Err(Refusal::ListIllFormed);
    }
    if journal.len() < MIN_JOURNAL_BUFFER {
        return Err(Refusal::JournalBufferTooSmall);
    }
    Ok(state)
}

/// What the first bytes of a request say about the whole of it.
enum Frame {
    /// Nothing more can be said before this many bytes are there.
    Needs(usize),
    BadStart,
    Oversized(Header),
    Whole(usize),
}

fn frame(bytes: &[u8]) -> Frame {
    // Judged at the sixth byte and not before, so that cuts don't change the answer.
    if bytes.len() < START_LENGTH {
        return Frame::Needs(START_LENGTH);
    }
    if !start_is_good(bytes) {
        return Frame::BadStart;
    }
    if bytes.len() < header_length(bytes) {
        return Frame::Needs(header_length(bytes));
    }
    let header = Header::read(bytes);
    if header.is_oversized() {
        return Frame::Oversized(header);
    }
    let length = header.request_length() as usize;
    if bytes.len() < length {
        Frame::Needs(length)
    } else {
        Frame::Whole(length)
    }
}

/// What the caller lends to a call, the chunk aside.
struct Lent<'a> {
    connection: &'a mut [u8],
    registry: &'a mut [u8],
    list: &'a [u8],
    counters: &'a mut Counters,
    response: &'a mut [u8],
    journal: &'a mut [u8],
}

impl Lent<'_> {
    /// Nothing is held: a request that lies whole in the chunk is judged there.
    fn begin(&mut self, chunk: &[u8]) -> Taken {
        match frame(chunk) {
            Frame::Needs(_) => {
                connection::hold(self.connection, 0, chunk);
                all_taken(chunk)
            }
            Frame::BadStart => self.refuse_start(START_LENGTH),
            Frame::Oversized(header) => self.begin_oversized(&header, chunk),
            Frame::Whole(length) => {
                let answer = service::answer_whole(
                    &chunk[..length],
                    self.registry,
                    self.list,
                    self.response,
                    self.journal,
                );
                self.count(length as u64, answer, length)
            }
        }
    }

    fn begin_oversized(&mut self, header: &Header, chunk: &[u8]) -> Taken {
        let length = header.request_length();
        if length <= chunk.len() as u64 {
            let answer = service::answer_oversized(header, self.response);
            return self.count(length, answer, length as usize);
        }
        let to_go = length - chunk.len() as u64;
        connection::hold(self.connection, 0, &chunk[..header.length]);
        connection::skip(self.connection, to_go);
        all_taken(chunk)
    }

    /// Adds to the bytes held only what the request needs, up to its next judgement.
    fn resume(&mut self, mut held: usize, chunk: &[u8]) -> Taken {
        let mut rest = chunk;
        loop {
            let taken = chunk.len() - rest.len();
            match frame(connection::held_bytes(self.connection, held)) {
                Frame::Needs(_) if rest.is_empty() => return all_taken(chunk),
                Frame::Needs(length) => {
                    let (bytes, behind) = rest.split_at(rest.len().min(length - held));
                    connection::hold(self.connection, held, bytes);
                    held += bytes.len();
                    rest = behind;
                }
                Frame::BadStart => return self.refuse_start(taken),
                Frame::Oversized(header) => {
                    let to_go = header.payload_length();
                    connection::skip(self.connection, to_go);
                    let skipped = self.skip(to_go, rest);
                    return Taken {
                        taken: taken + skipped.taken,
                        ..skipped
                    };
                }
                Frame::Whole(length) => return self.answer_held(length, taken),
            }
        }
    }

    fn answer_held(&mut self, length: usize, taken: usize) -> Taken {
        let request = connection::held_bytes(self.connection, length);
        let answer = service::answer_whole(
            request,
            self.registry,
            self.list,
            self.response,
            self.journal,
        );
        connection::reset(self.connection);
        self.count(length as u64, answer, taken)
    }

    /// The answer to an oversized request comes at its last byte, so the stream stays in step.
    fn skip(&mut self, to_go: u64, chunk: &[u8]) -> Taken {
        let length = chunk.len() as u64;
        if length < to_go {
            connection::skip(self.connection, to_go - length);
            return all_taken(chunk);
        }
        let header = connection::skipped_header(self.connection);
        let answer = service::answer_oversized(&header, self.response);
        connection::reset(self.connection);
        self.count(header.request_length(), answer, to_go as usize)
    }

    /// Status 17: the six bytes count as answered; the last `taken` of them are this chunk's.
    fn refuse_start(&mut self, taken: usize) -> Taken {
        let answer = service::answer_bad_start(self.response);
        connection::close(self.connection);
        self.count(START_LENGTH as u64, answer, taken)
    }

    fn drop_bytes(&mut self, chunk: &[u8]) -> Taken {
        self.counters.dropped += chunk.len() as u64;
        all_taken(chunk)
    }

    fn count(&mut self, request_length: u64, answer: Answer, taken: usize) -> Taken {
        self.counters.answered += request_length;
        match answer.verdict {
            Verdict::Served(Caller::Application(line)) => {
                self.counters.served[line.number()] += 1;
            }
            Verdict::Served(Caller::Unauthenticated) => self.counters.unauthenticated += 1,
            Verdict::Refused(status) => {
                if let Some(refused) = self.counters.refused_with(status) {
                    *refused += 1;
                }
            }
        }
        Taken {
            taken,
            written: answer.written,
            recorded: answer.recorded,
        }
    }
}

fn all_taken(chunk: &[u8]) -> Taken {
    Taken {
        taken: chunk.len(),
        written: 0,
        recorded: 0,
    }
}
