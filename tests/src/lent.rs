//! What a caller lends to a call, lent to the compiled service and to the reference.

use crate::ask::request;
use razidkot::raw::{self, Answer};
use razidkot::{Counters, CONNECTION_SIZE, LEAST_JOURNAL_BUFFER, LEAST_RESPONSE_BUFFER};

/// Bytes behind each buffer that are never lent, to see that nothing is written there.
const GUARD: usize = 64;

/// How long the buffers are that a call writes to.
#[derive(Clone, Copy, Debug, PartialEq, Eq)]
pub struct Lengths {
    pub response: usize,
    pub journal: usize,
}

impl Lengths {
    /// As short as may be.
    pub const LEAST: Lengths = Lengths {
        response: LEAST_RESPONSE_BUFFER,
        journal: LEAST_JOURNAL_BUFFER,
    };
}

/// All that a call may change, and the list that it may not.
#[derive(Clone, PartialEq, Eq)]
pub struct Lent {
    pub connection: Vec<u8>,
    pub registry: Vec<u8>,
    pub list: Vec<u8>,
    pub counters: Counters,
    response: Vec<u8>,
    journal: Vec<u8>,
}

impl Lent {
    pub fn new(connection: Vec<u8>, registry: Vec<u8>, list: Vec<u8>, counters: Counters) -> Lent {
        Lent {
            connection,
            registry,
            list,
            counters,
            response: Vec::new(),
            journal: Vec::new(),
        }
    }

    /// With a fresh connection and all counters 0.
    pub fn fresh(registry: &[u8], list: &[u8]) -> Lent {
        Lent::new(
            vec![0; CONNECTION_SIZE],
            registry.to_vec(),
            list.to_vec(),
            Counters::default(),
        )
    }

    /// Buffers of these lengths, all of them this byte.
    pub fn renew_buffers(&mut self, lengths: Lengths, byte: u8) {
        let buffers = [&mut self.response, &mut self.journal];
        for (buffer, length) in buffers.into_iter().zip([lengths.response, lengths.journal]) {
            buffer.clear();
            buffer.resize(length + GUARD, byte);
        }
    }

    pub fn response(&self) -> &[u8] {
        &self.response[..self.response.len() - GUARD]
    }

    pub fn journal(&self) -> &[u8] {
        &self.journal[..self.journal.len() - GUARD]
    }

    pub fn response_mut(&mut self) -> &mut [u8] {
        let length = self.response.len() - GUARD;
        &mut self.response[..length]
    }

    pub fn call_proved(&mut self, chunk: &[u8]) -> Answer {
        let [response, journal] = [&mut self.response[..], &mut self.journal].map(lent_part);
        raw::call(
            chunk,
            &mut self.connection,
            &mut self.registry,
            &self.list,
            &mut self.counters,
            response,
            journal,
        )
    }

    pub fn call_reference(&mut self, chunk: &[u8]) -> Answer {
        let [response, journal] = [&mut self.response[..], &mut self.journal].map(lent_part);
        let mut counters = to_reference(&self.counters);
        let answer = reference::call(
            chunk,
            &mut self.connection,
            &mut self.registry,
            &self.list,
            &mut counters,
            response,
            journal,
        );
        self.counters = from_reference(&counters);
        match answer {
            Ok(answer) => Answer {
                code: 0,
                taken: answer.taken,
                written: answer.written,
                recorded: answer.recorded,
            },
            Err(refusal) => Answer {
                code: refusal.number().into(),
                taken: 0,
                written: 0,
                recorded: 0,
            },
        }
    }

    /// One call of each on this memory; what they say and leave is the same.
    pub fn call_both(&mut self, chunk: &[u8]) -> Answer {
        let mut reference = self.clone();
        self.renew_buffers(Lengths::LEAST, 0x55);
        reference.renew_buffers(Lengths::LEAST, 0x55);
        let expected = reference.call_reference(chunk);
        assert_eq!(self.call_proved(chunk), expected);
        assert_eq!(self.difference(&reference), None);
        expected
    }

    /// Status and body of what both answer to one request.
    pub fn ask_both(
        &mut self,
        opcode: u16,
        application: Option<&[u8]>,
        body: &[u8],
    ) -> (u16, Vec<u8>) {
        let request = request(opcode, application, body);
        let answer = self.call_both(&request);
        assert_eq!((answer.code, answer.taken), (0, request.len()));
        let response = &self.response()[..answer.written];
        let status = u16::from_le_bytes([response[24], response[25]]);
        (status, response[26..].to_vec())
    }

    /// Content type, status and body of what both answer to a request that they take whole.
    pub fn answer_of_both(&mut self, request: &[u8]) -> (u8, u16, Vec<u8>) {
        let answer = self.call_both(request);
        assert_eq!((answer.code, answer.taken), (0, request.len()));
        let response = &self.response()[..answer.written];
        let status = u16::from_le_bytes([response[24], response[25]]);
        (response[17], status, response[26..].to_vec())
    }

    /// What of all this is not the same in the other, and where.
    pub fn difference(&self, other: &Lent) -> Option<String> {
        let memories = [
            ("connection", &self.connection, &other.connection),
            ("registry", &self.registry, &other.registry),
            ("list", &self.list, &other.list),
            ("response buffer", &self.response, &other.response),
            ("journal buffer", &self.journal, &other.journal),
        ];
        for (name, memory, other) in memories {
            let differs = |(byte, other)| byte != other;
            if memory != other {
                let place = memory.iter().zip(other).position(differs);
                return Some(format!("{name}, first at byte {place:?}"));
            }
        }
        (self.counters != other.counters)
            .then(|| format!("{:?} and {:?}", self.counters, other.counters))
    }
}

/// All but the guard.
fn lent_part(buffer: &mut [u8]) -> &mut [u8] {
    let length = buffer.len() - GUARD;
    &mut buffer[..length]
}

pub fn to_reference(counters: &Counters) -> reference::Counters {
    reference::Counters {
        taken: counters.taken,
        answered: counters.answered,
        dropped: counters.dropped,
        served: counters.served,
        unauthenticated: counters.unauthenticated,
        refused: counters.refused,
    }
}

fn from_reference(counters: &reference::Counters) -> Counters {
    Counters {
        taken: counters.taken,
        answered: counters.answered,
        dropped: counters.dropped,
        served: counters.served,
        unauthenticated: counters.unauthenticated,
        refused: counters.refused,
    }
}

/// How many counters there are.
pub const COUNTERS: usize = 31;

/// The counter at this place of docs/LAYOUT.md's table.
pub fn counter_mut(counters: &mut Counters, place: usize) -> &mut u64 {
    match place {
        0 => &mut counters.taken,
        1 => &mut counters.answered,
        2 => &mut counters.dropped,
        3..11 => &mut counters.served[place - 3],
        11 => &mut counters.unauthenticated,
        _ => &mut counters.refused[place - 12],
    }
}
