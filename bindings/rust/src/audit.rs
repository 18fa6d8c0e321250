//! The auditor: captured responses compared with those that the rules give for captured requests.

use crate::raw::{self, AuditChunks, AuditLent, AuditPlace};
use crate::{Connection, Counters, List, Registry};
use crate::{LEAST_BILL_BUFFER, LEAST_JOURNAL_BUFFER, LEAST_RESPONSE_BUFFER, LONGEST_CHUNK};
use std::fmt;
use std::io::{self, Read};

/// An audit: it takes captured requests and captured responses in chunks, each cut anywhere and at its
/// own pace, and ends with a verdict and the bill.
///
/// ```
/// use razidkot::{Audit, List, Registry, Verdict};
///
/// // Ping: magic, H, version 1.0, provider, session, types, lengths, opcode 1. Twice.
/// let ping = *b"\x10\xA7\xC0\x5E\x16\x00\x01\x00\x00\0\0\0\0\0\0\0\0\x01\x01\x00\0\0\0\0\0\0\x01\x00";
/// let pong = *b"\x10\xA7\xC0\x5E\x14\x00\x01\x00\x00\0\0\0\0\0\0\0\0\x01\x02\0\0\0\x01\x00\0\0\x08\x01";
/// let (requests, mut responses) = (ping.repeat(2), pong.repeat(2));
/// let audit = || Ok::<_, razidkot::RosterFault>(Audit::begin(Registry::load(b"")?, List::new()));
///
/// let audited = audit()?.read(&mut &requests[..], &mut &responses[..])?;
/// assert_eq!(audited.verdict, Verdict::Accepted);
/// assert_eq!(audited.bill, "taken 56\nopen 2\ndropped 0\nheld 0\n");
///
/// responses[pong.len() + 24] ^= 1;
/// let audited = audit()?.read(&mut &requests[..], &mut &responses[..])?;
/// assert_eq!(audited.verdict.to_string(), "wrong 2 24");
/// # Ok::<(), Box<dyn std::error::Error>>(())
/// ```
#[derive(Clone, Debug)]
pub struct Audit {
    registry: Registry,
    list: List,
    connection: Connection,
    place: AuditPlace,
    pending: [u8; LEAST_RESPONSE_BUFFER],
    journal: [u8; LEAST_JOURNAL_BUFFER],
}

/// How many bytes of the two chunks were taken. The rest of each is for the caller to hand over again.
#[derive(Clone, Copy, Debug, PartialEq, Eq)]
#[must_use = "bytes that were not taken are to be handed over again"]
pub struct Taken {
    /// Bytes of the requests.
    pub requests: usize,
    /// Bytes of the responses: right ones. A wrong byte is not taken, and nothing behind it.
    pub responses: usize,
}

/// What an audit finds.
#[derive(Clone, Copy, Debug, PartialEq, Eq)]
pub enum Verdict {
    /// Every response is the one that the rules give.
    Accepted,
    /// One is not, or is missing, or is one more than there should be.
    Wrong {
        /// The first such response's number, from 1.
        response: u64,
        /// Its first wrong or missing byte, from 0.
        byte: usize,
    },
}

/// What an audit ends with. All but the verdict is that of the requests, right responses or wrong.
#[derive(Clone, Debug, PartialEq, Eq)]
pub struct Audited {
    /// What was found.
    pub verdict: Verdict,
    /// The bill, from the registry that the audit began with.
    pub bill: String,
    /// As the requests left it.
    pub registry: Registry,
    /// What the requests came to.
    pub counters: Counters,
}

impl Audit {
    /// An audit that has taken nothing. Registry and list are as the service had them when the capture
    /// began: of a service with a journal, [`JournalReader`](crate::JournalReader) gives the registry back.
    pub fn begin(registry: Registry, list: List) -> Audit {
        Audit {
            registry,
            list,
            connection: Connection::open(),
            place: raw::audit_begin(),
            pending: [0; LEAST_RESPONSE_BUFFER],
            journal: [0; LEAST_JOURNAL_BUFFER],
        }
    }

    /// Takes as much of both chunks as it can. `is_last` says that no response byte comes behind this
    /// chunk; without it, an audit that has compared all of them waits for more.
    ///
    /// What is left: nothing of one chunk or both, or, of the responses, bytes that no request of this
    /// chunk has brought.
    pub fn take(&mut self, requests: &[u8], responses: &[u8], is_last: bool) -> Taken {
        let mut taken = Taken {
            requests: 0,
            responses: 0,
        };
        loop {
            let rest = &requests[taken.requests..];
            let before = self.place.clone();
            let step = self.step(&AuditChunks {
                requests: &rest[..rest.len().min(LONGEST_CHUNK)],
                responses: &responses[taken.responses..],
                is_last,
            });
            if step.requests + step.responses == 0 && self.place == before {
                return taken;
            }
            taken.requests += step.requests;
            taken.responses += step.responses;
        }
    }

    fn step(&mut self, chunks: &AuditChunks) -> Taken {
        let mut lent = AuditLent {
            connection: self.connection.memory_mut(),
            registry: self.registry.memory_mut(),
            list: self.list.bytes(),
            pending: &mut self.pending,
            journal: &mut self.journal,
        };
        let stepped = raw::audit_step(self.place.clone(), chunks, &mut lent);
        assert_eq!(
            stepped.code, 0,
            "well-formed memory, and no stream of 2^62 bytes"
        );
        self.place = stepped.audit;
        Taken {
            requests: stepped.requests,
            responses: stepped.responses,
        }
    }

    /// Both streams end here: all requests are taken, and `rest` is what is left of the responses.
    pub fn finish(self, rest: &[u8]) -> Audited {
        let bill = self.bill();
        let end = raw::audit_end(self.place.clone(), &self.pending, rest);
        let verdict = match end.code {
            0 => Verdict::Accepted,
            1 => Verdict::Wrong {
                response: end.response,
                byte: end.byte,
            },
            code => unreachable!("code {code} of a well-formed audit"),
        };
        Audited {
            verdict,
            bill,
            registry: self.registry,
            counters: self.place.counters,
        }
    }

    fn bill(&self) -> String {
        let mut out = vec![0; LEAST_BILL_BUFFER];
        let (registry, connection) = (self.registry.memory(), self.connection.memory());
        let written = raw::bill(&mut out, &self.place.counters, registry, connection);
        out.truncate(written.expect("well-formed memory and room for any bill"));
        String::from_utf8(out).expect("names of visible ASCII")
    }

    /// Takes both streams to their ends, in chunks of 64 KiB, and finishes.
    pub fn read(
        mut self,
        requests: &mut impl Read,
        responses: &mut impl Read,
    ) -> io::Result<Audited> {
        let (mut requests, mut responses) = (Chunked::new(requests), Chunked::new(responses));
        loop {
            requests.fill()?;
            responses.fill()?;
            let taken = self.take(&requests.bytes, &responses.bytes, responses.has_ended);
            requests.drop_front(taken.requests);
            responses.drop_front(taken.responses);
            if requests.has_ended && requests.bytes.is_empty() {
                let waits = !responses.has_ended && responses.bytes.is_empty();
                if !waits {
                    return Ok(self.finish(&responses.bytes));
                }
            }
        }
    }
}

impl fmt::Display for Verdict {
    fn fmt(&self, out: &mut fmt::Formatter) -> fmt::Result {
        match self {
            Verdict::Accepted => write!(out, "accepted"),
            Verdict::Wrong { response, byte } => write!(out, "wrong {response} {byte}"),
        }
    }
}

/// A stream's next bytes.
struct Chunked<'a, R> {
    stream: &'a mut R,
    bytes: Vec<u8>,
    has_ended: bool,
}

impl<'a, R: Read> Chunked<'a, R> {
    fn new(stream: &'a mut R) -> Chunked<'a, R> {
        Chunked {
            stream,
            bytes: Vec::new(),
            has_ended: false,
        }
    }

    /// Reads once where no bytes are left.
    fn fill(&mut self) -> io::Result<()> {
        if !self.bytes.is_empty() || self.has_ended {
            return Ok(());
        }
        self.bytes.resize(LONGEST_CHUNK, 0);
        let length = self.stream.read(&mut self.bytes)?;
        self.bytes.truncate(length);
        self.has_ended = length == 0;
        Ok(())
    }

    fn drop_front(&mut self, count: usize) {
        self.bytes.drain(..count);
    }
}
