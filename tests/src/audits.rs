//! Captures audited by the compiled auditor, held to the reference's verdict on the rules' responses:
//! document 02, "The auditor".

use crate::generate::{registry, Filling, Random};
use crate::lent::to_reference;
use crate::requests::{applications, requests};
use crate::shipped::{own_names, some_list};
use razidkot::raw::{self, AuditChunks, AuditLent, AuditPlace, AuditStep};
use razidkot::{Counters, CONNECTION_SIZE, LONGEST_CHUNK};
use razidkot::{LEAST_JOURNAL_BUFFER, LEAST_RESPONSE_BUFFER};
use reference::{rules, Verdict};

/// Where a capture begins, on a fresh connection, and the requests in it.
#[derive(Clone)]
pub struct Start {
    pub registry: Vec<u8>,
    pub list: Vec<u8>,
    pub requests: Vec<u8>,
}

impl Start {
    /// Of so many requests at most.
    pub fn generate(random: &mut Random, most: usize) -> Start {
        let filling = random.pick(&[Filling::NamesOnly, Filling::Some, Filling::Full]);
        let registry = registry(random, filling);
        let list = some_list(random, own_names(&registry));
        let requests = requests(random, &applications(&registry), most).concat();
        Start {
            registry,
            list,
            requests,
        }
    }

    /// What the rules give.
    pub fn expected(&self) -> rules::Outcome {
        rules::run_with_list(&self.registry, &self.list, &self.requests)
    }
}

/// A stream, and the places where its chunks end, ascending.
#[derive(Clone)]
pub struct Cut<'a> {
    stream: &'a [u8],
    places: Vec<usize>,
    at: usize,
}

impl<'a> Cut<'a> {
    pub fn at(stream: &'a [u8], places: &[usize]) -> Cut<'a> {
        Cut {
            stream,
            places: places.to_vec(),
            at: 0,
        }
    }

    pub fn uncut(stream: &'a [u8]) -> Cut<'a> {
        Cut::at(stream, &[])
    }

    /// At up to so many places.
    pub fn random(random: &mut Random, stream: &'a [u8], most: usize) -> Cut<'a> {
        let count = random.below(most + 1);
        let mut places: Vec<_> = (0..count).map(|_| random.below(stream.len() + 1)).collect();
        places.sort_unstable();
        Cut::at(stream, &places)
    }

    /// Longer chunks of requests would be refused.
    fn end(&self) -> usize {
        let later = self.places.iter().copied().find(|&place| place > self.at);
        let end = later.unwrap_or(self.stream.len());
        end.min(self.at + LONGEST_CHUNK)
    }

    fn chunk(&self) -> &'a [u8] {
        &self.stream[self.at..self.end()]
    }

    fn is_last(&self) -> bool {
        self.end() == self.stream.len()
    }

    fn rest(&self) -> &'a [u8] {
        &self.stream[self.at..]
    }
}

/// All that a step is lent.
#[derive(Clone, PartialEq, Eq)]
pub struct Memory {
    pub place: AuditPlace,
    pub connection: Vec<u8>,
    pub registry: Vec<u8>,
    pub list: Vec<u8>,
    pub pending: Vec<u8>,
    pub journal: Vec<u8>,
}

impl Memory {
    pub fn begin(start: &Start) -> Memory {
        Memory {
            place: raw::audit_begin(),
            connection: vec![0; CONNECTION_SIZE],
            registry: start.registry.clone(),
            list: start.list.clone(),
            pending: vec![0x55; LEAST_RESPONSE_BUFFER],
            journal: vec![0x55; LEAST_JOURNAL_BUFFER],
        }
    }

    /// One step; what it says of the place is kept.
    pub fn step(&mut self, requests: &[u8], responses: &[u8], is_last: bool) -> AuditStep {
        let chunks = AuditChunks {
            requests,
            responses,
            is_last,
        };
        let mut lent = AuditLent {
            connection: &mut self.connection,
            registry: &mut self.registry,
            list: &self.list,
            pending: &mut self.pending,
            journal: &mut self.journal,
        };
        let step = raw::audit_step(self.place.clone(), &chunks, &mut lent);
        self.place = step.audit.clone();
        step
    }
}

/// What an audit comes to.
#[derive(Clone, Debug, PartialEq, Eq)]
pub struct Found {
    pub verdict: Verdict,
    pub registry: Vec<u8>,
    pub connection: Vec<u8>,
    pub counters: Counters,
}

/// The compiled auditor on streams that are cut so.
pub fn audited(start: &Start, mut requests: Cut, mut responses: Cut) -> Found {
    let mut memory = Memory::begin(start);
    loop {
        let before = memory.place.clone();
        let step = memory.step(requests.chunk(), responses.chunk(), responses.is_last());
        assert_eq!(step.code, 0);
        assert!(step.requests == 0 || step.responses == 0, "{step:?}");
        requests.at += step.requests;
        responses.at += step.responses;
        if step.requests + step.responses == 0 && memory.place == before {
            break;
        }
    }
    assert!(requests.rest().is_empty(), "requests are left");
    let end = raw::audit_end(memory.place.clone(), &memory.pending, responses.rest());
    let verdict = match end.code {
        0 => Verdict::Accepted,
        1 => Verdict::Wrong {
            response: end.response,
            byte: end.byte,
        },
        code => panic!("code {code}"),
    };
    Found {
        verdict,
        registry: memory.registry,
        connection: memory.connection,
        counters: memory.place.counters,
    }
}

/// The verdict on this capture, cut so, is the reference's; all else is that of the requests.
pub fn compare(start: &Start, expected: &rules::Outcome, requests: Cut, captured: Cut) -> Verdict {
    let verdict = reference::verdict(&expected.responses, captured.stream);
    let found = audited(start, requests, captured);
    assert_eq!(found.verdict, verdict);
    assert!(found.registry == expected.registry, "registry");
    assert!(
        found.connection == expected.connection.to_memory(),
        "connection"
    );
    assert_eq!(to_reference(&found.counters), expected.counters);
    verdict
}
