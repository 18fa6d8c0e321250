//! Makes the calls of two histories to a service, and compares what they come to for one application:
//! document 02, "One application can't sway another".

use crate::histories::{Call, Case, History};
use crate::isolation_reached::Reached;
use crate::layout::{line_at, name_at, slot_at, used_places, Place, LINE_SIZE};
use crate::lent::{Lengths, Lent};
use crate::senders::{is_of, is_unauthenticated};
use razidkot::raw::Answer;
use razidkot::{Counters, Status, CONNECTION_SIZE, LONGEST_CHUNK};
use std::collections::BTreeSet;
use std::fmt;
use std::mem::{discriminant, swap, take};

/// What makes calls on lent memory.
pub trait Service {
    fn call(&self, lent: &mut Lent, chunk: &[u8]) -> Answer;
}

/// The compiled service.
pub struct Compiled;

impl Service for Compiled {
    fn call(&self, lent: &mut Lent, chunk: &[u8]) -> Answer {
        lent.call_proved(chunk)
    }
}

/// How a rule is broken.
#[derive(Debug)]
pub enum Difference {
    /// A call was refused, or took nothing of its chunk: the case shows nothing.
    NotTaken(Answer),
    /// The application's requests are not the same: the case is no pair.
    OwnRequests,
    OwnResponses {
        request: Vec<u8>,
        responses: [Vec<u8>; 2],
    },
    /// The first byte of the application's line that is not the same.
    OwnSlots {
        at: usize,
    },
    OwnServed([u64; 2]),
    /// With auth type 0, in a history and alone.
    Unauthenticated {
        request: Vec<u8>,
        responses: [Vec<u8>; 2],
    },
    AnsweredAfterClose {
        request: Vec<u8>,
    },
}

// ---- one history

/// A request and its response.
pub struct Exchange {
    pub connection: usize,
    pub request: Vec<u8>,
    pub response: Vec<u8>,
    /// How many exchanges there were before the request's first byte was taken.
    pub begun: usize,
    /// What it left.
    pub registry: Vec<u8>,
}

impl Exchange {
    pub fn status(&self) -> u16 {
        u16::from_le_bytes([self.response[24], self.response[25]])
    }

    pub fn closes(&self) -> bool {
        self.status() == Status::InvalidHeader.number()
    }
}

/// What a history came to.
pub struct Seen {
    pub exchanges: Vec<Exchange>,
    /// On each connection, the bytes taken behind its last response.
    pub unanswered: Vec<Vec<u8>>,
    pub registry: Vec<u8>,
    pub counters: Counters,
}

impl Seen {
    /// The application's own, in order.
    pub fn of<'a>(&'a self, application: &'a [u8]) -> impl Iterator<Item = &'a Exchange> {
        let exchanges = self.exchanges.iter();
        exchanges.filter(move |exchange| is_of(application, &exchange.request))
    }
}

/// A connection's memory, and the bytes taken since its last response.
struct Connection {
    memory: Vec<u8>,
    taken: Vec<u8>,
    begun: usize,
}

/// Connections that share a registry and counters.
struct Shared<'a, S> {
    service: &'a S,
    lent: Lent,
    connections: Vec<Connection>,
    exchanges: Vec<Exchange>,
}

impl<S: Service> Shared<'_, S> {
    /// Calls until all of the chunk is taken, and once where it is empty.
    fn hand_over(&mut self, place: usize, chunk: &[u8]) -> Result<(), Difference> {
        let mut rest = chunk;
        loop {
            let taken = self.call(place, &rest[..rest.len().min(LONGEST_CHUNK)])?;
            rest = &rest[taken..];
            if rest.is_empty() {
                return Ok(());
            }
        }
    }

    /// Gives how many bytes were taken.
    fn call(&mut self, place: usize, chunk: &[u8]) -> Result<usize, Difference> {
        let connection = &mut self.connections[place];
        // Other bytes in each history: none of them are to be in a response.
        let byte = self.exchanges.len() as u8;
        self.lent.renew_buffers(Lengths::LEAST, byte);
        swap(&mut self.lent.connection, &mut connection.memory);
        let answer = self.service.call(&mut self.lent, chunk);
        swap(&mut self.lent.connection, &mut connection.memory);
        if answer.code != 0 || (answer.taken == 0 && !chunk.is_empty()) {
            return Err(Difference::NotTaken(answer));
        }
        if connection.taken.is_empty() {
            connection.begun = self.exchanges.len();
        }
        connection.taken.extend(&chunk[..answer.taken]);
        if answer.written > 0 {
            self.exchanges.push(Exchange {
                connection: place,
                request: take(&mut connection.taken),
                response: self.lent.response()[..answer.written].to_vec(),
                begun: connection.begun,
                registry: self.lent.registry.clone(),
            });
        }
        Ok(answer.taken)
    }
}

fn run(list: &[u8], history: &History, service: &impl Service) -> Result<Seen, Difference> {
    let History {
        registry, counters, ..
    } = history.clone();
    let connections = history.calls.iter().map(|call| call.connection + 1).max();
    let fresh = || Connection {
        memory: vec![0; CONNECTION_SIZE],
        taken: Vec::new(),
        begun: 0,
    };
    let mut shared = Shared {
        service,
        lent: Lent::new(Vec::new(), registry, list.to_vec(), counters),
        connections: (0..connections.unwrap_or(0)).map(|_| fresh()).collect(),
        exchanges: Vec::new(),
    };
    let is_one = |one: &Call, next: &Call| history.are_joined && one.connection == next.connection;
    for calls in history.calls.chunk_by(is_one) {
        let chunks: Vec<_> = calls.iter().map(|call| &call.bytes[..]).collect();
        shared.hand_over(calls[0].connection, &chunks.concat())?;
    }
    let connections = shared.connections.into_iter();
    Ok(Seen {
        exchanges: shared.exchanges,
        unanswered: connections.map(|connection| connection.taken).collect(),
        registry: shared.lent.registry,
        counters: shared.lent.counters,
    })
}

// ---- the rules

/// "Whatever the others sent between them, its responses, its slots and its served count come out the same."
pub fn own_is_the_same(case: &Case, service: &impl Service) -> Result<Vec<Seen>, Difference> {
    let [first, second] = &case.histories;
    let first = run(&case.list, first, service)?;
    let second = run(&case.list, second, service)?;
    let own = [&first, &second].map(|seen| seen.of(&case.application).collect::<Vec<_>>());
    let requests = [0, 1].map(|place| own[place].iter().map(|exchange| &exchange.request));
    let [of_first, of_second] = requests;
    if !of_first.eq(of_second) {
        return Err(Difference::OwnRequests);
    }
    let mut pairs = own[0].iter().zip(&own[1]);
    if let Some((one, other)) = pairs.find(|(one, other)| one.response != other.response) {
        return Err(Difference::OwnResponses {
            request: one.request.clone(),
            responses: [one.response.clone(), other.response.clone()],
        });
    }
    let [line, other_line] = [&first, &second].map(|seen| line_of(case, &seen.registry));
    let mut bytes = line.iter().zip(other_line);
    if let Some(at) = bytes.position(|(one, other)| one != other) {
        return Err(Difference::OwnSlots { at });
    }
    let served = [&first, &second].map(|seen| seen.counters.served[case.line]);
    if served[0] != served[1] {
        return Err(Difference::OwnServed(served));
    }
    Ok(vec![first, second])
}

fn line_of<'a>(case: &Case, registry: &'a [u8]) -> &'a [u8] {
    &registry[line_at(case.line)..][..LINE_SIZE]
}

/// "responses under auth type 0 depend on their own request alone": each is that which its request gets
/// by itself on a fresh connection, with another registry and another list.
pub fn unauthenticated_is_as_alone(
    case: &Case,
    service: &impl Service,
) -> Result<Vec<Seen>, Difference> {
    let seen = run(&case.list, &case.histories[0], service)?;
    let exchanges = seen.exchanges.iter();
    for exchange in exchanges.filter(|exchange| is_unauthenticated(&exchange.request)) {
        let alone = case.elsewhere.alone(&exchange.request);
        let alone = run(&case.elsewhere.list, &alone, service)?;
        let response = alone.exchanges.first().map(|exchange| &exchange.response);
        if response != Some(&exchange.response) {
            return Err(Difference::Unauthenticated {
                request: exchange.request.clone(),
                responses: [
                    exchange.response.clone(),
                    response.cloned().unwrap_or_default(),
                ],
            });
        }
    }
    Ok(vec![seen])
}

/// "A connection's closing does count: a request after it was never read."
pub fn nothing_is_answered_after_a_close(
    case: &Case,
    service: &impl Service,
) -> Result<Vec<Seen>, Difference> {
    let seen = run(&case.list, &case.histories[0], service)?;
    let mut closed = BTreeSet::new();
    for exchange in &seen.exchanges {
        if closed.contains(&exchange.connection) {
            let request = exchange.request.clone();
            return Err(Difference::AnsweredAfterClose { request });
        }
        if exchange.closes() {
            closed.insert(exchange.connection);
        }
    }
    Ok(vec![seen])
}

// ---- many cases

/// A case that breaks a rule, as short as it could be made.
pub struct Broken {
    pub seed: u64,
    pub case: Case,
    pub difference: Difference,
}

/// The first of so many cases that breaks the rule; what the others reached is counted.
pub fn first_broken(
    cases: u64,
    reached: &mut Reached,
    rule: impl Fn(&Case) -> Result<Vec<Seen>, Difference>,
) -> Option<Broken> {
    (0..cases).find_map(|seed| {
        let case = Case::generate(seed);
        match rule(&case) {
            Ok(seen) => {
                reached.count(&case, &seen);
                None
            }
            Err(difference) => Some(shrink(seed, case, difference, &rule)),
        }
    })
}

/// Keeps what kind of difference it is.
fn shrink(
    seed: u64,
    mut case: Case,
    mut difference: Difference,
    rule: impl Fn(&Case) -> Result<Vec<Seen>, Difference>,
) -> Broken {
    let kind = discriminant(&difference);
    let broken = |case: Case| {
        let difference = rule(&case).err();
        let difference = difference.filter(|difference| discriminant(difference) == kind);
        difference.map(|difference| (case, difference))
    };
    loop {
        let Some(shorter) = case.shorter().find_map(broken) else {
            break;
        };
        (case, difference) = shorter;
    }
    Broken {
        seed,
        case,
        difference,
    }
}

/// Only the beginning of long requests; the seed gives all.
impl fmt::Display for Broken {
    fn fmt(&self, formatter: &mut fmt::Formatter) -> fmt::Result {
        let case = &self.case;
        writeln!(formatter, "seed {}: {:02X?}", self.seed, self.difference)?;
        writeln!(formatter, "line {} {:02X?}", case.line, case.application)?;
        writeln!(formatter, "list of {} bytes", case.list.len())?;
        for (number, history) in (1..).zip(&case.histories) {
            writeln!(formatter, "history {number}, joined {}", history.are_joined)?;
            for line in shown(case, history) {
                writeln!(formatter, "  {line}")?;
            }
        }
        Ok(())
    }
}

/// The keys at the start, then the calls.
fn shown(case: &Case, history: &History) -> Vec<String> {
    let registry = &history.registry;
    let key = |place: Place| {
        let name = name_at(registry, slot_at(place));
        format!("{place:?} {name:02X?}")
    };
    let call = |call: &Call| {
        let sender = if call.number < case.own {
            "own"
        } else {
            "other"
        };
        let shown = &call.bytes[..call.bytes.len().min(80)];
        format!(
            "connection {}: {sender} {}, {} bytes {shown:02X?}",
            call.connection,
            call.number,
            call.bytes.len(),
        )
    };
    let keys = used_places(registry).into_iter().map(key);
    keys.chain(history.calls.iter().map(call)).collect()
}
