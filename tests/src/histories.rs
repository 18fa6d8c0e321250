//! Pairs of histories in which one application asks for the same, from a seed: calls on many connections
//! that share a registry and counters. Document 02, "One application can't sway another".

use crate::generate::{registry, Filling, Random};
use crate::layout::{slots_of, LINES};
use crate::lent::{counter_mut, COUNTERS};
use crate::lists::{list_of, pairs_in};
use crate::requests::{applications, some_request, with_bad_start, with_lengths, Application};
use crate::senders::{has_bad_start, is_of, is_whole, with_sender};
use crate::senders::{LONGEST_AUTH, LONGEST_CONTENT};
use crate::shipped::{own_names, some_list};
use razidkot::{Counters, HIGHEST_COUNTER};
use std::collections::{BTreeMap, VecDeque};
use std::mem::take;

const MOST_OWN_REQUESTS: usize = 12;
/// How many requests of others come before one of the application's, at most.
const BUSY: [usize; 4] = [1, 3, 6, 12];
const MOST_CONNECTIONS: usize = 4;
const FLOOD: usize = 10;

/// A pair of histories of one application.
#[derive(Clone, PartialEq, Eq)]
pub struct Case {
    pub application: Vec<u8>,
    pub line: usize,
    pub list: Vec<u8>,
    /// How many requests are its own.
    pub own: usize,
    pub histories: [History; 2],
    /// Where requests with auth type 0 are sent alone.
    pub elsewhere: Elsewhere,
}

/// Another registry, most often with another roster, and another list.
#[derive(Clone, PartialEq, Eq)]
pub struct Elsewhere {
    pub registry: Vec<u8>,
    pub list: Vec<u8>,
}

/// Where it starts, and the calls that are made one by one. All connections are fresh.
#[derive(Clone, PartialEq, Eq)]
pub struct History {
    pub registry: Vec<u8>,
    pub counters: Counters,
    pub calls: Vec<Call>,
    /// Are calls that follow each other on one connection made as one?
    pub are_joined: bool,
}

/// Bytes of one request, or of none, handed over on a connection.
#[derive(Clone, Debug, PartialEq, Eq)]
pub struct Call {
    pub connection: usize,
    /// Of the request: the application's have the lowest, in order, and the same in both histories.
    pub number: usize,
    pub bytes: Vec<u8>,
}

impl Case {
    pub fn generate(seed: u64) -> Case {
        let random = &mut Random::new(seed);
        let filling = random.pick(&[Filling::NamesOnly, Filling::Some, Filling::Full]);
        let start = registry(random, filling);
        let list = some_list(random, own_names(&start));
        let all = applications(&start);
        let line = random.below(all.len());
        let senders = Senders::new(random, &all, line);
        let served = random.number() % (HIGHEST_COUNTER / 2);
        let with_others = [true, random.once_in(2)];
        let histories = with_others.map(|with_others| History {
            registry: with_other_keys(random, &start, line, all.len()),
            counters: counters(random, line, served),
            calls: senders.calls(random, with_others),
            are_joined: random.once_in(2),
        });
        Case {
            application: all[line].name().to_vec(),
            line,
            list,
            own: senders.own.len(),
            histories,
            elsewhere: Elsewhere::generate(random),
        }
    }

    /// Cases that are a step shorter. Where a request that closed a connection is left out, some are no
    /// pairs.
    pub fn shorter(&self) -> impl Iterator<Item = Case> + '_ {
        let uncut = [0, 1].into_iter().map(|place| self.uncut(place));
        self.with_fewer_requests()
            .chain(self.with_fewer_keys())
            .chain(uncut)
            .filter(move |case| case != self)
    }

    fn with_fewer_requests(&self) -> impl Iterator<Item = Case> + '_ {
        let of_others = [0, 1].into_iter().flat_map(move |place| {
            let others = self.histories[place].requests().split_off(&self.own);
            let others = others.into_keys();
            others.map(move |number| self.without(&[place], number))
        });
        let own = (0..self.own).map(|number| self.without(&[0, 1], number));
        of_others.chain(own)
    }

    fn without(&self, places: &[usize], number: usize) -> Case {
        let mut case = self.clone();
        for &place in places {
            let calls = &mut case.histories[place].calls;
            calls.retain(|call| call.number != number);
        }
        case
    }

    /// Without one of the list, or without those of another application in one history.
    fn with_fewer_keys(&self) -> impl Iterator<Item = Case> + '_ {
        let keys = pairs_in(&self.list);
        let unlisted = (0..keys.len()).map(move |place| Case {
            list: list_of(&[&keys[..place], &keys[place + 1..]].concat()),
            ..self.clone()
        });
        let others = (0..LINES).filter(|&line| line != self.line);
        let emptied = others.flat_map(move |line| {
            [0, 1].into_iter().map(move |place| {
                let mut case = self.clone();
                case.histories[place].registry[slots_of(line)].fill(0);
                case
            })
        });
        unlisted.chain(emptied)
    }

    /// Each request of a history in one call, where it ended.
    fn uncut(&self, place: usize) -> Case {
        let mut case = self.clone();
        let calls = &mut case.histories[place].calls;
        for call in take(calls) {
            let before = calls.iter().position(|other| other.number == call.number);
            let mut bytes = before.map_or(Vec::new(), |place| calls.remove(place).bytes);
            bytes.extend(&call.bytes);
            calls.push(Call { bytes, ..call });
        }
        case
    }
}

impl History {
    /// Its requests by their numbers.
    pub fn requests(&self) -> BTreeMap<usize, Vec<u8>> {
        let mut requests: BTreeMap<usize, Vec<u8>> = BTreeMap::new();
        for call in &self.calls {
            requests.entry(call.number).or_default().extend(&call.bytes);
        }
        requests
    }
}

impl Elsewhere {
    fn generate(random: &mut Random) -> Elsewhere {
        let filling = random.pick(&Filling::ALL);
        let registry = registry(random, filling);
        let list = some_list(random, own_names(&registry));
        Elsewhere { registry, list }
    }

    /// A request by itself on a fresh connection.
    pub fn alone(&self, request: &[u8]) -> History {
        History {
            registry: self.registry.clone(),
            counters: Counters::default(),
            calls: vec![Call {
                connection: 0,
                number: 0,
                bytes: request.to_vec(),
            }],
            are_joined: false,
        }
    }
}

// ---- where histories start

/// The registry with the keys of any line, with none or with the same ones in each other line.
fn with_other_keys(random: &mut Random, start: &[u8], own: usize, lines: usize) -> Vec<u8> {
    let mut registry = start.to_vec();
    for line in (0..lines).filter(|&line| line != own) {
        let slots = &mut registry[slots_of(line)];
        match random.below(3) {
            0 => slots.fill(0),
            1 => {
                let from = [own, random.below(lines)];
                slots.copy_from_slice(&start[slots_of(random.pick(&from))]);
            }
            _ => {}
        }
    }
    registry
}

/// Any numbers, but this one for the line.
fn counters(random: &mut Random, line: usize, served: u64) -> Counters {
    let mut counters = Counters::default();
    for place in 0..COUNTERS {
        *counter_mut(&mut counters, place) = random.number() % (HIGHEST_COUNTER / 2);
    }
    counters.served[line] = served;
    counters
}

// ---- what is sent

/// The application with all that it asks for, and the others.
struct Senders {
    application: Vec<u8>,
    own: Vec<Vec<u8>>,
    others: Vec<Application>,
}

impl Senders {
    fn new(random: &mut Random, all: &[Application], line: usize) -> Senders {
        let application = &all[line];
        let asking = application.asking_for_keys_of(&all[random.below(all.len())]);
        let count = 1 + random.below(MOST_OWN_REQUESTS);
        let others = all
            .iter()
            .filter(|other| other.name() != application.name());
        Senders {
            application: application.name().to_vec(),
            own: (0..count).map(|_| own_request(random, &asking)).collect(),
            others: others
                .map(|other| other.asking_for_keys_of(application))
                .collect(),
        }
    }

    /// The application's requests in their order, and others' between them or none.
    fn calls(&self, random: &mut Random, with_others: bool) -> Vec<Call> {
        let mut queues = Queues {
            queues: (0..=random.below(MOST_CONNECTIONS))
                .map(|_| Queue::default())
                .collect(),
            next: self.own.len(),
        };
        let busy = if with_others { random.pick(&BUSY) } else { 0 };
        for (number, request) in self.own.iter().enumerate() {
            let others = 0..random.below(busy + 1);
            others.for_each(|_| self.add_others(random, &mut queues));
            queues.one_in_step(random).push(number, request.clone());
        }
        queues.calls(random, self.own.len())
    }

    /// Something of others on any connection; on a closed one also a request as the application's own.
    fn add_others(&self, random: &mut Random, queues: &mut Queues) {
        let place = queues.any(random);
        let request = match queues.queues[place].position {
            Position::Closed if random.once_in(2) => random.pick(&self.own),
            _ => self.others_request(random),
        };
        match random.below(20) {
            0 => queues.push_cut(place, random.below(request.len() + 1), request),
            1 => (0..FLOOD).for_each(|_| queues.push(place, request.clone())),
            _ => queues.push(place, request),
        }
    }

    /// Another's request, one that only looks like the application's, or a start that closes a connection.
    fn others_request(&self, random: &mut Random) -> Vec<u8> {
        loop {
            let like = random.pick(&self.own);
            let other = random.below(self.others.len().max(1));
            let request = match random.below(30) {
                0 => with_bad_start(random, like),
                1..9 => lookalike(random, &like, &self.application),
                _ if self.others.is_empty() => lookalike(random, &like, &self.application),
                _ => some_request(random, &self.others[other]),
            };
            if !is_of(&self.application, &request) {
                return request;
            }
        }
    }
}

fn own_request(random: &mut Random, application: &Application) -> Vec<u8> {
    loop {
        let request = some_request(random, application);
        if is_of(application.name(), &request) {
            return request;
        }
    }
}

/// The application's request with another auth type, with another name, or oversized.
fn lookalike(random: &mut Random, request: &[u8], name: &[u8]) -> Vec<u8> {
    let oversized = with_lengths(request, LONGEST_CONTENT + 1, 0);
    let long_name = name.repeat(LONGEST_AUTH + 1);
    match random.below(9) {
        0 => with_sender(request, 0, name),
        1 => with_sender(request, 2, name),
        2 | 3 => with_sender(request, 0, b""),
        4 => with_sender(request, 1, &name[1..]),
        5 => with_sender(request, 1, &[name, b"!"].concat()),
        6 => with_sender(request, 1, &long_name[..LONGEST_AUTH + 1]),
        7 => with_sender(&oversized, 0, name),
        _ => with_sender(&oversized, 1, name),
    }
}

// ---- on which connections, and in which chunks

/// What the bytes sent on a connection come to.
#[derive(Clone, Copy, Default, PartialEq, Eq)]
enum Position {
    /// The next byte begins a request.
    #[default]
    InStep,
    /// Perhaps in the midst of a request, perhaps closed.
    Lost,
    Closed,
    /// Nothing more is sent.
    Gone,
}

/// What is to be sent on a connection: numbers and bytes.
#[derive(Default)]
struct Queue {
    position: Position,
    requests: VecDeque<(usize, Vec<u8>)>,
}

impl Queue {
    fn push(&mut self, number: usize, bytes: Vec<u8>) {
        self.position = match self.position {
            Position::InStep if has_bad_start(&bytes) => Position::Closed,
            Position::InStep if !is_whole(&bytes) => Position::Lost,
            position => position,
        };
        self.requests.push_back((number, bytes));
    }
}

struct Queues {
    queues: Vec<Queue>,
    /// The number of the next request of others.
    next: usize,
}

impl Queues {
    fn push(&mut self, place: usize, bytes: Vec<u8>) {
        self.queues[place].push(self.next, bytes);
        self.next += 1;
    }

    /// The beginning of a request, behind which its sender is gone.
    fn push_cut(&mut self, place: usize, length: usize, mut bytes: Vec<u8>) {
        bytes.truncate(length);
        self.push(place, bytes);
        self.queues[place].position = Position::Gone;
    }

    /// A connection, and more often a new one than one that is out of step.
    fn any(&mut self, random: &mut Random) -> usize {
        let place = random.below(self.queues.len());
        let is_new = match self.queues[place].position {
            Position::InStep => false,
            Position::Lost | Position::Closed => !random.once_in(3),
            Position::Gone => true,
        };
        if is_new {
            self.add()
        } else {
            place
        }
    }

    fn add(&mut self) -> usize {
        self.queues.push(Queue::default());
        self.queues.len() - 1
    }

    /// A connection that can carry the application's next request; a new one if there is none.
    fn one_in_step(&mut self, random: &mut Random) -> &mut Queue {
        let is_in_step = |place: &usize| self.queues[*place].position == Position::InStep;
        let places: Vec<_> = (0..self.queues.len()).filter(is_in_step).collect();
        let place = if places.is_empty() {
            self.add()
        } else {
            random.pick(&places)
        };
        &mut self.queues[place]
    }

    /// One with something to send.
    fn some_waiting(&self, random: &mut Random) -> Option<usize> {
        let is_waiting = |place: &usize| !self.queues[*place].requests.is_empty();
        let waiting: Vec<_> = (0..self.queues.len()).filter(is_waiting).collect();
        (!waiting.is_empty()).then(|| random.pick(&waiting))
    }

    /// The next call on this connection; and is it the last one of its request?
    fn next_call(&mut self, random: &mut Random, turns: &Turns, connection: usize) -> (Call, bool) {
        let requests = &mut self.queues[connection].requests;
        let (number, mut rest) = requests.pop_front().expect("something to send");
        let length = match random.below(turns.cuts) {
            _ if turns.has_to_wait(number) => random.below(rest.len()),
            0 => rest.len(),
            _ => random.below(rest.len() + 1),
        };
        let behind = rest.split_off(length);
        let is_last = behind.is_empty();
        if !is_last {
            requests.push_front((number, behind));
        }
        let call = Call {
            connection,
            number,
            bytes: rest,
        };
        (call, is_last)
    }

    /// The connections by turns, their requests cut anywhere. The first `own` requests are the
    /// application's, and end in their order.
    fn calls(mut self, random: &mut Random, own: usize) -> Vec<Call> {
        let mut turns = Turns {
            own,
            ended: 0,
            cuts: random.pick(&[1, 2, 10]),
        };
        let mut calls = Vec::new();
        while let Some(connection) = self.some_waiting(random) {
            let (call, is_last) = self.next_call(random, &turns, connection);
            turns.ended += usize::from(is_last && call.number < own);
            calls.push(call);
        }
        calls
    }
}

/// The application's requests, how many of them have ended, and how often a request is cut.
struct Turns {
    own: usize,
    ended: usize,
    cuts: usize,
}

impl Turns {
    /// For an earlier request of the application's, before its own last byte.
    fn has_to_wait(&self, number: usize) -> bool {
        (self.ended + 1..self.own).contains(&number)
    }
}
