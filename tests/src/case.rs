//! A case of the differential test: where a caller starts, what it sends, how that is cut, and
//! which calls it makes with something wrong.

use crate::ask::{request, PING};
use crate::connections;
use crate::generate::{registry, Damage, Filling, Random};
use crate::lent::{counter_mut, Lengths, Lent, COUNTERS};
use crate::lists::{list_of, pairs_in};
use crate::requests::{applications, requests};
use crate::shipped;
use razidkot::{Counters, CONNECTION_SIZE, HIGHEST_COUNTER, LONGEST_CHUNK};
use reference::rules;

const MOST_REQUESTS: usize = 24;
/// About as many calls a case takes at most, those with a fault aside.
const MOST_CALLS: usize = 120;

#[derive(Clone)]
pub struct Case {
    pub connection: Vec<u8>,
    pub registry: Vec<u8>,
    pub list: Vec<u8>,
    pub counters: Counters,
    pub requests: Vec<Vec<u8>>,
    /// How long the chunks are, over and over.
    pub sizes: Vec<usize>,
    /// Is the rest of a chunk handed over again by itself, or with what follows?
    pub rests_alone: bool,
    pub lengths: Lengths,
    pub faults: Vec<FaultyCall>,
}

/// A call with faults, made on copies just before the call of this number.
#[derive(Clone, Debug)]
pub struct FaultyCall {
    pub number: usize,
    pub faults: Vec<Fault>,
}

/// What a call is made with, C1 to C7 most often; some damage leaves memory or list well formed.
#[derive(Clone, Copy, Debug)]
pub enum Fault {
    ResponseLength(usize),
    ChunkLength(usize),
    /// The damage that this seed gives.
    Connection(u64),
    Registry(Damage),
    Counter {
        place: usize,
        value: u64,
    },
    /// The damage that this seed gives.
    List(u64),
    JournalLength(usize),
}

impl Case {
    pub fn generate(seed: u64) -> Case {
        let random = &mut Random::new(seed);
        let filling = random.pick(&[
            Filling::Empty,
            Filling::NamesOnly,
            Filling::Some,
            Filling::Some,
            Filling::Full,
        ]);
        let registry = registry(random, filling);
        let list = shipped::some_list(random, shipped::own_names(&registry));
        let requests = requests(random, &applications(&registry), MOST_REQUESTS);
        let sizes = sizes(random, requests.concat().len());
        let case = Case {
            connection: vec![0; CONNECTION_SIZE],
            registry,
            list,
            counters: counters(random),
            requests,
            sizes,
            rests_alone: random.once_in(2),
            lengths: Lengths {
                response: random.pick(&[1_024, 1_024, 1_025, 2_000]),
                journal: random.pick(&[1_024, 1_024, 1_025, 1_026, 2_000]),
            },
            faults: (0..random.below(12)).map(|_| faulty_call(random)).collect(),
        };
        if random.once_in(2) {
            case.begun(random)
        } else {
            case
        }
    }

    /// The case with the beginning of its first request sent before.
    fn begun(mut self, random: &mut Random) -> Case {
        let first = &mut self.requests[0];
        let cut = random.pick(&[1, 5, 6, 7, 27, 28, 70, first.len() / 2, first.len()]);
        let sent: Vec<u8> = first.drain(..cut.min(first.len())).collect();
        let outcome = rules::run_with_list(&self.registry, &self.list, &sent);
        self.connection = outcome.connection.to_memory();
        self.registry = outcome.registry;
        self
    }

    pub fn lent(&self) -> Lent {
        Lent::new(
            self.connection.clone(),
            self.registry.clone(),
            self.list.clone(),
            self.counters.clone(),
        )
    }

    /// Cases that are a step shorter.
    pub fn shorter(&self) -> Vec<Case> {
        let without_request = (0..self.requests.len()).map(|place| {
            let mut case = self.clone();
            case.requests.remove(place);
            case
        });
        let without_fault = (0..self.faults.len()).map(|place| {
            let mut case = self.clone();
            case.faults.remove(place);
            case
        });
        let keys = pairs_in(&self.list);
        let without_key = (0..keys.len()).map(|place| {
            let mut keys = keys.clone();
            keys.remove(place);
            Case {
                list: list_of(&keys),
                ..self.clone()
            }
        });
        // Empty chunks alone would never come to the end.
        let can_be_alone = |&size: &usize| size > 0 && self.sizes.len() > 1;
        let with_one_size = self.sizes.iter().copied().filter(can_be_alone);
        let with_one_size = with_one_size.map(|size| Case {
            sizes: vec![size],
            ..self.clone()
        });
        without_request
            .chain(without_fault)
            .chain(without_key)
            .chain(with_one_size)
            .collect()
    }
}

/// Chunks of one magnitude, empty ones among them, and not so short that the calls are too many.
fn sizes(random: &mut Random, length: usize) -> Vec<usize> {
    let longest = random.pick(&[3, 30, 300, 5_000, LONGEST_CHUNK]);
    let longest = longest.max(length / MOST_CALLS);
    let mut sizes: Vec<_> = (0..8).map(|_| random.below(longest + 1)).collect();
    sizes.push(longest);
    sizes
}

/// All 0, or any numbers; now and then one that the case may bring above the bound.
fn counters(random: &mut Random) -> Counters {
    let mut counters = Counters::default();
    if random.once_in(2) {
        for place in 0..COUNTERS {
            *counter_mut(&mut counters, place) = random.number() % HIGHEST_COUNTER;
        }
    }
    if random.once_in(10) {
        let below = random.pick(&[0, 1, 2, 100]);
        *counter_mut(&mut counters, random.below(COUNTERS)) = HIGHEST_COUNTER - below;
    }
    counters
}

/// Most often one fault, and of each kind at most one.
fn faulty_call(random: &mut Random) -> FaultyCall {
    let mut faults = vec![
        Fault::ResponseLength(random.pick(&[0, 25, 629, 1_022, 1_023, 1_024])),
        Fault::ChunkLength(random.pick(&[0, 65_535, 65_536, 65_537, 70_000])),
        Fault::Connection(random.word()),
        Fault::Registry(Damage::generate(random)),
        Fault::Counter {
            place: random.below(COUNTERS),
            value: random.pick(&[1 << 62, (1 << 62) + 1, 1 << 63, u64::MAX]),
        },
        Fault::List(random.word()),
        Fault::JournalLength(random.pick(&[0, 1, 9, 645, 1_022, 1_023, 1_024])),
    ];
    random.shuffle(&mut faults);
    faults.truncate(random.pick(&[1, 1, 2, 3, 7]));
    FaultyCall {
        number: random.below(MOST_CALLS / 4),
        faults,
    }
}

impl Fault {
    pub fn apply(self, lent: &mut Lent, chunk: &mut Vec<u8>, lengths: &mut Lengths) {
        match self {
            Fault::ResponseLength(length) => lengths.response = length,
            Fault::ChunkLength(length) => {
                let ping = request(PING, None, &[]);
                let missing = length.saturating_sub(chunk.len());
                chunk.extend(ping.iter().cycle().take(missing));
                chunk.truncate(length);
            }
            Fault::Connection(seed) => {
                connections::damage(&mut Random::new(seed), &mut lent.connection);
            }
            Fault::Registry(damage) => damage.apply(&mut lent.registry),
            Fault::Counter { place, value } => *counter_mut(&mut lent.counters, place) = value,
            Fault::List(seed) => shipped::damage(&mut Random::new(seed), &mut lent.list),
            Fault::JournalLength(length) => lengths.journal = length,
        }
    }
}
