//! Any cut against the uncut rules, on generated rosters, lists and streams.
//! Document 01, "A whole stream under the rules"; document 02, "Keys we ship", "Use per key" and
//! "Surviving a power cut".

mod common;

use common::generate::{filling, list, names, requests, Random};
use common::journal::{places, DESTROY_TAG, IMPORT_TAG};
use common::listed::{self, Asked, MOST_USES};
use common::*;
use reference::rules::{self, ConnectionState, Outcome};
use reference::{registry_is_well_formed, Refusal, Status, Taken, MAX_CHUNK};
use std::collections::BTreeSet;
use std::fmt::Debug;

/// A roster, what was sent before there was a list, how often those keys were used, the list, a stream,
/// and how it is cut.
#[derive(Clone)]
struct Case {
    names: Vec<Vec<u8>>,
    earlier: Vec<Vec<u8>>,
    /// Of the keys in their order, over and over.
    uses: Vec<u32>,
    list: Vec<u8>,
    requests: Vec<Vec<u8>>,
    /// How long the chunks are, over and over.
    sizes: Vec<usize>,
    /// Is the rest of a chunk handed over again by itself, or with what follows?
    rests_alone: bool,
}

impl Case {
    fn generate(seed: u64, most_requests: usize) -> Case {
        let random = &mut Random::new(seed);
        let names = names(random);
        let mut earlier = requests(random, &names, 16);
        if random.once_in(4) {
            earlier.splice(..0, filling(random, &names));
        }
        let counts = [0, 1, 255, 65_535, MOST_USES - 1, MOST_USES - 1, MOST_USES];
        let uses = (0..3).map(|_| random.pick(&counts)).collect();
        let list = list(random);
        let requests = requests(random, &names, most_requests);
        // A long stream is not cut into more than some hundreds, for the time it takes.
        let shortest = requests.concat().len() / 100;
        let longest = random.pick(&[3, 30, 300, 5_000, MAX_CHUNK]).max(shortest);
        let mut sizes: Vec<_> = (0..8).map(|_| random.below(longest + 1)).collect();
        sizes.push(longest);
        Case {
            names,
            earlier,
            uses,
            list,
            requests,
            sizes,
            rests_alone: random.once_in(2),
        }
    }

    fn service(&self) -> Service {
        let names: Vec<_> = self.names.iter().map(Vec::as_slice).collect();
        let mut service = Service::with_roster(&names).with_list(&self.list);
        service.registry = rules::run(&service.registry, &self.earlier.concat()).registry;
        let used = places().filter(|&(line, slot)| service.registry[slot_at(line, slot)] != 0);
        let used: Vec<_> = used.collect();
        for ((line, slot), &uses) in used.into_iter().zip(self.uses.iter().cycle()) {
            service.set_uses(line, slot, uses);
        }
        service
    }

    /// Cases that are a step shorter.
    fn shorter(&self) -> Vec<Case> {
        let without_request = (0..self.requests.len()).map(|place| {
            let mut case = self.clone();
            case.requests.remove(place);
            case
        });
        let without_earlier = (0..self.earlier.len()).map(|place| {
            let mut case = self.clone();
            case.earlier.remove(place);
            case
        });
        let without_list = (!self.list.is_empty()).then(|| Case {
            list: Vec::new(),
            ..self.clone()
        });
        let with_one_size = self.sizes.iter().map(|&size| Case {
            sizes: vec![size],
            ..self.clone()
        });
        let sizes_can_shrink = self.sizes.len() > 1;
        without_request
            .chain(without_earlier)
            .chain(without_list)
            .chain(with_one_size.filter(|case| sizes_can_shrink && case.sizes[0] > 0))
            .collect()
    }
}

fn same<T: PartialEq + Debug>(what: &str, call: T, rules: T) -> Result<(), String> {
    if call == rules {
        Ok(())
    } else {
        Err(format!("{what}: call {call:?}, rules {rules:?}"))
    }
}

/// Too long to print where they differ.
fn same_memory(what: &str, call: &[u8], rules: &[u8]) -> Result<(), String> {
    let differs = call
        .iter()
        .zip(rules)
        .position(|(call, rules)| call != rules);
    same(&format!("{what}, first difference"), differs, None)?;
    same(&format!("{what}, length"), call.len(), rules.len())
}

/// Every byte taken is answered, held or dropped.
fn bytes_add_up(service: &Service) -> Result<(), String> {
    let counters = &service.counters;
    let held = unfinished_bytes(&service.connection);
    let sum = counters.answered + held + counters.dropped;
    same("bytes taken", counters.taken, sum)
}

/// The chunks of a case, each call's outcome handed to `each_call`.
fn hand_over(
    case: &Case,
    stream: &[u8],
    mut each_call: impl FnMut(&mut Service, &[u8], usize) -> Result<Taken, String>,
) -> Result<Service, String> {
    let mut service = case.service();
    let mut sizes = case.sizes.iter().copied().cycle();
    let (mut at, mut rest) = (0, 0);
    while at < stream.len() {
        let size = match rest {
            0 => sizes.next().unwrap_or(MAX_CHUNK),
            _ if case.rests_alone => rest,
            _ => sizes.next().unwrap_or(MAX_CHUNK).max(1),
        };
        let chunk = &stream[at..stream.len().min(at + size)];
        let taken = each_call(&mut service, chunk, at)?;
        if taken.taken > chunk.len() || taken.taken == 0 && !chunk.is_empty() {
            return Err(format!("{} of {} taken", taken.taken, chunk.len()));
        }
        at += taken.taken;
        rest = chunk.len() - taken.taken;
        bytes_add_up(&service)?;
    }
    Ok(service)
}

/// Hands the stream over as the case says, and compares the end with the rules.
fn check(case: &Case) -> Result<Outcome, String> {
    let stream = case.requests.concat();
    let registry = case.service().registry;
    let expected = rules::run_with_list(&registry, &case.list, &stream);
    let (mut responses, mut records) = (Vec::new(), Vec::new());
    let service = hand_over(case, &stream, |service, chunk, _| {
        let taken = service.call(chunk).map_err(|code| format!("{code:?}"))?;
        if taken.written > 0 {
            responses.push(service.response[..taken.written].to_vec());
        }
        if taken.recorded > 0 {
            records.push(service.journal[..taken.recorded].to_vec());
        }
        Ok(taken)
    })?;
    same("responses", &responses, &expected.responses)?;
    same("records", &records, &expected.records)?;
    same_memory("registry", &service.registry, &expected.registry)?;
    same("counters", &service.counters, &expected.counters)?;
    let connection = expected.connection.to_memory();
    same_memory("connection", &service.connection, &connection)?;
    Ok(expected)
}

/// Compares every call with the rules on the stream so far, refused calls among them.
fn check_every_call(case: &Case) -> Result<Outcome, String> {
    let stream = case.requests.concat();
    let registry = case.service().registry;
    let prefixes: Vec<_> = (0..=stream.len())
        .map(|length| rules::run_with_list(&registry, &case.list, &stream[..length]))
        .collect();
    hand_over(case, &stream, |service, chunk, at| {
        check_refused_call(service, chunk)?;
        let taken = service.call(chunk).map_err(|code| format!("{code:?}"))?;
        let expected = expected_of_call(&prefixes[at..=at + chunk.len()]);
        same("call", taken, expected)?;
        let now = &prefixes[at + taken.taken];
        if taken.written > 0 {
            let response = service.response[..taken.written].to_vec();
            same("response", Some(&response), now.responses.last())?;
        }
        if taken.recorded > 0 {
            let record = service.journal[..taken.recorded].to_vec();
            same("record", Some(&record), now.records.last())?;
        }
        same_memory("registry", &service.registry, &now.registry)?;
        same("counters", &service.counters, &now.counters)?;
        let connection = now.connection.to_memory();
        same_memory("connection", &service.connection, &connection)?;
        Ok(taken)
    })?;
    Ok(prefixes[stream.len()].clone())
}

/// The chunk up to and with the byte that brings one response more, or all of it.
fn expected_of_call(prefixes: &[Outcome]) -> Taken {
    let before = prefixes[0].responses.len();
    let answered = |outcome: &Outcome| outcome.responses.len() > before;
    let place = prefixes.iter().position(answered);
    let taken = place.unwrap_or(prefixes.len() - 1);
    let now = &prefixes[taken];
    Taken {
        taken,
        written: now.responses.get(before).map_or(0, Vec::len),
        recorded: now
            .records
            .get(prefixes[0].records.len())
            .map_or(0, Vec::len),
    }
}

fn check_refused_call(service: &mut Service, chunk: &[u8]) -> Result<(), String> {
    let before = service.clone();
    service.response.truncate(1_023);
    let first = service.call(chunk);
    service.response.push(before.response[1_023]);
    service.journal.truncate(1_023);
    let last = service.call(chunk);
    service.journal.push(before.journal[1_023]);
    same(
        "small response buffer",
        first,
        Err(Refusal::ResponseBufferTooSmall),
    )?;
    same(
        "small journal buffer",
        last,
        Err(Refusal::JournalBufferTooSmall),
    )?;
    same("after a refused call", service == &before, true)
}

type Check = fn(&Case) -> Result<Outcome, String>;

/// Checks a case; a failing one is shown with its seed, as short as it could be made.
fn run_case(seed: u64, case: Case, check: Check) -> Outcome {
    match check(&case) {
        Ok(outcome) => outcome,
        Err(_) => {
            let case = shrink(case, check);
            panic!(
                "seed {seed}: {}\nnames {:02X?}\nearlier {:02X?}\nuses {:?}\nlist {:02X?}\n\
                 requests {:02X?}\nsizes {:?}, rests alone {}",
                check(&case).expect_err("shrinking keeps the failure"),
                case.names,
                case.earlier,
                case.uses,
                case.list,
                case.requests,
                case.sizes,
                case.rests_alone,
            );
        }
    }
}

fn shrink(mut case: Case, check: Check) -> Case {
    let fails = |case: &Case| check(case).is_err();
    while let Some(shorter) = case.shorter().into_iter().find(fails) {
        case = shorter;
    }
    case
}

/// What a run of cases reached.
#[derive(Default)]
struct Reached {
    statuses: BTreeSet<u16>,
    connections: BTreeSet<&'static str>,
    flags: BTreeSet<[u8; 2]>,
    tags: BTreeSet<u8>,
}

impl Reached {
    fn add(&mut self, outcome: &Outcome) {
        assert!(registry_is_well_formed(&outcome.registry));
        for response in &outcome.responses {
            self.statuses.insert(Response::read(response).status);
        }
        self.tags
            .extend(outcome.records.iter().map(|record| record[0]));
        self.connections.insert(match &outcome.connection {
            ConnectionState::Open(held) if held.is_empty() => "fresh",
            ConnectionState::Open(_) => "open",
            ConnectionState::Skipping { .. } => "skipping",
            ConnectionState::Closed => "closed",
        });
        for (line, slot) in places() {
            let slot = &outcome.registry[slot_at(line, slot)..][..SLOT_SIZE];
            if slot[0] != 0 {
                self.flags.insert([slot[637], slot[638]]);
            }
        }
    }

    fn assert_all(&self) {
        let statuses = Status::ALL.map(Status::number).into();
        assert_eq!(self.statuses, statuses);
        let connections = ["fresh", "open", "skipping", "closed"].into();
        assert_eq!(self.connections, connections);
        let flags = [[0, 0], [0, 1], [1, 0], [1, 1]].into();
        assert_eq!(self.flags, flags);
        assert_eq!(self.tags, [IMPORT_TAG, DESTROY_TAG].into());
    }
}

#[test]
fn any_cut_of_a_stream_comes_to_what_the_rules_give_uncut() {
    let mut reached = Reached::default();
    for seed in 1..=3_000 {
        let case = Case::generate(seed, 16);
        reached.add(&run_case(seed, case, check));
    }
    reached.assert_all();
}

fn name_at(registry: &[u8], at: usize) -> &[u8] {
    &registry[at + 1..][..usize::from(registry[at])]
}

fn line_of(registry: &[u8], application: &[u8]) -> Option<usize> {
    (0..LINES).find(|&line| name_at(registry, line_at(line)) == application)
}

/// The names in the slots of an application; none where there is no such application.
fn own_names(registry: &[u8], application: &[u8]) -> Vec<Vec<u8>> {
    line_of(registry, application).map_or(Vec::new(), |line| {
        let name = |slot| name_at(registry, slot_at(line, slot)).to_vec();
        (0..SLOTS).map(name).collect()
    })
}

/// The name of a use that a request was, if it was one that counts, which the counts of all keys show.
fn counted(asked: &Asked, status: u16, before: &[u8], after: &[u8]) -> Option<String> {
    let slot = asked.used_slot(&own_names(before, asked.application), status)?;
    let place = (line_of(before, asked.application)?, slot);
    for (line, slot) in places() {
        let uses = uses_in(before, line, slot);
        let more = u64::from((line, slot) == place);
        let expected = (u64::from(uses) + more).min(MOST_USES.into());
        assert_eq!(u64::from(uses_in(after, line, slot)), expected);
    }
    Some(asked.use_outcome(uses_in(before, place.0, place.1)))
}

/// On the cases of the test before this one, request by request.
#[test]
fn own_and_listed_keys_come_to_every_outcome() {
    let mut reached = BTreeSet::new();
    for seed in 1..=3_000 {
        let case = Case::generate(seed, 16);
        let mut service = case.service();
        for request in &case.requests {
            let before = service.registry.clone();
            let responses = service.send(request);
            if let (Some(asked), [response]) = (Asked::read(request), &responses[..]) {
                let status = Response::read(response).status;
                let own = own_names(&before, asked.application);
                reached.insert(asked.outcome(&own, &case.list, status));
                reached.extend(counted(&asked, status, &before, &service.registry));
            }
        }
    }
    let expected = [listed::expected(), listed::expected_uses()].concat();
    for outcome in expected {
        assert!(reached.contains(&outcome), "{outcome}: {reached:#?}");
    }
}

#[test]
fn every_call_on_a_short_stream_is_the_rules_on_the_stream_so_far() {
    let mut checked = 0;
    for seed in 1.. {
        let case = Case::generate(seed, 6);
        if case.requests.concat().len() < 400 {
            run_case(seed, case, check_every_call);
            checked += 1;
        }
        if checked == 150 {
            break;
        }
    }
}

/// Cut at every single place, a stream with every kind of end comes to the same.
#[test]
fn every_single_cut_of_one_stream_comes_to_what_the_rules_give() {
    let requests = vec![
        import(&key(b"a")).bytes(),
        ping_of_size(0, 257).bytes(),
        export(b"a").bytes(),
        vec![0xFF; 9],
    ];
    let length = requests.concat().len();
    for first in 1..length {
        let case = Case {
            names: vec![FIRST.to_vec()],
            earlier: Vec::new(),
            uses: vec![0],
            list: lists::pair(b"b", b"listed"),
            requests: requests.clone(),
            sizes: vec![first, length],
            rests_alone: true,
        };
        run_case(0, case, check);
    }
}
