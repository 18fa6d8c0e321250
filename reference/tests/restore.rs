//! What calls recorded, read back: restored, served, cut and restored again.
//! Document 02, "Surviving a power cut".

mod common;

use common::generate::{self, Random};
use common::journal::*;
use common::*;
use reference::{
    read_journal, registry_is_well_formed, rules, Counters, Refusal, Status, CONNECTION_SIZE,
};

/// Hands over bytes in chunks of these sizes, over and over, refused calls among them; gives the
/// records, joined.
fn serve(service: &mut Service, stream: &[u8], sizes: &[usize]) -> Vec<u8> {
    let mut journal = Vec::new();
    let mut sizes = sizes.iter().copied().cycle();
    let mut rest = stream;
    while !rest.is_empty() {
        let size = sizes.next().expect("a size").clamp(1, rest.len());
        service.journal.truncate(1_023);
        service.expect_refusal(&rest[..size], Refusal::JournalBufferTooSmall);
        service.journal.push(0x55);
        let taken = service.call(&rest[..size]).expect("a call that is taken");
        journal.extend(&service.journal[..taken.recorded]);
        rest = &rest[taken.taken..];
    }
    journal
}

fn generated_service(random: &mut Random) -> (Vec<Vec<u8>>, Service) {
    let names = generate::names(random);
    let roster: Vec<_> = names.iter().map(Vec::as_slice).collect();
    let service = Service::with_roster(&roster).with_list(&generate::list(random));
    (names, service)
}

fn generated_stream(random: &mut Random, names: &[Vec<u8>]) -> Vec<u8> {
    let mut requests = generate::requests(random, names, 16);
    if random.once_in(2) {
        requests.splice(..0, generate::filling(random, names));
    }
    requests.concat()
}

fn generated_sizes(random: &mut Random) -> Vec<usize> {
    let longest = random.pick(&[40, 300, 5_000]);
    (0..5).map(|_| 1 + random.below(longest)).collect()
}

/// The same memory after a power cut: what the file restores, and nothing else that was kept.
fn restart(service: &Service, registry: Vec<u8>) -> Service {
    Service {
        connection: vec![0; CONNECTION_SIZE],
        registry,
        counters: Counters::default(),
        ..service.clone()
    }
}

// "From the roster's registry, the records of any list of calls, joined, uncut .., give back demand
// 3's registry with use counts 0."

#[test]
fn the_records_of_any_calls_give_back_their_registry_with_use_counts_0() {
    let mut restored_keys = 0;
    for seed in 0..1_500 {
        let random = &mut Random::new(seed);
        let (names, mut service) = generated_service(random);
        let roster = service.registry.clone();
        let stream = generated_stream(random, &names);
        let file = serve(&mut service, &stream, &generated_sizes(random));
        let restored = read_journal(&roster, &file);
        let kept = (file.len() as u64, None);
        assert_eq!((restored.kept, restored.fault), kept, "seed {seed}");
        let expected = without_uses(&service.registry);
        assert!(restored.registry == expected, "seed {seed}");
        let read = Reader::begin(&roster).read_all(file.chunks(1 + random.below(900)));
        assert!(read == (file.len(), restored), "seed {seed}");
        let outcome = rules::run_with_list(&roster, &service.list, &stream);
        assert_eq!(outcome.records.concat(), file, "seed {seed}");
        restored_keys += places()
            .filter(|&(line, slot)| key_in(&expected, line, slot).is_some())
            .count();
    }
    assert!(restored_keys > 1_000, "{restored_keys}");
}

#[test]
fn use_counts_are_restored_as_0() {
    let mut service = Service::new();
    let roster = service.registry.clone();
    let stream = [
        import(&key(b"a")).bytes(),
        export(b"a").bytes(),
        export(b"a").bytes(),
    ];
    let file = serve(&mut service, &stream.concat(), &[4_096]);
    assert_eq!(service.uses(0, 0), 2);
    let restored = read_journal(&roster, &file);
    assert_eq!(uses_in(&restored.registry, 0, 0), 0);
    assert!(restored.registry == without_uses(&service.registry));
}

#[test]
fn the_shipped_list_is_left_aside() {
    // Imported before the list had the name, and destroyed when it had it.
    let list = lists::pair(b"a", b"listed");
    let mut service = Service::new();
    let roster = service.registry.clone();
    let mut file = serve(&mut service, &import(&key(b"a")).bytes(), &[4_096]);
    assert!(read_journal(&roster, &file).registry == service.registry);
    let mut service = service.with_list(&list);
    let refused = import(&key(b"a")).bytes();
    assert_eq!(serve(&mut service, &refused, &[4_096]), []);
    file.extend(serve(&mut service, &destroy(b"a").bytes(), &[4_096]));
    let restored = read_journal(&roster, &file);
    assert_eq!(restored.fault, None);
    assert!(restored.registry == roster);
}

// "the caller drops a cut end before more is appended" and "Demands 2 and 3 start afresh from the
// restored registry".

#[test]
fn restored_served_cut_and_restored_again() {
    for seed in 0..300 {
        let random = &mut Random::new(seed);
        let (names, mut service) = generated_service(random);
        let roster = service.registry.clone();
        let mut file = Vec::new();
        for _ in 0..5 {
            let stream = generated_stream(random, &names);
            file.extend(serve(&mut service, &stream, &generated_sizes(random)));
            let uncut = read_journal(&roster, &file);
            assert!(uncut.registry == without_uses(&service.registry));
            if random.once_in(2) {
                file.truncate(file.len() - random.below(file.len().min(700) + 1));
            }
            let restored = read_journal(&roster, &file);
            assert_eq!(restored.fault, None, "seed {seed}");
            assert!(registry_is_well_formed(&restored.registry), "seed {seed}");
            file.truncate(restored.kept as usize);
            service = restart(&service, restored.registry);
        }
        let end = read_journal(&roster, &file);
        assert_eq!(end.kept, file.len() as u64, "seed {seed}");
        assert!(end.registry == service.registry, "seed {seed}");
    }
}

#[test]
fn a_journal_cut_at_any_byte_is_appended_to_behind_its_kept_records() {
    let journal = Journal::of_every_kind();
    let file = journal.file();
    let more = import(&key(b"more")).sent_by(SECOND);
    for cut in 0..=file.len() {
        let restored = read_journal(&journal.start, &file[..cut]);
        let mut service = restart(&Service::new(), restored.registry);
        let record = serve(&mut service, &more.bytes(), &[4_096]);
        let appended = [&file[..restored.kept as usize], &record].concat();
        let again = read_journal(&journal.start, &appended);
        assert_eq!((again.kept, again.fault), (appended.len() as u64, None));
        assert!(again.registry == service.registry, "cut at {cut}");
    }
}

#[test]
fn a_reader_may_begin_from_a_restored_registry() {
    let journal = Journal::of_every_kind();
    for count in 0..=journal.records.len() {
        let later = journal.records[count..].concat();
        let restored = read_journal(journal.registry_after(count), &later);
        assert_eq!((restored.kept, restored.fault), (later.len() as u64, None));
        let end = journal.registry_after(journal.records.len());
        assert!(restored.registry == end);
    }
}

#[test]
fn a_restored_key_is_exported_and_its_uses_begin_at_0() {
    let journal = Journal::of_requests(Service::new(), &[import(&key(b"a"))]);
    let restored = read_journal(&journal.start, &journal.file());
    let mut service = restart(&Service::new(), restored.registry);
    let response = service.ask(&export(b"a"));
    assert_eq!(response.status, Status::Success.number());
    assert_eq!(response.body, [0x0A, 2, 0xAA, 0xBB]);
    assert_eq!(service.uses(0, 0), 1);
    assert_eq!(service.counters.served[0], 1, "the tally isn't restored");
    service.expect_status(&import(&key(b"a")), Status::PsaErrorAlreadyExists);
}
