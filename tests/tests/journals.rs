//! The compiled reader of the journal against the reference's, on the records that compiled calls
//! wrote and on damaged ones: document 02, "Surviving a power cut".

use razidkot::{Connection, List, NoJournal, Service};
use razidkot::{JournalFault, JournalReader, RefusedJournal, Registry, Restored};
use razidkot::{JOURNAL_STATE_SIZE, REGISTRY_SIZE};
use razidkot_tests::ask::{record, registry_of};
use razidkot_tests::generate::{registry, Damage, Filling, Random};
use razidkot_tests::journals::*;
use razidkot_tests::layout::{line_at, name_at, used_places, Key, Place, LINES};
use razidkot_tests::lent::{Lengths, Lent};
use razidkot_tests::requests::{applications, filling, requests};
use razidkot_tests::run::{for_seeds, Outcomes};
use razidkot_tests::shipped::{own_names, some_list};
use reference::{read_journal, LONGEST_JOURNAL};
use std::fs;
use std::path::Path;

/// Chunks of these sizes, over and over.
fn cut<'a>(file: &'a [u8], sizes: &[usize]) -> Vec<&'a [u8]> {
    let mut sizes = sizes.iter().copied().cycle();
    let (mut chunks, mut rest) = (Vec::new(), file);
    while !rest.is_empty() {
        let size = sizes.next().expect("a size").min(rest.len());
        let (chunk, behind) = rest.split_at(size);
        chunks.push(chunk);
        rest = behind;
    }
    chunks
}

/// Both programs, in these chunks, come to what the reference makes of the uncut file. Gives the code.
fn expect_uncut(start: &[u8], file: &[u8], chunks: &[&[u8]]) -> u32 {
    let mut reading = Reading::begin(start);
    let (last, taken) = reading.read_all(chunks.iter().copied());
    let uncut = read_journal(start, file);
    assert_eq!(last.kept, uncut.kept);
    assert!(
        reading.registry == uncut.registry,
        "the registry of {last:?}"
    );
    match uncut.fault {
        Some(fault) => assert_eq!(last.code, u32::from(fault.number())),
        None => {
            assert_eq!(taken, file.len());
            let end = match taken as u64 == uncut.kept {
                true => AT_RECORD,
                false => WITHIN_RECORD,
            };
            assert_eq!(last.code, end);
        }
    }
    last.code
}

// ---- cuts

#[test]
fn cut_at_any_byte_a_journal_gives_the_registry_after_its_whole_records() {
    let journal = Journal::of_every_kind();
    let file = journal.file();
    for length in 0..=file.len() {
        let mut reading = Reading::begin(&journal.start);
        let answer = reading.read_both(&file[..length]);
        let (count, end) = journal.whole_in(length);
        let code = if end == length {
            AT_RECORD
        } else {
            WITHIN_RECORD
        };
        assert_eq!(
            (answer.code, answer.taken, answer.kept),
            (code, length, end as u64)
        );
        assert!(
            reading.registry == journal.registry_after(count),
            "{length}"
        );
        // What follows is read on from there.
        let (last, _) = reading.read_all([&file[length..]]);
        assert_eq!((last.code, last.kept), (AT_RECORD, file.len() as u64));
        assert!(reading.registry == journal.registry_after(journal.records.len()));
    }
}

#[test]
fn every_cut_in_three_of_a_short_journal_comes_to_the_same() {
    let requests = [import(SCANNER, &key(b"a")), destroy(SCANNER, b"a")];
    let file = Journal::of_requests(&requests).file();
    assert_eq!(file.len(), 16 + 9);
    for first in 0..=file.len() {
        for second in first..=file.len() {
            let chunks = [&file[..first], &file[first..second], &file[second..]];
            assert_eq!(expect_uncut(&start(), &file, &chunks), AT_RECORD);
        }
    }
}

#[test]
fn a_journal_is_read_byte_by_byte() {
    let file = Journal::of_every_kind().file();
    assert_eq!(expect_uncut(&start(), &file, &cut(&file, &[1])), AT_RECORD);
}

#[test]
fn the_records_of_generated_calls_give_their_registry_back_in_any_chunks() {
    let mut outcomes = Outcomes::default();
    for_seeds(1_500, |random| {
        let start = registry(random, Filling::NamesOnly);
        let mut lent = Lent::fresh(&start, &some_list(random, own_names(&start)));
        let mut file = Vec::new();
        for _ in 0..random.below(3) {
            for application in applications(&start) {
                let requests = filling(random, &application).concat();
                file.extend(serve(&mut lent, &requests, &[65_536]));
            }
        }
        let stream = requests(random, &applications(&lent.registry), 24).concat();
        let longest = random.pick(&[40, 1_000, 65_536]).max(stream.len() / 100);
        file.extend(serve(
            &mut lent,
            &stream,
            &[longest, 1 + random.below(longest)],
        ));
        let sizes = [1 + random.below(700), 1 + random.below(70), 1];
        let sizes = random.pick(&[&sizes[..], &[65_536]]);
        assert_eq!(expect_uncut(&start, &file, &cut(&file, sizes)), AT_RECORD);
        assert!(read_journal(&start, &file).registry == without_uses(&lent.registry));
        outcomes.count(!file.is_empty());
    });
    outcomes.assert_often(&[true, false], 50);
}

/// Hands a stream over in chunks of these sizes to both programs; gives the records that they wrote.
fn serve(lent: &mut Lent, stream: &[u8], sizes: &[usize]) -> Vec<u8> {
    let mut records = Vec::new();
    lent.connection.fill(0);
    for chunk in cut(stream, sizes) {
        let mut rest = chunk;
        while !rest.is_empty() {
            let answer = lent.call_both(rest);
            assert_eq!(answer.code, 0);
            records.extend(&lent.journal()[..answer.recorded]);
            rest = &rest[answer.taken..];
        }
    }
    records
}

#[test]
fn restored_served_cut_and_restored_again_nothing_whole_is_lost() {
    let mut outcomes = Outcomes::default();
    for_seeds(300, |random| {
        let start = registry(random, Filling::NamesOnly);
        let mut file = Vec::new();
        for _ in 0..6 {
            // The lights go out: the file is cut anywhere.
            file.truncate(file.len() - random.below(file.len() / 4 + 1));
            let mut reading = Reading::begin(&start);
            let (last, taken) = reading.read_all(cut(&file, &[1 + random.below(2_000)]));
            assert_eq!(taken, file.len());
            outcomes.count(last.code);
            file.truncate(last.kept as usize);
            assert!(read_journal(&start, &file).registry == reading.registry);
            let mut lent = Lent::fresh(&reading.registry, &some_list(random, Vec::new()));
            let stream = requests(random, &applications(&lent.registry), 12).concat();
            file.extend(serve(&mut lent, &stream, &[65_536]));
            assert!(read_journal(&start, &file).registry == without_uses(&lent.registry));
        }
    });
    outcomes.assert_often(&[AT_RECORD, WITHIN_RECORD], 100);
}

/// What the day of samples/ writes, on both programs, and the bill of a service that has only read it.
#[test]
fn the_sample_stream_writes_the_sample_journal() {
    let samples = Path::new(env!("CARGO_MANIFEST_DIR")).join("../samples");
    let read = |name: &str| fs::read(samples.join(name)).expect("a sample");
    let roster = Registry::load(&read("servers.roster")).expect("a good roster");
    let mut lent = Lent::fresh(roster.memory(), &read("servers.list"));
    let file = serve(&mut lent, &read("day.stream"), &[1_000]);
    assert!(file == read("day.journal"));
    let mut reader = JournalReader::begin(roster);
    reader.read(&file).expect("a good journal");
    let restored = reader.finish().expect("a good journal");
    let service = Service::new(restored.registry, List::new(), NoJournal);
    let bill = service.bill(&Connection::open());
    assert_eq!(bill.as_bytes(), read("restored.bill"));
}

/// 64 keys, imported and destroyed by compiled calls over and over, and read back in flat memory.
#[test]
fn a_million_imports_and_destroys_of_64_keys_are_read_back() {
    const RECORDS: usize = 1_000_000;
    let names: Vec<_> = (b'0'..b'8').map(|name| vec![name]).collect();
    let start = registry_of(&names);
    let requests: Vec<[Vec<u8>; 2]> = Place::all()
        .map(|Place { line, slot }| {
            let key = key(&[b'a' + slot as u8]);
            [import(&names[line], &key), destroy(&names[line], &key.name)]
        })
        .collect();
    let mut lent = Lent::fresh(&start, b"");
    lent.renew_buffers(Lengths::LEAST, 0);
    let mut reading = Reading::begin(&start);
    let (mut chunk, mut length) = (Vec::new(), 0);
    let rounds = (0..2)
        .cycle()
        .flat_map(|which| requests.iter().map(move |pair| &pair[which]));
    // So many that the last round imports.
    for request in rounds.take(RECORDS) {
        let answer = lent.call_proved(request);
        assert!(answer.code == 0 && answer.recorded > 0, "{answer:?}");
        chunk.extend(&lent.journal()[..answer.recorded]);
        if chunk.len() >= 65_536 {
            length += chunk.len();
            assert_eq!(reading.read_proved(&chunk).taken, chunk.len());
            chunk.clear();
        }
    }
    length += chunk.len();
    let answer = reading.read_both(&chunk);
    assert_eq!((answer.code, answer.kept), (AT_RECORD, length as u64));
    assert_eq!(used_places(&reading.registry).len(), 64);
    assert!(reading.registry == lent.registry);
}

// ---- damage

#[test]
fn a_flipped_byte_is_a_fault_of_its_record_or_a_cut_end_and_nothing_before_is_lost() {
    let journal = Journal::of_every_kind();
    let file = journal.file();
    let mut outcomes = Outcomes::default();
    for at in 0..file.len() {
        let (count, end) = journal.whole_in(at);
        for flip in [1, 2, 4, 8, 16, 32, 64, 128, 255] {
            let mut damaged = file.clone();
            damaged[at] ^= flip;
            let code = expect_uncut(&journal.start, &damaged, &[&damaged]);
            let restored = read_journal(&journal.start, &damaged);
            assert_eq!(restored.kept, end as u64, "byte {at}");
            assert!(restored.registry == journal.registry_after(count));
            outcomes.count(code);
        }
    }
    outcomes.assert_often(&[WRONG_CRC, WITHIN_RECORD], 50);
}

#[test]
fn generated_damage_in_generated_chunks_comes_to_what_the_uncut_file_gives() {
    let file = Journal::of_every_kind().file();
    let mut outcomes = Outcomes::default();
    for_seeds(3_000, |random| {
        let mut damaged = file.clone();
        for _ in 0..random.pick(&[1, 1, 2, 5]) {
            let at = random.below(damaged.len());
            match random.below(4) {
                0 => damaged[at] = random.byte(),
                1 => drop(damaged.remove(at)),
                2 => damaged.insert(at, random.byte()),
                _ => damaged.truncate(at + 1),
            }
        }
        let sizes = [1 + random.below(400), 1 + random.below(9)];
        outcomes.count(expect_uncut(&start(), &damaged, &cut(&damaged, &sizes)));
    });
    outcomes.assert_often(&[WRONG_CRC, WITHIN_RECORD], 100);
}

/// A record with these faults; only the first of them is to be said.
fn faulty(wrong_crc: bool, wrong_layout: bool, not_allowed: bool) -> Vec<u8> {
    let line = if not_allowed { 2 } else { 0 };
    let mut value = import_value(line, &key(b"a"));
    if wrong_layout {
        value[3] = 2;
    }
    let mut record = whole_record(IMPORT_TAG, &value);
    if wrong_crc {
        *record.last_mut().expect("a CRC") ^= 1;
    }
    record
}

#[test]
fn of_several_faults_j1_is_said_before_j2_and_j2_before_j3() {
    for faults in 0..8 {
        let [crc, layout, line] = [1, 2, 4].map(|bit| faults & bit != 0);
        let expected = match (crc, layout, line) {
            (true, ..) => WRONG_CRC,
            (_, true, _) => WRONG_LAYOUT,
            (_, _, true) => NOT_ALLOWED,
            _ => AT_RECORD,
        };
        let record = faulty(crc, layout, line);
        assert_eq!(expect_uncut(&start(), &record, &[&record]), expected);
    }
}

/// Records of every layout fault.
fn wrong_layouts() -> Vec<Vec<u8>> {
    let value = import_value(0, &key(b"a"));
    let with = |at: usize, byte: u8| {
        let mut value = value.clone();
        value[at] = byte;
        whole_record(IMPORT_TAG, &value)
    };
    let mut records = vec![
        with(3, 2),
        with(4, 0xFF),
        with(5, 4),
        whole_record(IMPORT_TAG, &[0; LONGEST_VALUE + 1]),
        whole_record(IMPORT_TAG, &[0; 65_535]),
        whole_record(DESTROY_TAG, b""),
        whole_record(DESTROY_TAG, &[b'a'; LONGEST_VALUE + 1]),
    ];
    records.extend((0..6).map(|length| whole_record(IMPORT_TAG, &value[..length])));
    let others = (0..=255).filter(|&tag| ![IMPORT_TAG, DESTROY_TAG].contains(&tag));
    records.extend(others.map(|tag| whole_record(tag, &value)));
    records
}

/// Records that the line, Import or Destroy refuses, on the registry of `start`.
fn refused_changes() -> Vec<Vec<u8>> {
    let with = |change: fn(&mut Key)| {
        let mut key = key(b"a");
        change(&mut key);
        import_record(0, &key)
    };
    let mut records: Vec<_> = [2, 7, 8, 255]
        .into_iter()
        .flat_map(|line| [import_record(line, &key(b"a")), destroy_record(line, b"a")])
        .collect();
    records.extend([
        with(|key| key.name.clear()),
        with(|key| key.name = vec![b'n'; 33]),
        with(|key| key.name = b"a b".to_vec()),
        with(|key| key.data.clear()),
        with(|key| key.data = vec![0; 599 + 2]),
        with(|key| key.bits = 1_016),
        with(|key| key.bits = 1_028),
        with(|key| key.bits = 4_104),
        destroy_record(0, b""),
        destroy_record(0, &[b'n'; 33]),
        destroy_record(0, b"a"),
        destroy_record(0, b"a b"),
    ]);
    records
}

#[test]
fn every_wrong_layout_is_j2_and_every_refused_change_j3() {
    for record in wrong_layouts() {
        let code = expect_uncut(&start(), &record, &[&record]);
        assert_eq!(code, WRONG_LAYOUT, "{:02X?}", &record[..9]);
    }
    for record in refused_changes() {
        let code = expect_uncut(&start(), &record, &[&record]);
        assert_eq!(code, NOT_ALLOWED, "{:02X?}", &record[..9]);
    }
}

#[test]
fn a_ninth_key_and_a_held_name_are_j3() {
    let keys: Vec<_> = (b'a'..=b'h')
        .map(|name| import_record(0, &key(&[name])))
        .collect();
    for (last, expected) in [
        (import_record(0, &key(b"i")), NOT_ALLOWED),
        (import_record(0, &key(b"c")), NOT_ALLOWED),
        (import_record(1, &key(b"c")), AT_RECORD),
        (destroy_record(0, b"c"), AT_RECORD),
        (destroy_record(1, b"c"), NOT_ALLOWED),
    ] {
        let file = [keys.concat(), last].concat();
        assert_eq!(expect_uncut(&start(), &file, &[&file]), expected);
    }
}

#[test]
fn of_two_faulty_records_the_first_is_said_and_nothing_behind_it_is_read() {
    let good = import_record(0, &key(b"g"));
    let mut records: Vec<_> = (1..8)
        .map(|faults| faulty(faults & 1 != 0, faults & 2 != 0, faults & 4 != 0))
        .collect();
    records.extend(wrong_layouts().into_iter().take(13));
    records.extend(refused_changes());
    for first in &records {
        let expected = expect_uncut(&start(), first, &[first]);
        for second in &records {
            let file = [&good[..], first, second].concat();
            let mut reading = Reading::begin(&start());
            let (last, taken) = reading.read_all([&file[..]]);
            assert_eq!((last.code, last.kept), (expected, good.len() as u64));
            assert_eq!(taken, good.len() + first.len());
            // Later calls take nothing and say the same.
            let before = reading.clone();
            let again = reading.read_both(second);
            assert_eq!(
                (again.code, again.taken, again.kept),
                (last.code, 0, last.kept)
            );
            assert!(reading == before);
        }
    }
}

// ---- lengths

/// What a value of this length is, if its bytes are zeros, or for a destroy a name too long.
fn expected_of_length(tag: u8, length: usize) -> u32 {
    let least = if tag == IMPORT_TAG { 6 } else { 1 };
    match length {
        _ if ![IMPORT_TAG, DESTROY_TAG].contains(&tag) => WRONG_LAYOUT,
        _ if length < least || length > LONGEST_VALUE => WRONG_LAYOUT,
        _ => NOT_ALLOWED,
    }
}

#[test]
fn records_of_all_short_lengths_and_of_some_long_ones_are_judged_when_whole() {
    for tag in [IMPORT_TAG, DESTROY_TAG, 9] {
        let long = (1_200..65_536).step_by(2_903).chain([65_534, 65_535]);
        for length in (0..1_200).chain(long) {
            let record = whole_record(tag, &vec![0; length]);
            let (front, last) = record.split_at(record.len() - 1);
            let mut reading = Reading::begin(&start());
            assert_eq!(reading.read_both(front).code, WITHIN_RECORD);
            let answer = reading.read_both(last);
            assert_eq!(
                answer.code,
                expected_of_length(tag, length),
                "{tag} {length}"
            );
            assert_eq!((answer.taken, answer.kept), (1, 0));
        }
    }
}

/// The register that this byte makes of another: the bitwise rule.
fn register_after(register: u32, byte: u8) -> u32 {
    (0..8).fold(register ^ u32::from(byte), |register, _| {
        let polynomial = if register & 1 == 1 { 0xEDB8_8320 } else { 0 };
        register >> 1 ^ polynomial
    })
}

/// The register that a zero makes that of a right CRC.
fn register_before_a_last_zero() -> u32 {
    const RIGHT: u32 = 0xDEBB_20E3;
    let mut before = (0..256).map(|low| (RIGHT ^ register_after(low, 0)) << 8 | low);
    let found = before.find(|&register| register_after(register, 0) == RIGHT);
    found.expect("one of 256")
}

/// From the state that all bytes of a record but its last leave: any register is well formed, so that
/// the last byte makes the CRC right or wrong.
#[test]
fn records_of_every_length_are_judged_at_their_last_byte() {
    let register = register_before_a_last_zero();
    for tag in [IMPORT_TAG, DESTROY_TAG, 9] {
        let mut registry = vec![0; REGISTRY_SIZE];
        for length in 0..65_536 {
            let [low, high] = (length as u16).to_le_bytes();
            for (last, expected) in [(0, expected_of_length(tag, length)), (1, WRONG_CRC)] {
                let begun = 3 + length as u64 + 3;
                let mut reading = Reading {
                    state: state_of(0, 77, begun, register, &[tag, low, high]),
                    registry,
                };
                let answer = reading.read_proved(&[last]);
                assert_eq!(answer.code, expected, "{tag} {length}");
                assert_eq!((answer.taken, answer.kept), (1, 77));
                registry = reading.registry;
            }
        }
        assert!(registry == [0; REGISTRY_SIZE]);
    }
}

// ---- memory

#[test]
fn memory_of_the_exact_size_becomes_a_fresh_state_and_any_other_stays() {
    for size in (0..700).chain([REGISTRY_SIZE]) {
        let before = vec![0xEE; size];
        let [mut proved, mut second] = [before.clone(), before.clone()];
        let begun = reference::journal_begin(&mut second).is_ok();
        assert_eq!(begun, size == JOURNAL_STATE_SIZE);
        assert_eq!(razidkot::raw::journal_begin(&mut proved).is_ok(), begun);
        assert!(proved == second, "{size}");
    }
}

/// The states that reading leaves behind each byte of a journal, and behind each kind of fault.
fn states() -> Vec<Vec<u8>> {
    let file = Journal::of_every_kind().file();
    let mut files: Vec<Vec<u8>> = (0..file.len())
        .step_by(7)
        .map(|end| file[..end].to_vec())
        .collect();
    files.extend((1..8).map(|faults| faulty(faults & 1 != 0, faults & 2 != 0, faults & 4 != 0)));
    files.push(record(9, &[0; 3_000]));
    let state = |file: &Vec<u8>| {
        let mut reading = Reading::begin(&start());
        reading.read_both(file);
        reading.state
    };
    files.iter().map(state).collect()
}

#[test]
fn damaged_states_are_judged_alike_and_read_on_alike() {
    let (states, registry) = (states(), start());
    let mut outcomes = Outcomes::default();
    for_seeds(20_000, |random| {
        let mut state = random.pick(&states);
        for _ in 0..random.pick(&[1, 1, 2]) {
            damage_state(random, &mut state);
        }
        let mut reading = Reading {
            state,
            registry: registry.clone(),
        };
        let length = random.pick(&[0, 1, 5, 700]);
        let answer = reading.read_both(&random.bytes(length));
        outcomes.count(answer.code);
    });
    let codes = [
        AT_RECORD,
        WRONG_CRC,
        WRONG_LAYOUT,
        NOT_ALLOWED,
        WITHIN_RECORD,
    ];
    outcomes.assert_often(&codes, 20);
    outcomes.assert_often(&[STATE_ILL_FORMED], 1_000);
}

fn damage_state(random: &mut Random, state: &mut Vec<u8>) {
    let number = random.pick(&[0, 1, 7, 641, 642, 65_542, 1 << 62, (1 << 62) - 1, u64::MAX]);
    let number = number.wrapping_add(random.below(3) as u64);
    match random.below(6) {
        0 if !state.is_empty() => state[0] = random.below(6) as u8,
        1 if state.len() > 17 => state[1..9].copy_from_slice(&number.to_le_bytes()),
        2 if state.len() > 17 => state[9..17].copy_from_slice(&number.to_le_bytes()),
        3 if state.len() > 30 => state[21 + random.below(4)] = random.pick(&[0, 1, 2, 3, 255]),
        4 => state.resize(random.pick(&[0, 1, 661, 662, 662, 663]), 0),
        _ if !state.is_empty() => {
            let at = random.below(state.len());
            state[at] = random.byte();
        }
        _ => {}
    }
}

#[test]
fn every_value_of_a_states_bytes_is_judged_alike() {
    let registry = start();
    for state in states().into_iter().step_by(3) {
        for at in 0..24 {
            for value in 0..=255 {
                let mut state = state.clone();
                state[at] = value;
                let good = reference::journal_state_is_well_formed(&state);
                let mut reading = Reading {
                    state,
                    registry: registry.clone(),
                };
                let code = reading.read_proved(b"").code;
                assert_eq!(code == STATE_ILL_FORMED, !good, "byte {at} is {value}");
            }
        }
    }
}

#[test]
fn an_ill_formed_registry_is_said_before_an_ill_formed_state() {
    let record = import_record(0, &key(b"a"));
    let mut outcomes = Outcomes::default();
    for_seeds(4_000, |random| {
        let filling = random.pick(&Filling::ALL);
        let mut registry = registry(random, filling);
        Damage::generate(random).apply(&mut registry);
        let mut reading = Reading::begin(&[]);
        reading.registry = registry;
        if random.once_in(2) {
            reading.state[0] = 4;
        }
        let good = reference::registry_is_well_formed(&reading.registry);
        let code = reading.read_both(&record).code;
        assert_eq!(code == REGISTRY_ILL_FORMED, !good);
        outcomes.count(code);
    });
    outcomes.assert_often(&[REGISTRY_ILL_FORMED, STATE_ILL_FORMED], 500);
}

#[test]
fn a_reader_takes_two_to_the_62_bytes_and_no_more() {
    let record = import_record(0, &key(b"a"));
    for left in [0, 1, 15, 16, 17] {
        let mut reading = Reading::begin(&start());
        reading.state = state_of(0, LONGEST_JOURNAL - left, 0, u32::MAX, &[]);
        let answer = reading.read_both(&record);
        assert_eq!(answer.taken as u64, left.min(16));
    }
}

// ---- the types

#[test]
fn the_typed_reader_gives_back_what_the_rules_give() {
    let journal = Journal::of_every_kind();
    let roster = [record(1, SCANNER), record(1, VIEWER)].concat();
    let reader = || JournalReader::begin(Registry::load(&roster).expect("a good roster"));
    for length in 0..journal.file().len() {
        let file = &journal.file()[..length];
        let mut reader = reader();
        for chunk in cut(file, &[100, 1]) {
            reader.read(chunk).expect("a good journal");
        }
        let (count, end) = journal.whole_in(length);
        assert_eq!(reader.kept(), end as u64);
        let restored: Restored = reader.finish().expect("a good journal");
        assert!(restored.registry.memory() == journal.registry_after(count));
        assert_eq!(restored.kept, end as u64);
        assert_eq!(restored.cut, (length - end) as u64);
    }
    let mut reader = reader();
    let file = [journal.file(), faulty(false, true, false)].concat();
    let refused = RefusedJournal {
        fault: JournalFault::WrongLayout,
        kept: journal.file().len() as u64,
    };
    assert_eq!(reader.read(&file), Err(refused));
    assert_eq!(reader.read(b""), Err(refused));
    assert!(reader.registry().memory() == journal.registry_after(journal.records.len()));
    assert_eq!(reader.finish(), Err(refused));
    let said = "journal J2, at the record that begins at byte 767";
    assert_eq!(refused.to_string(), said);
}

#[test]
fn a_roster_in_another_order_gives_keys_to_others() {
    let file = import_record(0, &key(b"a"));
    let turned = [record(1, VIEWER), record(1, SCANNER)].concat();
    let mut reader = JournalReader::begin(Registry::load(&turned).expect("a good roster"));
    reader.read(&file).expect("nothing tells");
    let memory = reader.registry().memory();
    let holders = (0..LINES).filter(|&line| memory[line_at(line) + 65] != 0);
    let holders: Vec<_> = holders.map(|line| name_at(memory, line_at(line))).collect();
    assert_eq!(holders, [VIEWER]);
}
