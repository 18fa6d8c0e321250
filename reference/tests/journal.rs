//! Journals read back: cut ends, chunks, each fault and their order, and what is kept.
//! Document 02, "Surviving a power cut"; the layout is the one set down in docs/.

mod common;

use common::generate::Random;
use common::journal::*;
use common::*;
use reference::{
    crc32, read_journal, registry_is_well_formed, JournalAnswer, JournalFault, JournalRefusal,
    Restored,
};

use JournalFault::{RefusedChange, WrongCrc, WrongLayout};

#[test]
fn faults_are_numbered_from_1_to_3() {
    let faults = [WrongCrc, WrongLayout, RefusedChange];
    assert_eq!(faults.map(JournalFault::number), [1, 2, 3]);
    assert_eq!(JournalFault::ALL, faults);
}

// "Cut the file at any byte: reading it back gives the registry after exactly the records that are
// whole", and "Reading also says how many bytes the kept records take".

#[test]
fn an_empty_file_gives_the_start_registry() {
    let journal = Journal::of_every_kind();
    expect_restored(&journal.start, &[], 0, &journal.restored(0, None));
}

#[test]
fn the_whole_file_gives_the_registry_after_all_records() {
    let journal = Journal::of_every_kind();
    let file = journal.file();
    let expected = journal.restored(journal.records.len(), None);
    assert_eq!(expected.kept, file.len() as u64);
    expect_restored(&journal.start, &file, file.len(), &expected);
}

#[test]
fn a_record_fills_the_slot_that_the_layout_says() {
    let key = key(b"a");
    let file = [import_record(1, &key), import_record(1, &common::key(b"b"))].concat();
    let mut expected = Service::new().registry;
    expected[slot_at(1, 0)..][..SLOT_SIZE].copy_from_slice(&key.slot());
    expected[slot_at(1, 1)..][..SLOT_SIZE].copy_from_slice(&common::key(b"b").slot());
    let restored = read_journal(&Service::new().registry, &file);
    assert!(restored.registry == expected);
    let file = [file, destroy_record(1, b"a")].concat();
    expected[slot_at(1, 0)..][..SLOT_SIZE].fill(0);
    let restored = read_journal(&Service::new().registry, &file);
    assert!(restored.registry == expected);
}

#[test]
fn cut_at_any_byte_it_gives_the_registry_after_the_whole_records() {
    let journal = Journal::of_every_kind();
    let file = journal.file();
    for cut in 0..=file.len() {
        let expected = journal.restored(journal.whole_in(cut), None);
        let uncut = read_journal(&journal.start, &file[..cut]);
        assert!(uncut == expected, "cut at {cut}");
        let read = Reader::begin(&journal.start).read_all([&file[..cut]]);
        assert!(read == (cut, expected), "cut at {cut}");
    }
}

// "is read in pieces"

/// Good journals and faulty ones, each with bytes behind the fault.
fn journals() -> Vec<Vec<u8>> {
    let journal = Journal::of_every_kind();
    let with = |place: usize, record: Vec<u8>| {
        let mut records = journal.records.clone();
        records.insert(place, record);
        records.concat()
    };
    let mut wrong = import_record(0, &key(b"x"));
    *wrong.last_mut().unwrap() ^= 1;
    vec![
        journal.file(),
        journal.file()[..journal.file().len() - 3].to_vec(),
        with(3, wrong),
        with(3, record(IMPORT_TAG, &[0; 5])),
        with(5, record(9, &[7; 1_000])),
        with(0, destroy_record(0, b"none")),
        with(8, record(DESTROY_TAG, &[0; 638])),
    ]
}

/// How many bytes are taken of a file: all, or those up to the last of the faulty record.
fn taken_of(file: &[u8], restored: &Restored) -> usize {
    match restored.fault {
        None => file.len(),
        Some(_) => {
            let kept = restored.kept as usize;
            let length = u16::from_le_bytes([file[kept + 1], file[kept + 2]]);
            kept + 7 + usize::from(length)
        }
    }
}

#[test]
fn every_cut_into_two_reads_the_same_as_uncut() {
    let start = Service::new().registry;
    for file in journals() {
        let uncut = read_journal(&start, &file);
        let expected = (taken_of(&file, &uncut), uncut);
        for cut in 0..=file.len() {
            let (front, back) = file.split_at(cut);
            let read = Reader::begin(&start).read_all([front, back]);
            assert!(read == expected, "cut at {cut}, {file:X?}");
        }
    }
}

#[test]
fn single_bytes_read_the_same_as_uncut() {
    let start = Service::new().registry;
    for file in journals() {
        let uncut = read_journal(&start, &file);
        let expected = (taken_of(&file, &uncut), uncut);
        let read = Reader::begin(&start).read_all(file.chunks(1));
        assert!(read == expected, "{file:X?}");
    }
}

#[test]
fn every_cut_of_a_short_journal_into_three_reads_the_same_as_uncut() {
    let start = Service::new().registry;
    let records = [
        import_record(0, &key(b"a")),
        destroy_record(0, b"a"),
        destroy_record(0, b"a"),
        destroy_record(0, b"a"),
    ];
    let file = records.concat();
    let uncut = read_journal(&start, &file);
    assert_eq!((uncut.kept, uncut.fault), (25, Some(RefusedChange)));
    for first in 0..=file.len() {
        for second in first..=file.len() {
            let chunks = [&file[..first], &file[first..second], &file[second..]];
            let read = Reader::begin(&start).read_all(chunks);
            assert!(read == (34, uncut.clone()), "cut at {first} and {second}");
        }
    }
}

#[test]
fn an_empty_chunk_is_taken_and_alters_nothing() {
    let start = Service::new().registry;
    for file in journals() {
        let mut reader = Reader::begin(&start);
        for byte in &file {
            let before = (reader.read(std::slice::from_ref(byte)), reader.clone());
            let answer = reader.read(&[]);
            let expected = JournalAnswer {
                taken: 0,
                ..before.0
            };
            assert_eq!(answer, expected);
            assert!(reader == before.1);
        }
    }
}

#[test]
fn a_chunk_of_any_length_is_read() {
    let start = Service::new().registry;
    let pair = [import_record(0, &key(b"a")), destroy_record(0, b"a")].concat();
    let file = pair.repeat(200_000);
    let answer = Reader::begin(&start).read(&file);
    let expected = JournalAnswer {
        taken: file.len(),
        kept: file.len() as u64,
        fault: None,
    };
    assert_eq!(answer, expected);
}

/// A journal of records of few names, good more often than not, now and then damaged or cut.
fn generated_journal(random: &mut Random) -> Vec<u8> {
    let mut file = Vec::new();
    for _ in 0..random.below(12) {
        let name = [random.pick(b"abcde")];
        let line = random.pick(&[0, 0, 0, 1, 1, 1, 2]);
        let length = random.pick(&[1, 1, 5, 600]);
        let key = Key {
            data: random.bytes(length),
            ..key(&name)
        };
        let (tag, length) = (random.pick(&[2, 3, 9]), random.pick(&[0, 5, 638, 700]));
        file.extend(match random.below(12) {
            0..7 => import_record(line, &key),
            7..11 => destroy_record(line, &name),
            _ => record(tag, &random.bytes(length)),
        });
    }
    if !file.is_empty() && random.once_in(3) {
        let place = random.below(file.len());
        file[place] ^= 1 << random.below(8);
    }
    if random.once_in(3) {
        file.truncate(random.below(file.len() + 1));
    }
    file
}

#[test]
fn generated_cuts_of_generated_journals_read_the_same_as_uncut() {
    let start = Service::new().registry;
    let mut faults = [0; 4];
    for seed in 0..4_000 {
        let random = &mut Random::new(seed);
        let file = generated_journal(random);
        let uncut = read_journal(&start, &file);
        assert!(registry_is_well_formed(&uncut.registry), "seed {seed}");
        faults[usize::from(uncut.fault.map_or(0, JournalFault::number))] += 1;
        let longest = random.pick(&[3, 10, 100, 2_000]).max(file.len() / 100);
        let mut chunks = Vec::new();
        let mut rest = &file[..];
        while !rest.is_empty() {
            let (chunk, behind) = rest.split_at(random.below(longest + 1).min(rest.len()));
            chunks.push(chunk);
            rest = behind;
        }
        let read = Reader::begin(&start).read_all(chunks);
        let expected = (taken_of(&file, &uncut), uncut);
        assert!(read == expected, "seed {seed}, {file:X?}");
    }
    assert!(faults.iter().all(|&count| count > 100), "{faults:?}");
}

// "an ill-formed registry is refused first, as C4, then an ill-formed reader's state"

fn ill_formed_registries() -> Vec<Vec<u8>> {
    let registry = Service::with_keys(&[b"a"]).registry;
    let mut with_a_bad_slot = registry.clone();
    with_a_bad_slot[slot_at(0, 0) + 637] = 2;
    let mut with_a_gap = registry.clone();
    with_a_gap[line_at(7)] = 1;
    vec![
        Vec::new(),
        registry[1..].to_vec(),
        [&registry[..], &[0]].concat(),
        with_a_bad_slot,
        with_a_gap,
    ]
}

#[test]
fn an_ill_formed_registry_is_refused_and_nothing_changes() {
    let record = import_record(0, &key(b"x"));
    let states = [
        Reader::begin(&[]).memory,
        state_memory(0, 9, 5, 0, &record[..5]),
        state_memory(2, 9, 0, u32::MAX, &[]),
        state_memory(0, 1 << 62, 0, u32::MAX, &[]),
    ];
    for registry in ill_formed_registries() {
        for memory in states.clone() {
            let registry = registry.clone();
            let mut reader = Reader { memory, registry };
            for chunk in [&[][..], &[2], &record] {
                reader.expect_refusal(chunk, JournalRefusal::RegistryIllFormed);
            }
        }
    }
}

#[test]
fn an_ill_formed_registry_comes_before_an_ill_formed_state() {
    let ill_formed_states = [Vec::new(), state_memory(4, 0, 0, 0, &[])];
    for memory in ill_formed_states {
        for registry in ill_formed_registries() {
            let memory = memory.clone();
            let mut reader = Reader { memory, registry };
            reader.expect_refusal(&[], JournalRefusal::RegistryIllFormed);
        }
        let mut reader = Reader {
            memory,
            registry: Service::new().registry,
        };
        reader.expect_refusal(&[], JournalRefusal::StateIllFormed);
    }
}

// "The first whole record with a wrong CRC, then with a layout not yours, then one that Import or
// Destroy would refuse .. refuses the file as J1, J2 or J3"

/// Behind each number of good records and before others, this record has this fault; the registry
/// keeps the whole records before it, and no more is read.
fn expect_fault(faulty: &[u8], fault: JournalFault) {
    let journal = Journal::of_every_kind();
    for count in [0, 1, 5] {
        for behind in [Vec::new(), vec![0], journal.records[count].clone()] {
            let before = journal.records[..count].concat();
            let taken = before.len() + faulty.len();
            let file = [&before[..], faulty, &behind].concat();
            let expected = journal.restored(count, Some(fault));
            expect_restored(&journal.start, &file, taken, &expected);
        }
    }
}

fn with_wrong_crc(mut record: Vec<u8>) -> Vec<u8> {
    *record.last_mut().unwrap() ^= 0x80;
    record
}

#[test]
fn every_flipped_bit_is_j1_or_makes_a_cut_end() {
    let journal = Journal::of_every_kind();
    for (place, record) in journal.records.iter().enumerate() {
        let before = journal.end_of(place);
        let mut file = journal.file();
        for at in 0..record.len() {
            for bit in 0..8 {
                file[before + at] ^= 1 << bit;
                let length = u16::from_le_bytes([file[before + 1], file[before + 2]]);
                let is_whole = before + 7 + usize::from(length) <= file.len();
                let expected = journal.restored(place, is_whole.then_some(WrongCrc));
                let uncut = read_journal(&journal.start, &file);
                assert!(uncut == expected, "bit {bit} of byte {at} in {record:X?}");
                let (_, read) = Reader::begin(&journal.start).read_all([&file[..]]);
                assert!(read == expected, "bit {bit} of byte {at} in {record:X?}");
                file[before + at] ^= 1 << bit;
            }
        }
    }
}

#[test]
fn every_other_byte_in_a_short_record_is_j1() {
    let journal = Journal::of_requests(Service::with_keys(&[b"a"]), &[destroy(b"a")]);
    let record = &journal.records[0];
    // Another length is another record.
    for at in (0..record.len()).filter(|at| !(1..3).contains(at)) {
        for byte in 0..=u8::MAX {
            let mut file = record.clone();
            file[at] = byte;
            let expected = if file == *record {
                journal.restored(1, None)
            } else {
                journal.restored(0, Some(WrongCrc))
            };
            expect_restored(&journal.start, &file, file.len(), &expected);
        }
    }
}

#[test]
fn another_sum_than_the_crc_of_tag_length_and_value_is_j1() {
    let good = import_record(0, &key(b"x"));
    let (covered, crc) = good.split_at(good.len() - 4);
    let sum = u32::from_le_bytes(crc.try_into().unwrap());
    let sums = [
        0,
        u32::MAX,
        !sum,
        sum.swap_bytes(),
        sum.reverse_bits(),
        crc32(&covered[3..]),
        crc32(&covered[1..]),
        crc32(&good),
    ];
    for sum in sums {
        let faulty = [covered, &sum.to_le_bytes()].concat();
        expect_fault(&faulty, WrongCrc);
    }
}

#[test]
fn a_tag_other_than_2_and_3_is_j2() {
    for tag in (0..=u8::MAX).filter(|tag| ![2, 3].contains(tag)) {
        expect_fault(&record(tag, &import_value(0, &key(b"x"))), WrongLayout);
    }
    for tag in [0, 1, 4, 255] {
        expect_fault(&record(tag, &[]), WrongLayout);
        expect_fault(&record(tag, b"\0a"), WrongLayout);
    }
}

#[test]
fn a_value_above_638_bytes_is_j2() {
    let longest = import_value(
        0,
        &Key {
            data: vec![0; 600],
            ..key(&[b'n'; 32])
        },
    );
    assert_eq!(longest.len(), 638);
    let longer = [&longest[..], &[0]].concat();
    expect_fault(&record(IMPORT_TAG, &longer), WrongLayout);
    expect_fault(&record(DESTROY_TAG, &longer), WrongLayout);
    expect_fault(&record(DESTROY_TAG, &[0; 638]), RefusedChange);
    for length in [640, 641, 642, 645, 646, 1_000, 65_535] {
        for tag in [IMPORT_TAG, DESTROY_TAG, 9] {
            expect_fault(&record(tag, &vec![0; length]), WrongLayout);
        }
    }
}

#[test]
fn an_imports_value_below_6_bytes_is_j2() {
    let value = import_value(0, &key(b"x"));
    for length in 0..6 {
        expect_fault(&record(IMPORT_TAG, &value[..length]), WrongLayout);
    }
    // An empty name is Import's matter.
    expect_fault(&record(IMPORT_TAG, &[0, 0, 8, 1, 0, 0]), RefusedChange);
}

#[test]
fn an_imports_value_too_short_for_its_name_is_j2() {
    for name_length in [1, 2, 32, 33, 255] {
        let mut value = import_value(0, &key(b""));
        value[5] = name_length;
        for behind in [0, name_length - 1] {
            value.truncate(6);
            value.resize(6 + usize::from(behind), b'n');
            expect_fault(&record(IMPORT_TAG, &value), WrongLayout);
        }
        // All of it the name: no data is Import's matter.
        value.resize(6 + usize::from(name_length), b'n');
        expect_fault(&record(IMPORT_TAG, &value), RefusedChange);
    }
}

#[test]
fn a_flag_above_1_is_j2() {
    for at in [3, 4] {
        for flag in 2..=u8::MAX {
            let mut value = import_value(0, &key(b"x"));
            value[at] = flag;
            expect_fault(&record(IMPORT_TAG, &value), WrongLayout);
        }
    }
}

#[test]
fn a_destroys_empty_value_is_j2() {
    expect_fault(&record(DESTROY_TAG, &[]), WrongLayout);
    // An empty name is Destroy's matter.
    expect_fault(&record(DESTROY_TAG, &[0]), RefusedChange);
}

#[test]
fn a_line_not_in_use_is_j3() {
    for line in 2..=u8::MAX {
        expect_fault(&import_record(line, &key(b"x")), RefusedChange);
        expect_fault(&destroy_record(line, b"a"), RefusedChange);
    }
}

#[test]
fn a_line_of_a_registry_of_nobody_is_j3() {
    let start = Service::with_roster(&[]).registry;
    for line in [0, 7, 8, 255] {
        let restored = read_journal(&start, &import_record(line, &key(b"x")));
        assert_eq!((restored.kept, restored.fault), (0, Some(RefusedChange)));
        assert!(restored.registry == start);
    }
}

#[test]
fn an_import_outside_the_bounds_is_j3() {
    let with = |change: &dyn Fn(&mut Key)| {
        let mut key = key(b"x");
        change(&mut key);
        import_record(0, &key)
    };
    for name in [&b""[..], &[b'n'; 33], b"a b", b"\x7F", b"\x80", b"\0"] {
        let record = with(&|key| key.name = name.to_vec());
        expect_fault(&record, RefusedChange);
    }
    for length in [0, 601, 631] {
        let record = with(&|key| key.data = vec![0; length]);
        expect_fault(&record, RefusedChange);
    }
    for bits in [0, 8, 1_016, 1_020, 1_028, 2_049, 4_104, 65_535] {
        let record = with(&|key| key.bits = bits);
        expect_fault(&record, RefusedChange);
    }
}

#[test]
fn an_import_of_every_legal_length_of_bits_is_carried_out() {
    let start = Service::new().registry;
    for bits in (1_024..=4_096).step_by(8) {
        let key = Key { bits, ..key(b"x") };
        let restored = read_journal(&start, &import_record(0, &key));
        assert_eq!(restored.fault, None);
        let slot = &restored.registry[slot_at(0, 0)..][..SLOT_SIZE];
        assert_eq!(slot, key.slot());
    }
}

#[test]
fn an_import_under_a_held_name_is_j3_for_its_line_alone() {
    let journal = Journal::of_requests(Service::new(), &[import(&key(b"a"))]);
    let other = Key {
        data: b"other".to_vec(),
        ..key(b"a")
    };
    let file = [journal.file(), import_record(0, &other)].concat();
    let expected = journal.restored(1, Some(RefusedChange));
    expect_restored(&journal.start, &file, file.len(), &expected);
    let file = [journal.file(), import_record(1, &other)].concat();
    assert_eq!(read_journal(&journal.start, &file).fault, None);
}

#[test]
fn a_ninth_key_is_j3_and_one_behind_a_destroy_is_carried_out() {
    let journal = Journal::of_requests(Service::new(), &EIGHT.map(|name| import(&key(name))));
    let ninth = import_record(0, &key(b"i"));
    let file = [&journal.file()[..], &ninth].concat();
    let expected = journal.restored(8, Some(RefusedChange));
    expect_restored(&journal.start, &file, file.len(), &expected);
    let file = [&journal.file()[..], &destroy_record(0, b"c"), &ninth].concat();
    let restored = read_journal(&journal.start, &file);
    assert_eq!(restored.fault, None);
    let slot = &restored.registry[slot_at(0, 2)..][..SLOT_SIZE];
    assert_eq!(slot, key(b"i").slot());
}

#[test]
fn a_destroy_of_a_bad_name_or_of_no_key_is_j3() {
    for name in [&b""[..], b"none", b"a b", &[b'n'; 33], &[b'n'; 637]] {
        expect_fault(&destroy_record(0, name), RefusedChange);
    }
    let journal = Journal::of_requests(Service::new(), &[import(&key(b"a"))]);
    let file = [journal.file(), destroy_record(1, b"a")].concat();
    let expected = journal.restored(1, Some(RefusedChange));
    expect_restored(&journal.start, &file, file.len(), &expected);
}

// The order of faults, in one record and of two.

#[test]
fn j1_comes_before_j2() {
    for faulty in [
        record(9, &[0; 9]),
        record(IMPORT_TAG, &[]),
        record(DESTROY_TAG, &[]),
        record(IMPORT_TAG, &[0; 639]),
        record(IMPORT_TAG, &[0; 65_535]),
        record(DESTROY_TAG, &[0; 1_000]),
    ] {
        expect_fault(&faulty, WrongLayout);
        expect_fault(&with_wrong_crc(faulty), WrongCrc);
    }
}

#[test]
fn j1_comes_before_j3() {
    for faulty in [
        import_record(8, &key(b"x")),
        import_record(0, &key(b"")),
        destroy_record(0, b"none"),
    ] {
        expect_fault(&faulty, RefusedChange);
        expect_fault(&with_wrong_crc(faulty), WrongCrc);
    }
}

#[test]
fn j2_comes_before_j3() {
    // Each of a line not in use, and of a bad name where there is one.
    let mut with_bad_flag = import_value(8, &key(b""));
    with_bad_flag[4] = 2;
    for faulty in [
        record(9, &[8, b' ']),
        record(IMPORT_TAG, &[8; 5]),
        record(IMPORT_TAG, &[8, 0, 0, 0, 0, 2, b' ']),
        record(IMPORT_TAG, &with_bad_flag),
        record(IMPORT_TAG, &[8; 639]),
        record(DESTROY_TAG, &[8; 639]),
    ] {
        expect_fault(&faulty, WrongLayout);
    }
}

#[test]
fn of_two_faulty_records_the_first_refuses_the_file() {
    let faulty = [
        (with_wrong_crc(import_record(0, &key(b"x"))), WrongCrc),
        (record(9, &[]), WrongLayout),
        (destroy_record(0, b"none"), RefusedChange),
    ];
    for (first, fault) in &faulty {
        for (second, _) in &faulty {
            let journal = Journal::of_every_kind();
            for between in [0, 2] {
                let good = journal.records[1..1 + between].concat();
                let file = [&journal.records[0][..], first, &good, second].concat();
                let taken = journal.records[0].len() + first.len();
                let expected = journal.restored(1, Some(*fault));
                expect_restored(&journal.start, &file, taken, &expected);
            }
        }
    }
}

#[test]
fn a_good_record_and_then_a_cut_faulty_one_is_no_fault() {
    let journal = Journal::of_every_kind();
    for faulty in [
        with_wrong_crc(import_record(0, &key(b"x"))),
        record(9, &[0; 700]),
        destroy_record(0, b"none"),
    ] {
        for cut in 0..faulty.len() {
            let file = [&journal.records[0][..], &faulty[..cut]].concat();
            let expected = journal.restored(1, None);
            assert!(read_journal(&journal.start, &file) == expected);
            let read = Reader::begin(&journal.start).read_all([&file[..]]);
            assert!(read == (file.len(), expected), "cut at {cut}");
        }
    }
}

// "and no more is read"

#[test]
fn after_a_fault_nothing_is_taken_and_the_same_is_said() {
    let start = Service::new().registry;
    for faulty in [
        with_wrong_crc(import_record(0, &key(b"x"))),
        record(9, &[0; 700]),
        destroy_record(0, b"none"),
    ] {
        let good = import_record(0, &key(b"a"));
        let mut reader = Reader::begin(&start);
        let said = reader.read(&[&good[..], &faulty, &good].concat());
        assert_eq!(said.taken, good.len() + faulty.len());
        assert_eq!(said.kept, good.len() as u64);
        let before = reader.clone();
        let after = import_record(0, &key(b"b"));
        for chunk in [&[][..], &[2], &after, &[0xFF; 2_000]] {
            assert_eq!(reader.read(chunk), JournalAnswer { taken: 0, ..said });
            assert!(reader == before, "nothing changes");
        }
    }
}

// A record is judged only when it is whole, whatever its length.

/// The fault of a whole record of this tag, so many zeros as its value and a right CRC.
fn fault_of_zeros(tag: u8, length: usize) -> JournalFault {
    match (tag, length) {
        // No name: by their own rules neither is served.
        (IMPORT_TAG, 6..=638) | (DESTROY_TAG, 1..=638) => RefusedChange,
        _ => WrongLayout,
    }
}

#[test]
fn a_record_of_any_length_is_waited_for_and_then_judged() {
    let start = Service::new().registry;
    let lengths = (0..=700).chain((701..65_535).step_by(509)).chain([65_535]);
    for length in lengths {
        for tag in [IMPORT_TAG, DESTROY_TAG, 9] {
            let file = record(tag, &vec![0; length]);
            let (begun, last) = file.split_at(file.len() - 1);
            let waiting = JournalAnswer {
                taken: begun.len(),
                kept: 0,
                fault: None,
            };
            let mut reader = Reader::begin(&start);
            assert_eq!(reader.read(begun), waiting, "length {length}");
            let other = [!last[0]];
            for (last, fault) in [(last, fault_of_zeros(tag, length)), (&other, WrongCrc)] {
                let mut reader = reader.clone();
                let expected = JournalAnswer {
                    taken: 1,
                    kept: 0,
                    fault: Some(fault),
                };
                assert_eq!(reader.read(&[last, &[0]].concat()), expected);
            }
        }
    }
}

/// Every length, from a state that has read all but the CRC.
#[test]
fn a_record_of_every_length_to_65535_is_judged_at_its_last_byte() {
    let start = Service::new().registry;
    for length in 0..=65_535_u16 {
        let tag = [IMPORT_TAG, DESTROY_TAG, 9][usize::from(length % 3)];
        let [low, high] = length.to_le_bytes();
        let register = 0x1234_5678 ^ u32::from(length);
        let begun = 3 + u64::from(length);
        let memory = state_memory(0, 0, begun, register, &[tag, low, high]);
        let right = (!register).to_le_bytes();
        let wrong = (!register ^ 1 << (length % 32)).to_le_bytes();
        let fault = fault_of_zeros(tag, length.into());
        for (crc, fault) in [(right, fault), (wrong, WrongCrc)] {
            let mut reader = Reader {
                memory: memory.clone(),
                registry: start.clone(),
            };
            let mut answer = reader.read(&crc[..3]);
            assert_eq!((answer.taken, answer.fault), (3, None), "length {length}");
            answer = reader.read(&[crc[3], 0]);
            assert_eq!((answer.taken, answer.fault), (1, Some(fault)));
        }
    }
}

#[test]
fn a_tag_of_9_and_length_65535_is_waited_for_and_cut_it_is_no_fault() {
    let start = Service::new().registry;
    let file = record(9, &[0xAA; 65_535]);
    let mut reader = Reader::begin(&start);
    for chunk in file[..file.len() - 1].chunks(509) {
        let answer = reader.read(chunk);
        assert_eq!((answer.taken, answer.fault), (chunk.len(), None));
    }
    assert_eq!(
        reader.read(&file[file.len() - 1..]).fault,
        Some(WrongLayout)
    );
}
