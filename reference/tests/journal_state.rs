//! The state of the journal's reader in lent memory: its layout, which are well formed, and the most
//! bytes that it takes.
//! Document 02, "Surviving a power cut"; the layout is the one set down in docs/.

mod common;

use common::generate::Random;
use common::journal::*;
use common::*;
use reference::{
    crc32, journal_begin, journal_read, journal_state_is_well_formed, JournalAnswer, JournalFault,
    JournalRefusal, JOURNAL_STATE_SIZE, LONGEST_JOURNAL,
};

const ALL_ONES: u32 = 0xFFFF_FFFF;

fn reader_of(memory: Vec<u8>) -> Reader {
    Reader {
        memory,
        registry: Service::new().registry,
    }
}

fn waiting(taken: usize, kept: u64) -> JournalAnswer {
    JournalAnswer {
        taken,
        kept,
        fault: None,
    }
}

// Layout.

#[test]
fn the_memory_has_662_bytes() {
    assert_eq!(JOURNAL_STATE_SIZE, 662);
}

#[test]
fn a_fresh_state_has_all_ones_in_the_register_and_zeros_elsewhere() {
    for filler in [0x00, 0x55, 0xFF] {
        let mut memory = vec![filler; 662];
        assert_eq!(journal_begin(&mut memory), Ok(()));
        assert_eq!(memory[..17], [0; 17]);
        assert_eq!(memory[17..21], [0xFF; 4]);
        assert_eq!(memory[21..], [0; 641]);
        assert!(journal_state_is_well_formed(&memory));
    }
}

#[test]
fn memory_of_another_size_is_not_begun_and_stays() {
    for size in [0, 1, 21, 661, 663, 1_324] {
        let mut memory = vec![0x55; size];
        let refused = Err(JournalRefusal::StateIllFormed);
        assert_eq!(journal_begin(&mut memory), refused);
        assert_eq!(memory, vec![0x55; size]);
    }
}

#[test]
fn bytes_of_the_next_record_stand_behind_their_count_and_the_register() {
    let first = import_record(0, &key(b"a"));
    let next = import_record(0, &key(b"b"));
    for begun in 1..next.len() {
        let mut reader = reader_of(state_memory(0, 0, 0, ALL_ONES, &[]));
        let kept = first.len() as u64;
        let answer = reader.read(&[&first[..], &next[..begun]].concat());
        assert_eq!(answer, waiting(first.len() + begun, kept));
        let register = !crc32(&next[..begun]);
        let held = &next[..begun];
        let expected = state_memory(0, kept, begun as u64, register, held);
        assert_eq!(reader.memory, expected);
    }
}

#[test]
fn of_a_long_record_the_first_641_bytes_are_held_and_all_are_counted() {
    let record = record(2, &Random::new(1).bytes(2_000));
    for begun in [640, 641, 642, 1_000, 2_003, 2_006] {
        let mut reader = reader_of(state_memory(0, 0, 0, ALL_ONES, &[]));
        assert_eq!(reader.read(&record[..begun]), waiting(begun, 0));
        let register = !crc32(&record[..begun]);
        let held = &record[..begun.min(641)];
        let expected = state_memory(0, 0, begun as u64, register, held);
        assert_eq!(reader.memory, expected);
    }
}

#[test]
fn the_longest_legal_record_is_held_without_its_crc() {
    let longest = Key {
        data: vec![0xDD; 600],
        ..key(&[b'n'; 32])
    };
    let record = import_record(0, &longest);
    for begun in 641..645 {
        let mut reader = reader_of(state_memory(0, 0, 0, ALL_ONES, &[]));
        assert_eq!(reader.read(&record[..begun]), waiting(begun, 0));
        assert_eq!(reader.memory[21..], record[..641]);
        assert_eq!(reader.read(&record[begun..]), waiting(645 - begun, 645));
        assert_eq!(reader.memory, state_memory(0, 645, 0, ALL_ONES, &[]));
    }
}

#[test]
fn behind_whole_records_and_behind_a_fault_no_record_is_begun() {
    let good = import_record(0, &key(b"a"));
    let mut wrong_crc = destroy_record(0, b"a");
    wrong_crc[8] ^= 1;
    let faulty = [wrong_crc, record(9, &[1; 700]), destroy_record(0, b"b")];
    for (number, faulty) in (1..).zip(faulty) {
        let mut reader = reader_of(state_memory(0, 0, 0, ALL_ONES, &[]));
        reader.read(&good);
        assert_eq!(reader.memory, state_memory(0, 16, 0, ALL_ONES, &[]));
        let answer = reader.read(&faulty);
        assert_eq!(answer.fault.map(JournalFault::number), Some(number));
        assert_eq!(reader.memory, state_memory(number, 16, 0, ALL_ONES, &[]));
    }
}

#[test]
fn every_state_that_reading_leaves_is_well_formed() {
    let start = Service::new().registry;
    let file = Journal::of_every_kind().file();
    let files = [
        file.clone(),
        [&file[..], &record(9, &[0; 700]), &file].concat(),
        [&file[..], &destroy_record(0, b"none")].concat(),
        [&file[..], &[2, 0xFF, 0xFF], &[0; 3_000]].concat(),
    ];
    for file in files {
        let mut reader = Reader::begin(&start);
        for byte in &file {
            reader.read(std::slice::from_ref(byte));
            assert!(journal_state_is_well_formed(&reader.memory));
        }
    }
}

// Ill formed.

fn expect_ill_formed(memory: &[u8]) {
    assert!(!journal_state_is_well_formed(memory));
    let mut reader = reader_of(memory.to_vec());
    for chunk in [&[][..], &[2], &import_record(0, &key(b"a"))] {
        reader.expect_refusal(chunk, JournalRefusal::StateIllFormed);
    }
}

/// A state that is read on from; an empty chunk changes nothing.
fn expect_well_formed(memory: &[u8]) {
    assert!(journal_state_is_well_formed(memory));
    let mut reader = reader_of(memory.to_vec());
    let before = reader.clone();
    assert_eq!(reader.read(&[]).taken, 0);
    assert!(reader == before);
}

#[test]
fn a_state_of_another_size_is_ill_formed() {
    for size in [0, 1, 21, 661, 663, 1_324] {
        expect_ill_formed(&vec![0; size]);
    }
}

#[test]
fn a_first_byte_above_3_is_ill_formed() {
    for fault in 0..=u8::MAX {
        let memory = state_memory(fault, 7, 0, ALL_ONES, &[]);
        if fault <= 3 {
            expect_well_formed(&memory);
        } else {
            expect_ill_formed(&memory);
        }
    }
}

#[test]
fn counts_that_are_together_above_2_to_the_62_are_ill_formed() {
    let most = 1 << 62;
    assert_eq!(LONGEST_JOURNAL, most);
    let held = [2, 0xFF, 0xFF];
    for (kept, begun) in [(most, 0), (most - 1, 1), (most - 3, 3), (most - 700, 700)] {
        let held = &held[..3.min(begun as usize)];
        expect_well_formed(&state_memory(0, kept, begun, 0, held));
        expect_well_formed(&state_memory(1, kept, begun, 0, held));
        expect_ill_formed(&state_memory(0, kept + 1, begun, 0, held));
        expect_ill_formed(&state_memory(3, kept + 1, begun, 0, held));
    }
    for (kept, begun) in [
        (u64::MAX, 0),
        (u64::MAX, 1),
        (0, u64::MAX),
        (u64::MAX, u64::MAX),
        (1 << 63, 1 << 63),
        (u64::MAX - 1, 2),
        (0, most + 1),
        (most, most),
    ] {
        expect_ill_formed(&state_memory(0, kept, begun, 0, &held));
        expect_ill_formed(&state_memory(0, kept, begun, 0, &[]));
    }
}

#[test]
fn bytes_begun_that_are_a_whole_record_or_more_are_ill_formed() {
    for length in [0, 1, 2, 6, 600, 633, 634, 638, 639, 1_000, 65_534, 65_535] {
        let [low, high] = u16::to_le_bytes(length);
        let whole = 7 + u64::from(length);
        for fault in [0, 2] {
            let state = |begun| state_memory(fault, 0, begun, 0, &[3, low, high]);
            for begun in [3, whole - 1] {
                expect_well_formed(&state(begun));
            }
            for begun in [whole, whole + 1, whole + 1_000, 1 << 40] {
                expect_ill_formed(&state(begun));
            }
        }
    }
}

#[test]
fn one_or_two_bytes_begun_are_well_formed_whatever_they_are() {
    for held in [[0, 0], [0xFF, 0xFF]] {
        expect_well_formed(&state_memory(0, 0, 1, 0, &held[..1]));
        expect_well_formed(&state_memory(0, 0, 2, 0, &held));
    }
}

#[test]
fn a_byte_behind_those_begun_that_is_not_zero_is_ill_formed() {
    let bytes = record(2, &[0xEE; 1_000]);
    for begun in [0, 1, 2, 3, 100, 640] {
        for place in begun..641 {
            for bit in [0, 7] {
                let mut memory = state_memory(0, 0, begun as u64, ALL_ONES, &bytes[..begun]);
                memory[21 + place] = 1 << bit;
                expect_ill_formed(&memory);
            }
        }
    }
    for begun in [641, 642, 1_000, 1_006] {
        expect_well_formed(&state_memory(0, 0, begun, 0, &bytes[..641]));
    }
}

#[test]
fn any_register_is_well_formed() {
    for register in [0, 1, 0xDEBB_20E3, ALL_ONES - 1] {
        expect_well_formed(&state_memory(0, 0, 0, register, &[]));
        expect_well_formed(&state_memory(0, 9, 2, register, &[1, 2]));
    }
}

// States that reading doesn't leave.

#[test]
fn a_state_with_a_fault_and_a_record_begun_says_the_fault_and_stays() {
    let record = import_record(0, &key(b"a"));
    for (number, fault) in (1..).zip(JournalFault::ALL) {
        for begun in [1, 5, 15] {
            let memory = state_memory(number, 99, begun as u64, 7, &record[..begun]);
            let mut reader = reader_of(memory);
            let before = reader.clone();
            for chunk in [&[][..], &record[begun..], &record] {
                let expected = JournalAnswer {
                    taken: 0,
                    kept: 99,
                    fault: Some(fault),
                };
                assert_eq!(reader.read(chunk), expected);
                assert!(reader == before);
            }
        }
    }
}

#[test]
fn a_state_is_read_on_from_its_register() {
    let record = destroy_record(0, b"a");
    for register in [0, 0x1234_5678, ALL_ONES] {
        let mut reader = reader_of(state_memory(0, 0, 0, register, &[]));
        let fault = reader.read(&record).fault;
        let expected = if register == ALL_ONES {
            JournalFault::RefusedChange
        } else {
            JournalFault::WrongCrc
        };
        assert_eq!(fault, Some(expected));
    }
}

// "at most 2^62 bytes" and "The file, never longer".

#[test]
fn of_a_chunk_only_the_bytes_up_to_2_to_the_62_are_taken() {
    let most = 1 << 62;
    let record = import_record(0, &key(b"a"));
    for room in 0..=20_u64 {
        let mut reader = reader_of(state_memory(0, most - room, 0, ALL_ONES, &[]));
        let taken = (room as usize).min(record.len());
        let is_whole = taken == record.len();
        let kept = if is_whole {
            most - room + record.len() as u64
        } else {
            most - room
        };
        assert_eq!(reader.read(&record), waiting(taken, kept));
        let slot = &reader.registry[slot_at(0, 0)..][..SLOT_SIZE];
        assert_eq!(slot == key(b"a").slot(), is_whole);
        let expected = waiting(room as usize - taken, kept);
        assert_eq!(reader.read(&[2; 30][..room as usize - taken]), expected);
        let before = reader.clone();
        assert_eq!(reader.read(&[2; 30]), waiting(0, kept));
        assert!(reader == before, "at its end nothing changes");
    }
}

#[test]
fn a_record_begun_counts_among_the_2_to_the_62_bytes() {
    let most: u64 = 1 << 62;
    let record = destroy_record(0, b"a");
    let register = !crc32(&record[..5]);
    for missing in 0..4 {
        let kept = most - 9 + missing;
        let memory = state_memory(0, kept, 5, register, &record[..5]);
        let mut reader = reader_of(memory);
        let taken = 4 - missing as usize;
        let answer = reader.read(&record[5..]);
        assert_eq!((answer.taken, answer.kept), (taken, kept));
        let is_judged = missing == 0;
        assert_eq!(answer.fault.is_some(), is_judged);
    }
}

#[test]
fn a_refused_reading_is_told_apart_from_a_fault() {
    let mut registry = Service::new().registry;
    let mut memory = state_memory(4, 0, 0, ALL_ONES, &[]);
    let refused = Err(JournalRefusal::StateIllFormed);
    assert_eq!(journal_read(&mut memory, &mut registry, &[]), refused);
    registry.pop();
    let refused = Err(JournalRefusal::RegistryIllFormed);
    assert_eq!(journal_read(&mut memory, &mut registry, &[]), refused);
}
