//! Every roster fault, the memory that stays as it came, and the order of the faults.
//! Document 01, "Roster, registry, connection, tally", the first paragraph.

mod common;

use common::*;
use reference::{load_roster, registry_is_well_formed, RosterFault, REGISTRY_SIZE};

const NINE: [&[u8]; 9] = [b"0", b"1", b"2", b"3", b"4", b"5", b"6", b"7", b"8"];

fn load(file: &[u8]) -> Result<Vec<u8>, RosterFault> {
    let came = vec![0x5A; REGISTRY_SIZE];
    let mut registry = came.clone();
    match load_roster(file, &mut registry) {
        Ok(()) => Ok(registry),
        Err(fault) => {
            assert_eq!(registry, came, "memory stays as it came");
            Err(fault)
        }
    }
}

fn expect_fault(file: &[u8], fault: RosterFault) {
    assert_eq!(load(file), Err(fault));
}

fn expect_names(file: &[u8], names: &[&[u8]]) {
    let mut expected = vec![0; REGISTRY_SIZE];
    for (line, name) in names.iter().enumerate() {
        expected[line_at(line)] = name.len() as u8;
        expected[line_at(line) + 1..][..name.len()].copy_from_slice(name);
    }
    assert_eq!(load(file), Ok(expected.clone()));
    assert!(registry_is_well_formed(&expected));
}

#[test]
fn faults_are_numbered_from_0_to_5() {
    let faults = [
        RosterFault::WrongMemorySize,
        RosterFault::CutRecord,
        RosterFault::UnknownTag,
        RosterFault::BadName,
        RosterFault::NinthName,
        RosterFault::RepeatedName,
    ];
    assert_eq!(faults.map(RosterFault::number), [0, 1, 2, 3, 4, 5]);
}

#[test]
fn an_empty_file_is_a_roster_of_none() {
    expect_names(&[], &[]);
}

#[test]
fn names_are_numbered_in_file_order() {
    expect_names(&roster_of(&[b"b", b"a", b"c"]), &[b"b", b"a", b"c"]);
}

#[test]
fn eight_names_are_read() {
    expect_names(&roster_of(&NINE[..8]), &NINE[..8]);
}

#[test]
fn names_of_1_and_64_bytes_and_bytes_21_and_7e_are_read() {
    let names: [&[u8]; 3] = [b"n", &[b'n'; 64], &[0x21, 0x7E]];
    expect_names(&roster_of(&names), &names);
}

#[test]
fn memory_of_another_size_is_r0_and_stays() {
    for size in [0, REGISTRY_SIZE - 1, REGISTRY_SIZE + 1] {
        let mut registry = vec![0x5A; size];
        let refused = load_roster(&roster_of(&[b"a"]), &mut registry);
        assert_eq!(refused, Err(RosterFault::WrongMemorySize));
        assert_eq!(registry, vec![0x5A; size]);
    }
}

#[test]
fn a_record_cut_anywhere_is_r1() {
    let file = roster_of(&[b"first", b"second"]);
    for length in 1..file.len() {
        let between_records = length == 8;
        assert_eq!(load(&file[..length]).is_ok(), between_records);
        if !between_records {
            expect_fault(&file[..length], RosterFault::CutRecord);
        }
    }
}

#[test]
fn a_tag_other_than_1_is_r2() {
    for tag in [0, 2, 255] {
        expect_fault(&roster_record(tag, b"a"), RosterFault::UnknownTag);
    }
}

#[test]
fn a_name_of_0_or_65_bytes_is_r3() {
    expect_fault(&roster_of(&[b""]), RosterFault::BadName);
    expect_fault(&roster_of(&[&[b'n'; 65]]), RosterFault::BadName);
    expect_fault(&roster_of(&[&[b'n'; 65_535]]), RosterFault::BadName);
}

#[test]
fn a_name_with_bytes_20_or_7f_is_r3() {
    for byte in [0x00, 0x20, 0x7F, 0x80, 0xFF] {
        expect_fault(&roster_of(&[&[b'a', byte]]), RosterFault::BadName);
        expect_fault(&roster_of(&[&[byte, b'a']]), RosterFault::BadName);
    }
}

#[test]
fn a_ninth_name_is_r4() {
    expect_fault(&roster_of(&NINE), RosterFault::NinthName);
}

#[test]
fn a_name_seen_before_is_r5() {
    expect_fault(&roster_of(&[b"a", b"b", b"a"]), RosterFault::RepeatedName);
    let eighth_repeats = [&NINE[..7], &NINE[..1]].concat();
    expect_fault(&roster_of(&eighth_repeats), RosterFault::RepeatedName);
}

#[test]
fn names_that_only_begin_alike_are_distinct() {
    let names: [&[u8]; 3] = [b"a", b"aa", b"A"];
    expect_names(&roster_of(&names), &names);
}

#[test]
fn r0_comes_before_r1() {
    let refused = load_roster(&[1], &mut [0; 7]);
    assert_eq!(refused, Err(RosterFault::WrongMemorySize));
}

#[test]
fn r1_comes_before_r2() {
    let cut_with_other_tag = [2, 5, 0, b'a'];
    expect_fault(&cut_with_other_tag, RosterFault::CutRecord);
    expect_fault(&[2], RosterFault::CutRecord);
    expect_fault(&[2, 0], RosterFault::CutRecord);
}

#[test]
fn r2_comes_before_r3() {
    expect_fault(&roster_record(2, b""), RosterFault::UnknownTag);
}

#[test]
fn r3_comes_before_r4() {
    let ninth_is_bad = [&NINE[..8], &[&b""[..]]].concat();
    expect_fault(&roster_of(&ninth_is_bad), RosterFault::BadName);
}

#[test]
fn r4_comes_before_r5() {
    let ninth_repeats = [&NINE[..8], &NINE[..1]].concat();
    expect_fault(&roster_of(&ninth_repeats), RosterFault::NinthName);
}

#[test]
fn the_first_faulty_record_decides() {
    let repeated_then_other_tag = [roster_of(&[b"a", b"a"]), roster_record(2, b"a")].concat();
    expect_fault(&repeated_then_other_tag, RosterFault::RepeatedName);
    let other_tag_then_cut = [roster_record(2, b"a"), vec![1]].concat();
    expect_fault(&other_tag_then_cut, RosterFault::UnknownTag);
    let bad_name_then_other_tag = [roster_of(&[b" "]), roster_record(2, b"a")].concat();
    expect_fault(&bad_name_then_other_tag, RosterFault::BadName);
}
