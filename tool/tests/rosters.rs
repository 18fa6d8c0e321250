//! `roster make` and `roster show`.

mod common;

use common::{folder, free, razidkot, sample};
use razidkot_tests::bill::roster_of;
use razidkot_tests::generate::{mutated, some_roster};
use razidkot_tests::run::{for_seeds, Outcomes};
use reference::REGISTRY_SIZE;
use std::fs;
use std::path::Path;

const NO_NAME: &str = "roster R3: a name not of 1 to 64 bytes, each 0x21 to 0x7E";

/// The words of `roster make`, with a file to be made.
fn make<'a>(names: &[&'a str], file: Option<&'a Path>) -> Vec<&'a str> {
    let mut words = vec!["roster", "make"];
    if let Some(file) = file {
        words.extend(["-o", file.to_str().expect("text")]);
    }
    words.push("--");
    words.extend(names);
    words
}

fn bytes_of(names: &[&str]) -> Vec<u8> {
    let names: Vec<_> = names.iter().map(|name| name.as_bytes().to_vec()).collect();
    roster_of(&names)
}

#[test]
fn the_names_that_are_made_are_shown() {
    let folder = folder("made_and_shown");
    let longest = "~".repeat(64);
    let eight = [
        "a",
        "-",
        "--",
        "-o",
        "!\"#$%&'()*+,",
        "\\",
        "`{|}",
        &longest,
    ];
    for count in 0..=8 {
        let names = &eight[..count];
        let file = free(&folder, "made");
        assert_eq!(razidkot(&make(names, Some(&file))).printed(), b"");
        assert_eq!(fs::read(&file).expect("a roster"), bytes_of(names));
        assert_eq!(razidkot(&make(names, None)).printed(), bytes_of(names));
        let expected: String = names.iter().map(|name| format!("{name}\n")).collect();
        assert_eq!(razidkot(words!["roster", "show", file]).text(), expected);
    }
}

#[test]
fn the_samples_names_make_the_samples() {
    for name in ["servers.roster", "worked.roster"] {
        let file = sample(name);
        let shown = razidkot(words!["roster", "show", file]).text();
        let names: Vec<_> = shown.lines().collect();
        assert!(!names.is_empty(), "{name}");
        let made = razidkot(&make(&names, None)).printed();
        assert_eq!(made, fs::read(&file).expect("a sample"));
    }
}

#[test]
fn a_roster_that_the_service_would_refuse_is_not_made() {
    let folder = folder("not_made");
    let letters = ["a", "b", "c", "d", "e", "f", "g", "h"];
    let (long, longer) = ("n".repeat(65), "n".repeat(70_000));
    let cases: [(&[&str], String); 7] = [
        (&["a", "b c"], format!("\"b c\": {NO_NAME}")),
        (&["a", ""], format!("\"\": {NO_NAME}")),
        (&["é", "a b"], format!("\"\\xc3\\xa9\": {NO_NAME}")),
        (&[&long], format!("\"{long}\": {NO_NAME}")),
        (&[&longer], format!("\"{longer}\": {NO_NAME}")),
        (
            &["a", "b", "a", ""],
            "\"a\": roster R5: a name seen before".into(),
        ),
        (
            &[&letters[..], &["i"]].concat(),
            "\"i\": roster R4: a ninth name".into(),
        ),
    ];
    for (names, said) in cases {
        let file = free(&folder, "made");
        razidkot(&make(names, Some(&file))).assert_failed(&said);
        assert!(!file.exists(), "{names:?}");
    }
}

#[test]
fn a_faulty_file_is_named_with_its_fault() {
    let folder = folder("faulty");
    let ninth = bytes_of(&["a", "b", "c", "d", "e", "f", "g", "h", "i"]);
    let cases: [(&[u8], &str); 6] = [
        (b"\x01\x02", "roster R1: a record is cut"),
        (b"\x01\x02\x00a", "roster R1: a record is cut"),
        (b"\x02\x01\x00a", "roster R2: a tag other than 1"),
        (b"\x01\x01\x00 ", NO_NAME),
        (&ninth, "roster R4: a ninth name"),
        (
            b"\x01\x01\x00a\x01\x01\x00a",
            "roster R5: a name seen before",
        ),
    ];
    for (bytes, fault) in cases {
        let file = folder.file("faulty.roster", bytes);
        let said = format!("{}: {fault}", file.display());
        razidkot(words!["roster", "show", file]).assert_failed(&said);
    }
}

#[test]
fn a_file_that_cannot_be_read_or_written_is_named() {
    let folder = folder("no_roster");
    let missing = folder.missing();
    let said = format!(
        "{}: No such file or directory (os error 2)",
        missing.display()
    );
    razidkot(words!["roster", "show", missing]).assert_failed(&said);

    let within = missing.join("roster");
    let said = format!(
        "{}: No such file or directory (os error 2)",
        within.display()
    );
    razidkot(words!["roster", "make", "a", "-o", within]).assert_failed(&said);

    let folder = folder.path();
    let said = format!("{}: Is a directory (os error 21)", folder.display());
    razidkot(words!["roster", "show", folder]).assert_failed(&said);
    razidkot(words!["roster", "make", "-o", folder, "a"]).assert_failed(&said);
}

#[test]
fn any_file_is_shown_or_refused_as_the_reference_does() {
    let folder = folder("any_roster");
    let mut outcomes = Outcomes::default();
    for_seeds(300, |random| {
        let mut roster = some_roster(random);
        if random.once_in(3) {
            roster = mutated(random, roster);
        }
        let ended = razidkot(words!["roster", "show", folder.file("any.roster", &roster)]);
        let mut registry = vec![0; REGISTRY_SIZE];
        match reference::load_roster(&roster, &mut registry) {
            Ok(()) => {
                let shown = ended.text();
                let names: Vec<_> = shown.lines().collect();
                assert_eq!(bytes_of(&names), roster);
                outcomes.count(names.len());
            }
            Err(fault) => {
                let number = format!("roster R{}", fault.number());
                assert!((ended.status, &ended.out[..]) == (1, b""), "{ended:?}");
                assert!(
                    ended.err.contains(&format!("any.roster: {number}: ")),
                    "{ended:?}"
                );
                outcomes.count(number);
            }
        }
    });
    outcomes.assert_often(&["0", "1", "8", "roster R1", "roster R2"], 3);
    outcomes.assert_often(&["roster R3", "roster R4", "roster R5"], 3);
}
