//! `journal show`: every record with its fields, damage where it is, and what the service restores.

mod common;

use common::{folder, razidkot, sample};
use razidkot_tests::ask::record;
use razidkot_tests::bill::Folder;
use razidkot_tests::journals::*;
use std::path::Path;

/// What is shown of a journal, without the heading, each line's blanks evened out.
fn shown(folder: &Folder, journal: &[u8], roster: Option<&[u8]>) -> Vec<String> {
    let file = folder.file("journal", journal);
    let roster = roster.map(|roster| folder.file("roster", roster));
    shown_file(&file, roster.as_deref())
}

fn shown_file(file: &Path, roster: Option<&Path>) -> Vec<String> {
    let ended = match roster {
        Some(roster) => razidkot(words!["journal", "show", file, "--roster", roster]),
        None => razidkot(words!["journal", "show", file]),
    };
    let text = ended.text();
    let even = |line: &str| line.split_whitespace().collect::<Vec<_>>().join(" ");
    let mut lines = text.lines().map(even);
    let heading = "offset length crc operation application key";
    assert_eq!(lines.next().as_deref(), Some(heading));
    lines.collect()
}

fn roster() -> Vec<u8> {
    [record(1, SCANNER), record(1, VIEWER)].concat()
}

#[test]
fn every_kind_of_record_is_shown_with_its_fields() {
    let folder = folder("kinds");
    let journal = Journal::of_every_kind().file();
    let long = "n".repeat(32);
    let expected = [
        "0 16 good import \"scanner\" \"a\" 2 bytes, 2048 bits, export".to_string(),
        format!("16 645 good import \"scanner\" \"{long}\" 600 bytes, 4096 bits, verify"),
        "661 16 good import \"viewer\" \"a\" 2 bytes, 2048 bits, export".to_string(),
        "677 9 good destroy \"scanner\" \"a\"".to_string(),
        "686 16 good import \"scanner\" \"b\" 2 bytes, 2048 bits, export".to_string(),
        format!("702 40 good destroy \"scanner\" \"{long}\""),
        "742 9 good destroy \"viewer\" \"a\"".to_string(),
        "751 16 good import \"viewer\" \"c\" 2 bytes, 2048 bits, export".to_string(),
        "restores 2 keys from 767 bytes".to_string(),
    ];
    assert_eq!(shown(&folder, &journal, Some(&roster())), expected);
    let without = shown(&folder, &journal, None);
    assert_eq!(without.len(), 8, "no roster, no registry to restore");
    assert_eq!(without[3], "677 9 good destroy line-0 \"a\"");
    assert_eq!(without[6], "742 9 good destroy line-1 \"a\"");
}

#[test]
fn a_cut_end_is_shown_and_is_no_fault() {
    let folder = folder("cut");
    let file = import_record(0, &key(b"a"));
    for (length, last) in [
        (1, "0 1 cut a record not finished: its length is not whole"),
        (2, "0 2 cut a record not finished: its length is not whole"),
        (3, "0 3 cut a record not finished: bytes to go: 13"),
        (15, "0 15 cut a record not finished: bytes to go: 1"),
    ] {
        let lines = shown(&folder, &file[..length], Some(&roster()));
        assert_eq!(lines, [last, "restores 0 keys from 0 bytes"]);
    }
    assert_eq!(shown(&folder, b"", None), [""; 0]);
}

#[test]
fn damage_is_shown_where_it_is_and_the_first_refused_record_is_said() {
    let folder = folder("damage");
    let good = import_record(0, &key(b"a"));
    let mut bad = import_record(1, &key(b"b"));
    bad[10] ^= 1;
    let again = destroy_record(0, b"a");
    let file = [&good[..], &bad, &again].concat();
    assert_eq!(
        shown(&folder, &file, Some(&roster())),
        [
            "0 16 good import \"scanner\" \"a\" 2 bytes, 2048 bits, export",
            "16 16 bad import \"viewer\" \"b\" 2 bytes, 2048 bits, export",
            "32 9 good destroy \"scanner\" \"a\"",
            "restores 1 keys from 16 bytes, and refuses the next record: J1, its CRC is wrong",
        ]
    );
    for (record, line, why) in [
        (
            whole_record(9, b"xyz"),
            "0 10 good tag-9 line-120 unread",
            "J2, no import or destroy",
        ),
        (
            whole_record(IMPORT_TAG, b""),
            "0 7 good import unread unread",
            "J2, no import or destroy",
        ),
        (
            destroy_record(7, b"a\n"),
            "0 10 good destroy line-7 \"a\\n\"",
            "J3, Import or Destroy would refuse it, or its line is not in use",
        ),
    ] {
        let last = format!("restores 0 keys from 0 bytes, and refuses the next record: {why}");
        assert_eq!(shown(&folder, &record, Some(&roster())), [line, &last]);
    }
}

/// Longer than what is read at a time, with records across.
#[test]
fn a_long_journal_is_shown_to_its_end() {
    let folder = folder("long");
    let longest = longest_key();
    let pair = [import_record(1, &longest), destroy_record(1, &longest.name)].concat();
    let pairs = 500;
    let lines = shown(&folder, &pair.repeat(pairs), Some(&roster()));
    assert_eq!(lines.len(), 2 * pairs + 1);
    assert!(lines[..2 * pairs]
        .iter()
        .all(|line| line.contains(" good ")));
    let end = pairs * pair.len();
    assert_eq!(
        lines[2 * pairs],
        format!("restores 0 keys from {end} bytes")
    );
}

#[test]
fn the_sample_is_shown() {
    let lines = shown_file(&sample("day.journal"), Some(&sample("servers.roster")));
    assert_eq!(lines.len(), 20);
    assert_eq!(lines[19], "restores 15 keys from 7123 bytes");
    assert!(lines[..19].iter().all(|line| line.contains(" good ")));
    let folder = folder("no-file");
    let missing = folder.path().join("missing");
    let failed = razidkot(words!["journal", "show", missing]);
    let said = format!(
        "{}: No such file or directory (os error 2)",
        missing.display()
    );
    failed.assert_failed(&said);
}
