//! The proved program `bill ROSTER STREAM LIST` on rosters and lists that are refused and files that
//! can't be read: document 01, "The bill"; document 02, "Keys we ship".

use razidkot::LONGEST_CHUNK;
use razidkot_tests::ask::record;
use razidkot_tests::bill::{letters, ping, printed, roster_of, Folder};
use razidkot_tests::lists::{bad_lists, list_of, longest_list, pair, pairs};
use reference::bill;
use std::path::{Path, PathBuf};

const NO_FILE: &[u8] = b"no file\n";

fn folder(test: &str) -> Folder {
    Folder::new(env!("CARGO_TARGET_TMPDIR"), test)
}

// ---- faulty rosters

/// Rosters for each fault, those among them where another fault is near.
fn faulty_rosters() -> Vec<(&'static str, Vec<u8>)> {
    let first = record(1, b"a");
    let behind_first = |rest: &[u8]| [&first[..], rest].concat();
    let eight = roster_of(&letters(8));
    let behind_eight = |rest: &[u8]| [&eight[..], rest].concat();
    vec![
        ("R1", vec![1]),
        ("R1", vec![2, 0]),
        ("R1", record(1, b"abc")[..5].to_vec()),
        ("R1", behind_first(&record(2, b"b")[..3])),
        ("R1", behind_eight(&[1, 0xFF, 0xFF])),
        ("R2", record(0, b"a")),
        ("R2", behind_first(&record(2, b""))),
        ("R2", behind_eight(&record(0xFF, b"i"))),
        ("R3", record(1, b"")),
        ("R3", record(1, &[b'n'; 65])),
        ("R3", record(1, &[b'n'; 256 + 1])),
        ("R3", behind_first(&record(1, b"a b"))),
        ("R3", behind_first(&record(1, b"b\x7F"))),
        ("R3", behind_eight(&record(1, b"\x00"))),
        ("R4", roster_of(&letters(9))),
        ("R4", behind_eight(&first)),
        ("R4", behind_eight(&[record(1, b"i"), vec![1]].concat())),
        ("R5", behind_first(&first)),
        (
            "R5",
            [roster_of(&letters(7)), record(1, b"d"), vec![9]].concat(),
        ),
    ]
}

#[test]
fn every_roster_fault_is_one_line_whatever_the_stream() {
    let folder = folder("faulty");
    for (fault, roster) in faulty_rosters() {
        for stream in [vec![], ping(), vec![0xFF; 2 * LONGEST_CHUNK + 1]] {
            assert_eq!(folder.bill(&roster, &stream), format!("roster {fault}\n"));
        }
    }
}

/// A roster that is good has 536 bytes at most, and the record that makes one faulty 65,538.
#[test]
fn a_roster_file_longer_than_any_good_one_is_refused_by_its_first_fault() {
    let folder = folder("long-roster");
    let longest: Vec<u8> = (0..8)
        .flat_map(|number| record(1, &[b'a' + number; 64]))
        .collect();
    let ninth = record(1, &[b'n'; 0xFFFF]);
    let cut = &ninth[..ninth.len() - 1];
    let rosters = [
        ("R1", [&longest, cut].concat()),
        ("R3", [&longest, &ninth[..]].concat()),
        ("R3", [&longest, &ninth[..], &ninth.repeat(3)].concat()),
        (
            "R4",
            [&longest[..], &record(1, b"i").repeat(40_000)].concat(),
        ),
        ("R3", ninth.repeat(20)),
        ("R5", record(1, b"a").repeat(100_000)),
        ("R2", vec![0; 1_000_000]),
    ];
    for (fault, roster) in rosters {
        let expected = format!("roster {fault}\n");
        assert_eq!(folder.bill(&roster, &ping()), expected, "{}", roster.len());
    }
    let bill = folder.bill(&longest, &ping());
    assert!(bill.contains(&format!("\nline 7 {} 0\n", "h".repeat(64))));
}

// ---- bad lists

#[test]
fn every_bad_list_is_one_line_whatever_the_stream() {
    let folder = folder("bad-list");
    let bad = bad_lists();
    assert!(bad.len() > 200);
    // One in so many with the longer streams too, for the time they take.
    for (place, (title, list)) in bad.iter().enumerate() {
        let bill = folder.bill_with_list(&roster_of(&letters(1)), &ping(), list);
        assert_eq!(bill, "list C6\n", "{title}");
        if place % 40 == 0 {
            for stream in [vec![], vec![0xFF; 2 * LONGEST_CHUNK + 1]] {
                let bill = folder.bill_with_list(&[], &stream, list);
                assert_eq!(bill, "list C6\n", "{title}");
            }
        }
    }
}

#[test]
fn a_list_of_0_1_and_64_pairs_is_good_and_one_of_65_is_not() {
    let folder = folder("pairs");
    for count in [0, 1, 64] {
        let bill = folder.bill_with_list(&[], &ping(), &list_of(&pairs(count)));
        assert!(bill.starts_with("taken 28\n"), "{count}");
    }
    let bill = folder.bill_with_list(&[], &ping(), &list_of(&pairs(65)));
    assert_eq!(bill, "list C6\n");
}

/// A list that is good has 40,832 bytes at most.
#[test]
fn a_list_file_longer_than_any_good_one_is_bad() {
    let folder = folder("long-list");
    let longest = longest_list();
    assert_eq!(longest.len(), 40_832);
    let bill = folder.bill_with_list(&[], &ping(), &longest);
    assert!(bill.starts_with("taken 28\n"));
    let name = record(1, &[b'n'; 0xFFFF]);
    let behind = [vec![0], vec![1], pair(b"~", b"d"), longest.clone(), name];
    for behind in behind {
        let list = [&longest[..], &behind].concat();
        assert_eq!(folder.bill_with_list(&[], &ping(), &list), "list C6\n");
    }
    for list in [vec![0; 1_000_000], pair(b"k", b"d").repeat(100_000)] {
        assert_eq!(folder.bill_with_list(&[], &ping(), &list), "list C6\n");
    }
}

#[test]
fn a_faulty_roster_comes_before_a_bad_list() {
    let folder = folder("roster-first");
    let (_, list) = &bad_lists()[0];
    for (fault, roster) in faulty_rosters() {
        let bill = folder.bill_with_list(&roster, &ping(), list);
        assert_eq!(bill, format!("roster {fault}\n"));
    }
}

#[test]
fn an_unreadable_stream_comes_before_a_bad_list() {
    let folder = folder("stream-first");
    let [roster, ..] = files(&folder);
    let list = folder.file("list", &[1]);
    for bad in [folder.missing(), folder.path().to_path_buf()] {
        assert_eq!(printed(&[&roster, &bad, &list]), NO_FILE);
        assert_eq!(printed(&[&bad, &roster, &list]), NO_FILE);
    }
}

// ---- files that can't be read

/// A good roster, stream and list.
fn files(folder: &Folder) -> [PathBuf; 3] {
    [
        folder.file("roster", &roster_of(&letters(1))),
        folder.file("stream", &ping()),
        folder.file("list", &[]),
    ]
}

#[test]
fn a_file_that_is_missing_or_a_folder_is_no_file() {
    let folder = folder("unreadable");
    let [roster, stream, list] = files(&folder);
    let too_long = folder.path().join("n".repeat(5_000));
    let bad = [
        folder.missing(),
        folder.path().to_path_buf(),
        too_long,
        PathBuf::new(),
    ];
    for bad in &bad {
        assert_eq!(printed(&[bad, &stream, &list]), NO_FILE, "{bad:?}");
        assert_eq!(printed(&[&roster, bad, &list]), NO_FILE, "{bad:?}");
        assert_eq!(printed(&[&roster, &stream, bad]), NO_FILE, "{bad:?}");
        assert_eq!(printed(&[bad, bad, bad]), NO_FILE, "{bad:?}");
    }
    let good = [Some(&[][..]); 3];
    for place in 0..3 {
        let mut files = good;
        files[place] = None;
        assert_eq!(bill(files[0], files[1], files[2]), NO_FILE);
    }
}

#[test]
fn a_missing_argument_is_no_file() {
    let folder = folder("arguments");
    let files = files(&folder);
    assert_ne!(printed(&files), NO_FILE);
    assert_eq!(printed(&files[..2]), NO_FILE);
    assert_eq!(printed(&files[..1]), NO_FILE);
    assert_eq!(printed(&[] as &[&str]), NO_FILE);
}

#[test]
fn an_unreadable_stream_or_list_comes_before_a_faulty_roster() {
    let folder = folder("order");
    for (fault, roster) in faulty_rosters() {
        let [_, stream, list] = files(&folder);
        let roster = folder.file("roster", &roster);
        for bad in [folder.missing(), folder.path().to_path_buf()] {
            assert_eq!(printed(&[&roster, &bad, &list]), NO_FILE, "{fault}");
            assert_eq!(printed(&[&roster, &stream, &bad]), NO_FILE, "{fault}");
        }
        assert_eq!(printed(&[&roster, &stream]), NO_FILE, "{fault}");
        assert_eq!(printed(&[&roster]), NO_FILE, "{fault}");
        assert_eq!(
            printed(&[&roster, &stream, &list]),
            format!("roster {fault}\n").as_bytes()
        );
    }
}

/// Nearly as long as a path may be.
#[test]
fn a_long_path_is_read() {
    let folder = folder("path");
    let files = files(&folder);
    let long = |path: &Path| {
        let missing = 4_000 - path.as_os_str().len();
        let name = path.file_name().expect("a name");
        folder.path().join("./".repeat(missing / 2)).join(name)
    };
    let expected = bill(Some(&roster_of(&letters(1))), Some(&ping()), Some(&[]));
    assert_eq!(printed(&files.map(|path| long(&path))), expected);
}
