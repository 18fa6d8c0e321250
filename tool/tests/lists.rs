//! `list make` and `list show`, and `capture show` with a list.

mod common;

use common::keys::{Forms, Signed, DER, PEM};
use common::{folder, free, razidkot, sample, series};
use razidkot::{List, LONGEST_LIST, MOST_LISTED_KEYS};
use razidkot_tests::ask::{name_body, record, request, DESTROY, EXPORT, VERIFY};
use razidkot_tests::bill::{printed, text, Folder};
use razidkot_tests::generate::mutated;
use razidkot_tests::run::{for_seeds, Outcomes};
use razidkot_tests::signatures::verify_body;
use std::ffi::{OsStr, OsString};
use std::fs;
use std::path::{Path, PathBuf};

/// A list of these names and data.
fn bytes_of(keys: &[(&str, &[u8])]) -> Vec<u8> {
    let pair =
        |(name, data): &(&str, &[u8])| [record(1, name.as_bytes()), record(2, data)].concat();
    keys.iter().flat_map(pair).collect()
}

/// The words of `list make`, with a file to be made.
fn make(keys: &[(&str, &Path)], file: Option<&Path>) -> Vec<OsString> {
    let mut words: Vec<OsString> = ["list", "make"].map(OsString::from).into();
    if let Some(file) = file {
        words.extend(["-o".into(), file.into()]);
    }
    words.push("--".into());
    for (name, file) in keys {
        words.extend([name.into(), OsString::from(file)]);
    }
    words
}

fn show(file: &Path) -> String {
    razidkot(words!["list", "show", file]).text()
}

#[test]
fn the_keys_that_are_made_are_shown() {
    let folder = folder("made_list");
    let files = [
        folder.file("a", b"a"),
        folder.file("600", &[0xD0; 600]),
        folder.file("key", &DER),
    ];
    let longest = "~".repeat(32);
    let keys: [(&str, &Path); 4] = [
        ("-o", &files[0]),
        ("!\"#$%&'()*+,", &files[1]),
        (&longest, &files[2]),
        ("\\", &files[2]),
    ];
    let data: [&[u8]; 4] = [b"a", &[0xD0; 600], &DER, &DER];
    let lines = [
        "-o 1 bytes, no RSA public key\n",
        "!\"#$%&'()*+, 600 bytes, no RSA public key\n",
        &format!("{longest} 270 bytes, RSA public key of 2048 bits\n"),
        "\\ 270 bytes, RSA public key of 2048 bits\n",
    ];
    for count in 0..=4 {
        let expected: Vec<_> = keys.iter().map(|key| key.0).zip(data).take(count).collect();
        let (keys, expected) = (&keys[..count], bytes_of(&expected));
        let file = free(&folder, "made");
        assert_eq!(razidkot(&make(keys, Some(&file))).printed(), b"");
        assert_eq!(fs::read(&file).expect("a list"), expected);
        assert_eq!(razidkot(&make(keys, None)).printed(), expected);
        assert_eq!(show(&file), lines[..count].concat());
    }
}

#[test]
fn the_key_of_each_form_is_listed_as_der() {
    let folder = folder("listed_forms");
    let fixed = Forms::fixed();
    let made = Forms::made(&folder, 2_048);
    for forms in [Some(fixed), made].into_iter().flatten() {
        for (name, bytes) in forms.files() {
            let file = folder.file(name, bytes);
            let list = razidkot(&make(&[("key", &file)], None)).printed();
            assert_eq!(list, bytes_of(&[("key", &forms.der)]), "{name}");
        }
    }
}

#[test]
fn the_samples_list_is_shown() {
    let expected = "release-2026 398 bytes, RSA public key of 3072 bits\n\
                    release-2027 270 bytes, RSA public key of 2048 bits\n\
                    leaflet 6 bytes, no RSA public key\n\
                    odd 140 bytes, RSA public key of 1028 bits\n";
    assert_eq!(show(&sample("servers.list")), expected);
}

/// 64 keys, the longest of all lists, and one more.
#[test]
fn a_65th_key_is_not_listed() {
    let folder = folder("full_list");
    let file = folder.file("600", &[7; 600]);
    let names: Vec<_> = (10..75).map(|n| format!("{n}{}", "n".repeat(30))).collect();
    let keys: Vec<_> = names
        .iter()
        .map(|name| (&name[..], file.as_path()))
        .collect();
    let list = razidkot(&make(&keys[..MOST_LISTED_KEYS], None)).printed();
    assert_eq!(list.len(), LONGEST_LIST);
    assert_eq!(show(&folder.file("list", &list)).lines().count(), 64);
    let said = format!("\"{}\" {}: list C6: a 65th key", names[64], file.display());
    razidkot(&make(&keys, None)).assert_failed(&said);
}

const BAD_NAME: &str = "list C6: a name not of 1 to 32 bytes, each 0x21 to 0x7E";
const BAD_DATA: &str = "list C6: data not of 1 to 600 bytes";

#[test]
fn a_list_that_the_service_would_refuse_is_not_made() {
    let folder = folder("no_list");
    let [good, empty, long, longer] = [
        folder.file("good", b"data"),
        folder.file("empty", b""),
        folder.file("long", &[0; 601]),
        folder.file("longer", &[0; 70_000]),
    ];
    let name = "n".repeat(33);
    let said = |name: &str, file: &Path, why: &str| format!("\"{name}\" {}: {why}", file.display());
    let cases: [(&[(&str, &Path)], String); 8] = [
        (&[("a", &good), ("", &good)], said("", &good, BAD_NAME)),
        (&[("b c", &good)], said("b c", &good, BAD_NAME)),
        (&[("é", &good)], said("\\xc3\\xa9", &good, BAD_NAME)),
        (&[(&name, &good)], said(&name, &good, BAD_NAME)),
        (&[("a", &empty)], said("a", &empty, BAD_DATA)),
        (&[("a", &long), ("", &good)], said("a", &long, BAD_DATA)),
        (&[("a", &longer)], said("a", &longer, BAD_DATA)),
        (
            &[("a", &good), ("b", &good), ("a", &good)],
            said("a", &good, "list C6: a name seen before"),
        ),
    ];
    for (keys, said) in cases {
        let file = free(&folder, "made");
        razidkot(&make(keys, Some(&file))).assert_failed(&said);
        assert!(!file.exists(), "{keys:?}");
    }
}

#[test]
fn a_key_file_that_will_not_do_is_named() {
    let folder = folder("no_key_file");
    let private = PEM.replace("RSA PUBLIC", "RSA PRIVATE");
    let private = folder.file("private.pem", private.as_bytes());
    let label = "PEM of RSA PRIVATE KEY, not of RSA PUBLIC KEY or PUBLIC KEY";
    for (file, why) in [
        (private, label),
        (folder.missing(), "No such file or directory (os error 2)"),
        (folder.path().to_path_buf(), "Is a directory (os error 21)"),
    ] {
        let said = format!("{}: {why}", file.display());
        razidkot(&make(&[("k", &file)], None)).assert_failed(&said);
    }
}

#[test]
fn a_faulty_file_is_named_with_its_fault() {
    let folder = folder("faulty_list");
    let twice = bytes_of(&[("k", b"d"), ("k", b"e")]);
    let cases: [(&[u8], &str); 9] = [
        (b"\x01\x02", "list C6: a record is cut"),
        (b"\x01\x02\x00k", "list C6: a record is cut"),
        (
            b"\x02\x01\x00d",
            "list C6: a tag other than 1 where a name should be",
        ),
        (
            b"\x01\x01\x00k\x01\x01\x00l",
            "list C6: a tag other than 2 where data should be",
        ),
        (b"\x01\x01\x00 \x02\x01\x00d", BAD_NAME),
        (b"\x01\x01\x00k\x02\x00\x00", BAD_DATA),
        (&twice, "list C6: a name seen before"),
        (b"\x01\x01\x00k", "list C6: a name without data"),
        (b"\x01\x01\x00k\x02\x01\x00d\0", "list C6: a record is cut"),
    ];
    for (bytes, fault) in cases {
        let file = folder.file("faulty.list", bytes);
        let said = format!("{}: {fault}", file.display());
        razidkot(words!["list", "show", file]).assert_failed(&said);
    }
}

#[test]
fn any_file_is_shown_or_refused_as_the_reference_does() {
    let folder = folder("any_list");
    let whole = bytes_of(&[("k", b"d"), ("key-2", &[7; 600]), (&"~".repeat(32), b"e")]);
    let two: [(&str, &[u8]); 2] = [("k", b"d"), ("l", b"e")];
    let mut outcomes = Outcomes::default();
    for_seeds(300, |random| {
        let list = match random.below(3) {
            0 => whole[..random.below(whole.len() + 1)].to_vec(),
            1 => mutated(random, whole.clone()),
            _ => bytes_of(&two[..random.below(3)]),
        };
        let ended = razidkot(words!["list", "show", folder.file("any.list", &list)]);
        let is_good = reference::list_is_well_formed(&list);
        outcomes.count(is_good);
        if is_good {
            let keys = List::from_bytes(&list).expect("a good list").keys().count();
            assert_eq!(ended.text().lines().count(), keys);
        } else {
            assert!((ended.status, &ended.out[..]) == (1, b""), "{ended:?}");
            assert!(ended.err.contains("any.list: list C6: "), "{ended:?}");
        }
    });
    outcomes.assert_often(&[true, false], 30);
}

// ---- captures

/// The statuses that `capture show` shows.
fn statuses(words: &[&OsStr]) -> Vec<u16> {
    let shown = razidkot(words).text();
    let rows = shown.lines().skip(1);
    let status = |row: &str| {
        row.split_whitespace()
            .nth(2)
            .and_then(|word| word.parse().ok())
    };
    rows.map(|row| status(row).expect("a status")).collect()
}

/// `scanner` on a roster of its own, a stream of an export and a destroy, and a list with the key.
fn files(folder: &Folder) -> [PathBuf; 3] {
    let body = name_body(b"k");
    let stream = [EXPORT, DESTROY].map(|opcode| request(opcode, Some(b"scanner"), &body));
    [
        folder.file("stream", &stream.concat()),
        folder.file("roster", &record(1, b"scanner")),
        folder.file("list", &bytes_of(&[("k", b"data")])),
    ]
}

#[test]
fn a_capture_is_shown_with_the_keys_of_the_list() {
    let [stream, roster, list] = files(&folder("capture_list"));
    let show = words!["capture", "show", stream, "--roster", roster];
    assert_eq!(statuses(show), [1_140, 1_140]);
    let with_list = [show, words!["--list", list]].concat();
    assert_eq!(statuses(&with_list), [0, 1_133]);
}

#[test]
fn a_capture_of_the_samples_list_adds_up_to_its_bill() {
    let [roster, stream, list] = ["servers.roster", "shipped.stream", "servers.list"].map(sample);
    let show = words!["capture", "show", stream, "--roster", roster, "--list", list];
    let statuses = statuses(show);
    let bill = text(printed(&[roster, stream, list]));
    let refused = |status: u16| statuses.iter().filter(|&&other| other == status).count();
    for status in [19, 1_133, 1_134, 1_135, 1_139, 1_140, 1_149] {
        let line = format!("\nrefused {status} {}\n", refused(status));
        assert!(bill.contains(&line), "{line}");
    }
    assert_eq!(
        bill,
        fs::read_to_string(sample("shipped.bill")).expect("a bill")
    );
}

#[test]
fn a_list_that_is_missing_or_faulty_is_named() {
    let folder = folder("capture_no_list");
    let [stream, roster, _] = files(&folder);
    let faulty = folder.file("faulty", b"\x01");
    for (list, why) in [
        (folder.missing(), "No such file or directory (os error 2)"),
        (faulty, "list C6: a record is cut"),
    ] {
        let show = words!["capture", "show", stream, "--roster", roster, "--list", list];
        razidkot(show).assert_failed(&format!("{}: {why}", list.display()));
    }
}

#[test]
fn a_signature_is_checked_with_a_key_that_was_listed() {
    let folder = folder("listed_signature");
    let fixed = Some((series::DATA.to_vec(), series::SIGNATURE.to_vec()));
    let made = Signed::made(&folder, 2_048).map(|made| (made.key, made.signature));
    for (key, signature) in [fixed, made].into_iter().flatten() {
        let body = verify_body(b"release", series::HASH, &signature);
        let stream = request(VERIFY, Some(b"scanner"), &body);
        let [stream, key] = [folder.file("stream", &stream), folder.file("key.der", &key)];
        let list = folder.path().join("list");
        assert_eq!(
            razidkot(&make(&[("release", &key)], Some(&list))).printed(),
            b""
        );
        let roster = folder.file("roster", &record(1, b"scanner"));
        let show = words!["capture", "show", stream, "--roster", roster, "--list", list];
        assert_eq!(statuses(show), [0]);
    }
}
