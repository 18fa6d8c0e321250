//! The proved program `bill ROSTER STREAM LIST` against the reference's bill: document 01, "The bill";
//! document 02, "Keys we ship" and "Use per key".

use razidkot::LONGEST_CHUNK;
use razidkot_tests::ask::{
    import_body, name_body, registry_of, request, DESTROY, EXPORT, IMPORT, PING,
};
use razidkot_tests::bill::{letters, ping, printed, printed_from_pipe, roster_of, text, Folder};
use razidkot_tests::generate::{importable_key, mutated, name, some_roster, Random};
use razidkot_tests::layout::{Key, Place, LINES, SLOTS};
use razidkot_tests::lists::{list_of, longest_list, pair, pairs};
use razidkot_tests::requests::{applications, filling, requests, with_lengths};
use razidkot_tests::run::{for_seeds, shortest, Outcomes};
use razidkot_tests::shipped::{self, some_list};
use reference::{bill, Status, REGISTRY_SIZE};
use std::path::{Path, PathBuf};

fn folder(test: &str) -> Folder {
    Folder::new(env!("CARGO_TARGET_TMPDIR"), test)
}

// ---- the samples

#[test]
fn the_samples_have_the_bills_beside_them() {
    let samples = Path::new(env!("CARGO_MANIFEST_DIR")).join("../samples");
    let roster = samples.join("servers.roster");
    let list = samples.join("servers.list");
    for name in ["day", "closed", "shipped"] {
        let stream = samples.join(format!("{name}.stream"));
        let expected =
            std::fs::read(samples.join(format!("{name}.bill"))).expect("a sample's bill");
        let printed = printed(&[roster.clone(), stream, list.clone()]);
        assert_eq!(text(printed), text(expected));
    }
}

// ---- generated files

/// A roster and a list, each good more often than not, and what the applications may send.
struct Files {
    roster: Vec<u8>,
    list: Vec<u8>,
    requests: Vec<Vec<u8>>,
}

fn some_files(random: &mut Random) -> Files {
    let roster = match random.below(5) {
        0 => some_roster(random),
        1 => {
            let roster = some_roster(random);
            mutated(random, roster)
        }
        _ => good_roster(random),
    };
    let mut registry = vec![0; REGISTRY_SIZE];
    if reference::load_roster(&roster, &mut registry).is_err() {
        registry = registry_of(&[]);
    }
    // With fewer names listed, lines come to be full.
    let mut list = match random.below(3) {
        0 => some_list(random, Vec::new()),
        _ => list_of(&pairs(random.below(3))),
    };
    if random.once_in(6) {
        shipped::damage(random, &mut list);
    }
    let applications = applications(&registry);
    let mut requests = requests(random, &applications, 45);
    if random.once_in(4) {
        let application = random.below(applications.len());
        requests.splice(..0, filling(random, &applications[application]));
    }
    Files {
        roster,
        list,
        requests,
    }
}

fn good_roster(random: &mut Random) -> Vec<u8> {
    let count = random.below(9);
    let names: Vec<_> = (0..count)
        .map(|number| {
            let length = random.pick(&[1, 2, 17, 63, 64]);
            name(random, number, length)
        })
        .collect();
    roster_of(&names)
}

/// Compares on these files; failing ones are shown with the fewest requests that still fail.
fn assert_same_bill(folder: &Folder, files: &Files) {
    let (roster, list) = (&files.roster, &files.list);
    let expected = |stream: &[u8]| bill(Some(roster), Some(stream), Some(list));
    let differs = |requests: &[Vec<u8>]| {
        let stream = requests.concat();
        folder.printed(roster, &stream, list) != expected(&stream)
    };
    if differs(&files.requests) {
        let stream = shortest(&files.requests, differs).concat();
        let printed = folder.printed(roster, &stream, list);
        let printed = String::from_utf8_lossy(&printed).into_owned();
        let expected = text(expected(&stream));
        panic!(
            "printed\n{printed}expected\n{expected}roster {roster:02X?}\nstream {stream:02X?}\n\
             list {list:02X?}"
        );
    }
}

/// Counts a refused roster or list by its line, and a bill by those of its lines that vary.
fn count_lines(outcomes: &mut Outcomes, bill: &str) {
    for line in bill.lines() {
        let words: Vec<_> = line.split(' ').collect();
        match words[..] {
            ["taken", _] => outcomes.count("good"),
            ["roster" | "list", _] => outcomes.count(line),
            ["refused", status, _] => outcomes.count(format!("refused {status}")),
            ["line", number, _, served] if served != "0" => {
                outcomes.count(format!("line {number}"))
            }
            ["key", _, slot, "0"] => outcomes.count(format!("key {slot}")),
            ["key", ..] => outcomes.count("key used"),
            [word, count] if count != "0" => outcomes.count(word),
            _ => {}
        }
    }
}

#[test]
fn generated_files_are_billed_alike() {
    let folder = folder("generated");
    let mut outcomes = Outcomes::default();
    for_seeds(900, |random| {
        let files = some_files(random);
        assert_same_bill(&folder, &files);
        let stream = files.requests.concat();
        let bill = bill(Some(&files.roster), Some(&stream), Some(&files.list));
        count_lines(&mut outcomes, &text(bill));
    });
    let others = ["good", "open", "dropped", "held", "list C6", "key used"];
    outcomes.assert_often(&others, 20);
    outcomes.assert_often(
        &(1..=5)
            .map(|fault| format!("roster R{fault}"))
            .collect::<Vec<_>>(),
        5,
    );
    outcomes.assert_often(
        &(0..8)
            .map(|line| format!("line {line}"))
            .collect::<Vec<_>>(),
        5,
    );
    let refused = Status::REFUSED.map(|status| format!("refused {}", status.number()));
    outcomes.assert_often(&refused, 5);
    let keys: Vec<_> = (0..SLOTS).map(|slot| format!("key {slot}")).collect();
    outcomes.assert_often(&keys, 5);
}

#[test]
fn any_bytes_as_files_are_billed_alike() {
    let folder = folder("any");
    for_seeds(100, |random| {
        let lengths = [random.below(12), random.below(200)];
        let roster: Vec<u8> = (0..lengths[0])
            .map(|_| random.pick(b"\x01\x01\x00\x00a\x02"))
            .collect();
        let stream = random.bytes(lengths[1]);
        let list: Vec<u8> = (0..random.below(12))
            .map(|_| random.pick(b"\x01\x01\x00\x00a\x02"))
            .collect();
        folder.bill_with_list(&roster, &stream, &list);
    });
}

// ---- the worked examples, and empty files

#[test]
fn the_worked_examples_are_billed_as_document_01_has_them() {
    let folder = folder("worked");
    let stream = request(PING, Some(b"b"), &[]);
    let expected = "taken 29\nline 0 b 1\nopen 0\ndropped 0\nheld 0\n";
    assert_eq!(folder.bill(b"\x01\x01\x00b", &stream), expected);
    let stream = [ping(), vec![0xFF; 6]].concat();
    let expected = "taken 34\nopen 1\nrefused 17 1\ndropped 0\nheld 0\n";
    assert_eq!(folder.bill(b"", &stream), expected);
}

/// Two files that are good rosters and one that is a good list, and any bytes are a stream: each order
/// has a bill of its own.
#[test]
fn the_arguments_are_roster_stream_and_list_in_this_order() {
    let folder = folder("order-of-arguments");
    let bytes = [
        roster_of(&letters(1)),
        roster_of(&letters(3)),
        pair(b"k", b"data"),
    ];
    let names = ["one", "two", "three"];
    let files: [_; 3] = std::array::from_fn(|place| folder.file(names[place], &bytes[place]));
    let orders = [
        [0, 1, 2],
        [1, 0, 2],
        [0, 2, 1],
        [1, 2, 0],
        [2, 0, 1],
        [2, 1, 0],
    ];
    let bills = orders.map(|order| {
        let [roster, stream, list] = order.map(|place| Some(&bytes[place][..]));
        let expected = text(bill(roster, stream, list));
        assert_eq!(text(printed(&order.map(|place| &files[place]))), expected);
        expected
    });
    assert_ne!(bills[0], bills[1]);
    assert_eq!(bills[2..4], ["list C6\n"; 2]);
    assert_eq!(bills[4..6], ["roster R2\n"; 2]);
}

#[test]
fn a_stream_is_billed_with_the_keys_of_the_list() {
    let folder = folder("listed");
    let requests = [EXPORT, DESTROY].map(|opcode| request(opcode, Some(b"b"), &name_body(b"k")));
    let import = import_body(&Key {
        name: b"k".to_vec(),
        ..importable_key(&mut Random::new(1), 0)
    });
    let stream = [requests.concat(), request(IMPORT, Some(b"b"), &import)].concat();
    let bill_with = |list: &[u8]| folder.bill_with_list(b"\x01\x01\x00b", &stream, list);
    let refused = "\nline 0 b 1\nopen 0\nrefused 1133 1\nrefused 1139 1\ndropped";
    assert!(bill_with(&pair(b"k", b"data")).contains(refused));
    let served = "\nline 0 b 1\nkey 0 0 0\nopen 0\nrefused 1140 2\ndropped";
    assert!(bill_with(&longest_list()).contains(served));
}

#[test]
fn empty_files_are_a_roster_of_none_and_a_stream_of_nothing() {
    let folder = folder("empty");
    let nothing = "taken 0\nopen 0\ndropped 0\nheld 0\n";
    assert_eq!(folder.bill(b"", b""), nothing);
    let expected = "taken 28\nopen 1\ndropped 0\nheld 0\n";
    assert_eq!(folder.bill(b"", &ping()), expected);
    let expected = "taken 0\nline 0 a 0\nline 1 b 0\nopen 0\ndropped 0\nheld 0\n";
    assert_eq!(folder.bill(&roster_of(&letters(2)), b""), expected);
    assert_eq!(folder.bill(b"\x01", b""), "roster R1\n");
}

#[test]
fn a_stream_cut_anywhere_is_held_to_its_end() {
    let folder = folder("cut");
    let roster = roster_of(&letters(1));
    let whole = request(PING, Some(b"a"), &[]);
    let oversized = with_lengths(&whole, 4_097, 257);
    for request in [whole, oversized] {
        let around_lengths = [0, 1, 5, 6, 7, 27, 28, request.len() - 1];
        for cut in around_lengths {
            let stream = [ping(), request[..cut].to_vec()].concat();
            let bill = folder.bill(&roster, &stream);
            assert!(bill.ends_with(&format!("\nheld {cut}\n")), "{bill}");
        }
        assert!(folder.bill(&roster, &request).ends_with("\nheld 0\n"));
    }
}

// ---- keys

/// Slots are filled in another order than the bill has them, and a free one has no line. A listed key
/// has none, whoever uses it.
#[test]
fn key_lines_stand_behind_all_roster_lines_by_line_and_then_slot() {
    let folder = folder("keys");
    let key = |name: &[u8]| Key {
        name: name.to_vec(),
        export_allowed: true,
        ..importable_key(&mut Random::new(0), 0)
    };
    let import =
        |application: &[u8], name| request(IMPORT, Some(application), &import_body(&key(name)));
    let export = |application: &[u8], name| request(EXPORT, Some(application), &name_body(name));
    let destroy = |application: &[u8], name| request(DESTROY, Some(application), &name_body(name));
    let mut stream = [b"s", b"t", b"u", b"v"]
        .map(|name| import(b"b", name))
        .concat();
    stream.extend([b"s", b"t"].map(|name| import(b"a", name)).concat());
    stream.extend(export(b"b", b"v").repeat(12));
    stream.extend(export(b"a", b"t"));
    stream.extend([export(b"b", b"t"), destroy(b"b", b"t"), destroy(b"a", b"s")].concat());
    stream.extend([export(b"a", b"listed"), export(b"b", b"t")].concat());
    let bill = folder.bill_with_list(&roster_of(&letters(2)), &stream, &pair(b"listed", b"data"));
    let expected =
        "\nline 0 a 5\nline 1 b 18\nkey 0 1 1\nkey 1 0 0\nkey 1 2 0\nkey 1 3 12\nopen 0\n";
    assert!(bill.contains(expected), "{bill}");
}

/// Each key is used as often as its number in the bill says.
#[test]
fn all_64_keys_of_eight_applications_are_billed() {
    let folder = folder("all-keys");
    let names = letters(LINES as u8);
    let mut stream = Vec::new();
    for (line, application) in names.iter().enumerate() {
        for slot in 0..SLOTS {
            let key = Key {
                name: vec![b'a' + slot as u8],
                export_allowed: true,
                ..importable_key(&mut Random::new(0), 0)
            };
            stream.extend(request(IMPORT, Some(application), &import_body(&key)));
            let export = request(EXPORT, Some(application), &name_body(&key.name));
            stream.extend(export.repeat(line * SLOTS + slot));
        }
    }
    let bill = folder.bill(&roster_of(&names), &stream);
    let keys: Vec<_> = bill
        .lines()
        .filter(|line| line.starts_with("key "))
        .collect();
    let expected: Vec<_> = Place::all()
        .map(|Place { line, slot }| format!("key {line} {slot} {}", line * SLOTS + slot))
        .collect();
    assert_eq!(keys, expected);
}

// ---- long streams

/// Ends of a long stream: none, an unfinished request, one that is skipped, a bad start.
fn long_streams() -> Vec<(&'static str, Vec<u8>)> {
    // 29 bytes each, so that requests lie across chunks in every way.
    let pings = request(PING, Some(b"a"), &[]).repeat(12 * LONGEST_CHUNK / 29);
    let oversized = with_lengths(&ping(), 10 * LONGEST_CHUNK, 300);
    let behind = |rest: &[u8]| [&pings[..], rest].concat();
    vec![
        ("dropped 0\nheld 0\n", pings.clone()),
        ("dropped 0\nheld 27\n", behind(&ping()[..27])),
        ("dropped 0\nheld 0\n", behind(&oversized)),
        (
            "dropped 0\nheld 655687\n",
            behind(&oversized[..oversized.len() - 1]),
        ),
        (
            "dropped 786422\nheld 0\n",
            behind(&[&[0; 6], &pings[..]].concat()),
        ),
    ]
}

#[test]
fn streams_of_more_than_ten_chunks_are_billed_alike() {
    let folder = folder("long-stream");
    let roster = roster_of(&letters(2));
    for (end, stream) in long_streams() {
        assert!(stream.len() > 10 * LONGEST_CHUNK);
        let bill = folder.bill(&roster, &stream);
        assert!(bill.ends_with(end), "{bill}");
        assert!(bill.contains("\nline 0 a 27118\n"), "{bill}");
    }
}

/// A pipe gives a few bytes at a time, and its reader the more turns.
#[test]
fn a_file_that_comes_a_few_bytes_at_a_time_is_read_to_its_end() {
    let folder = folder("pipe");
    let roster = roster_of(&letters(8));
    let stream = request(PING, Some(b"a"), &[]).repeat(200);
    let list = list_of(&pairs(5));
    let expected = text(bill(Some(&roster), Some(&stream), Some(&list)));
    let bytes = [&roster, &stream, &list];
    let names = ["roster", "stream", "list"];
    let files: [_; 3] = std::array::from_fn(|place| folder.file(names[place], bytes[place]));
    for place in 0..3 {
        let mut arguments = files.each_ref().map(PathBuf::as_path);
        arguments[place] = Path::new("/dev/stdin");
        let printed = printed_from_pipe(&arguments, bytes[place]);
        assert_eq!(text(printed), expected, "{}", names[place]);
    }
}
