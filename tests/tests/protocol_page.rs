//! docs/PROTOCOL.md: each of its worked examples holds of the compiled service and the compiled
//! client, and its tables are those of the headers, the Rust enums and the compiled code.

mod page;

use page::digits::one_digit_off;
use page::drafts::drafts;
use page::labels::{header_fields, provider_text, Field, Headers};
use page::play::{play, Setting};
use page::text::{examples, number, page, repository_file, table, Example};
use razidkot::{Connection, List, NoJournal, Refusal, Registry, RosterFault, Service, Status};
use razidkot::{LONGEST_LIST, MOST_LISTED_KEYS};
use razidkot_client::{Opcode, Provider, ReadRefusal, WriteRefusal};
use razidkot_tests::ask::{request, PING};
use razidkot_tests::foreign;
use razidkot_tests::layout::SLOTS;
use razidkot_tests::requests::with_lengths;
use razidkot_tests::service::send;
use std::collections::{BTreeMap, BTreeSet};
use std::fmt::Debug;

/// How many examples the page has. It says so itself, and none may get lost.
const EXAMPLES: usize = 31;
const ROSTER: &str = "The roster of all examples";

// ---- The examples

fn all_examples(page: &str) -> Vec<Example> {
    examples(page).unwrap_or_else(|fault| panic!("{fault}"))
}

/// The roster that examples without one of their own have.
fn roster(examples: &[Example]) -> Vec<u8> {
    let example = examples.iter().find(|example| example.title == ROSTER);
    let lines = &example.expect("the example with the roster").lines[1..];
    let bytes = |line: &String| page::text::line_of(line.trim_start()).expect("bytes").bytes;
    lines.iter().flat_map(bytes).collect()
}

fn setting(page: &str, cut: usize) -> Setting {
    Setting {
        headers: Headers::of(page),
        roster: roster(&all_examples(page)),
        cut,
    }
}

#[test]
fn every_example_holds_in_every_cut() {
    let page = page();
    for cut in [usize::MAX, 1, 2, 3, 5, 7, 26, 28, 4_096] {
        let setting = setting(&page, cut);
        for example in all_examples(&page) {
            let played = play(&example, &setting);
            played.unwrap_or_else(|fault| panic!("in chunks of {cut}: {fault}"));
        }
    }
}

#[test]
fn the_page_has_as_many_examples_as_it_says() {
    let page = page();
    let examples = all_examples(&page);
    let titles: BTreeSet<&str> = examples.iter().map(|one| one.title.as_str()).collect();
    assert_eq!(titles.len(), EXAMPLES, "each with a title of its own");
    assert_eq!(examples.len(), EXAMPLES);
    let says = format!("runs each of the {EXAMPLES} examples of this page");
    assert!(page.replace('\n', " ").contains(&says), "{says}");
}

fn names<T: Debug>(what: &str, cases: &[T]) -> Vec<String> {
    let name = |case| format!("{what} {case:?}");
    cases.iter().map(name).collect()
}

#[test]
fn every_status_operation_fault_and_refusal_has_an_example() {
    let page = page();
    let setting = setting(&page, usize::MAX);
    let mut shown = BTreeSet::new();
    for example in all_examples(&page) {
        shown.extend(play(&example, &setting).expect("an example that holds"));
    }
    let statuses = [&[Status::Success][..], &Status::REFUSED].concat();
    // R0 is no fault of a file.
    let faults = &RosterFault::ALL[1..];
    let all = [
        statuses
            .iter()
            .map(|case| format!("status {}", case.number()))
            .collect(),
        Opcode::ALL
            .iter()
            .map(|case| format!("served {}", case.number()))
            .collect(),
        faults
            .iter()
            .map(|case| format!("fault R{}", case.number()))
            .collect(),
        // Of the calls' refusals the list's alone shows in what is on the page.
        vec![format!("call C{}", Refusal::ListIllFormed.number())],
        names("write", &WriteRefusal::ALL),
        names("read", &ReadRefusal::ALL),
    ];
    let all: BTreeSet<String> = all.into_iter().flatten().collect();
    assert_eq!(shown, all);
}

// ---- An example can't be wrong by a digit

#[test]
fn an_example_that_is_one_digit_off_does_not_hold() {
    let page = page();
    let setting = setting(&page, usize::MAX);
    let mut tried = 0;
    for example in all_examples(&page) {
        play(&example, &setting).expect("an example that holds");
        for other in one_digit_off(&example) {
            let held = play(&other, &setting).is_ok();
            assert!(!held, "it holds all the same:\n{}", other.lines.join("\n"));
            tried += 1;
        }
    }
    // The page has some 7,800 such digits: far fewer would say that they were not found.
    assert!(tried > 5_000, "{tried} digits");
}

#[test]
fn an_example_that_lacks_a_line_does_not_hold() {
    let page = page();
    let setting = setting(&page, usize::MAX);
    for example in all_examples(&page) {
        for at in 0..example.lines.len() {
            let line = &example.lines[at];
            let needed = line.starts_with("service answers") || line.starts_with("client reads");
            let mut other = example.clone();
            other.lines.remove(at);
            assert!(
                !needed || play(&other, &setting).is_err(),
                "{}: {line}",
                example.title
            );
        }
    }
}

#[test]
fn a_block_that_is_no_example_is_a_fault() {
    assert!(examples("```example A\nsent\n```\n").is_ok());
    assert!(examples("```exampel A\nsent\n```\n").is_err());
    assert!(examples("```example A\nsent\n").is_err());
}

// ---- The headers

/// The fields lie one behind the other, and end here.
fn assert_tiles(fields: &[Field], length: usize) {
    let end = fields.iter().fold(0, |end, field| {
        assert_eq!(field.at, end, "{}", field.name);
        field.at + field.size
    });
    assert_eq!(end, length);
}

/// The names of what the compiled reader gives, in its order.
const READ: [&str; 11] = [
    "header size",
    "major",
    "minor",
    "provider",
    "session",
    "content type",
    "accept type",
    "auth type",
    "content length",
    "auth length",
    "opcode",
];

#[test]
fn the_request_header_is_that_of_the_compiled_reader() {
    let fields = header_fields(&page(), "## The request");
    assert_tiles(&fields, 28);
    let header: Vec<u8> = (1..=28).collect();
    let read = foreign::read_header(&header).expect("a whole header");
    let named: BTreeMap<&str, u64> = READ.into_iter().zip(read).collect();
    let of_page = fields.iter().filter(|field| field.name != "magic");
    let of_page =
        of_page.map(|field| (field.name.as_str(), field.value(&header).expect("28 bytes")));
    assert_eq!(of_page.collect::<BTreeMap<_, _>>(), named);
}

#[test]
fn the_response_header_is_that_of_the_compiled_writer() {
    let fields = header_fields(&page(), "## The response");
    assert_tiles(&fields, 26);
    let header = foreign::response_header(2, 3, 4, 5, 6);
    let written = fields
        .iter()
        .map(|field| (field.name.as_str(), field.value(&header)));
    let expected = [
        ("magic", 0x5EC0_A710),
        ("header size", 20),
        ("major", 1),
        ("minor", 0),
        ("provider", 2),
        ("session", 3),
        ("content type", 1),
        ("content length", 4),
        ("opcode", 5),
        ("status", 6),
    ];
    assert!(written.eq(expected.map(|(name, value)| (name, Some(value)))));
}

// ---- Numbers: the page, the Rust enums and the C headers

/// The numbers that a C header gives names with this beginning.
fn header_numbers(header: &str, beginning: &str) -> BTreeMap<String, u64> {
    let row = |line: &str| {
        let line = line.trim().trim_end_matches(',');
        let (name, value) = match line.strip_prefix("#define ") {
            Some(size) => size.split_once(' ')?,
            None => line.split_once(" = ")?,
        };
        let name = name.strip_prefix(beginning)?;
        Some((name.to_string(), value.parse().ok()?))
    };
    let numbers = repository_file(header).lines().filter_map(row).collect();
    assert_ne!(numbers, BTreeMap::new(), "{header}: {beginning}");
    numbers
}

/// `PsaImportKey` as a C header has it: PSA_IMPORT_KEY.
fn in_capitals(name: &str) -> String {
    let mut capitals = String::new();
    let mut after_small = false;
    for letter in name.chars() {
        if after_small && letter.is_uppercase() {
            capitals.push('_');
        }
        after_small = letter.is_lowercase();
        capitals.push(letter.to_ascii_uppercase());
    }
    capitals
}

/// Number and name of each row.
fn numbered(rows: &[Vec<String>]) -> Vec<(u64, String)> {
    let row = |row: &Vec<String>| (number(&row[0]), row[1].clone());
    rows.iter().map(row).collect()
}

/// Rows of a page's table are the enum's cases, in their order, and the header's numbers.
fn assert_numbers<T: Debug>(
    rows: &[Vec<String>],
    cases: &[T],
    number_of: impl Fn(&T) -> u64,
    header: BTreeMap<String, u64>,
) {
    let rows = numbered(rows);
    let cases: Vec<(u64, String)> = cases
        .iter()
        .map(|case| (number_of(case), format!("{case:?}")))
        .collect();
    assert_eq!(rows, cases);
    let in_header = rows
        .iter()
        .map(|(number, name)| (in_capitals(name), *number));
    assert_eq!(in_header.collect::<BTreeMap<_, _>>(), header);
}

#[test]
fn the_operations_are_those_of_the_enum_and_the_header() {
    let rows = table(
        &page(),
        "## Operations",
        "| Opcode | Name | Provider | Does |",
    );
    let header = header_numbers("include/razidkot_client.h", "RAZIDKOT_CLIENT_OPCODE_");
    assert_numbers(&rows, &Opcode::ALL, |case| case.number().into(), header);
    for (row, opcode) in rows.iter().zip(Opcode::ALL) {
        assert_eq!(row[2], provider_text(opcode.provider().number().into()));
    }
    let providers = header_numbers("include/razidkot_client.h", "RAZIDKOT_CLIENT_PROVIDER_");
    assert_eq!(providers.len(), Provider::ALL.len());
}

#[test]
fn the_statuses_are_those_of_the_enum_and_the_header() {
    let rows = table(&page(), "## Statuses", "| Status | Name | When |");
    let statuses = [&[Status::Success][..], &Status::REFUSED].concat();
    let mut header = header_numbers("include/razidkot_status.h", "RAZIDKOT_");
    header.retain(|name, _| !name.starts_with("VERSION_"));
    assert_numbers(&rows, &statuses, |case| case.number().into(), header);
}

#[test]
fn the_clients_refusals_are_those_of_the_enums_and_the_header() {
    let page = page();
    let rows = table(&page, "## The client", "| Code | Name | When |");
    let mut header = header_numbers("include/razidkot_client.h", "RAZIDKOT_CLIENT_WRITE_");
    assert_eq!(header.remove("WRITTEN"), Some(0));
    // Said below the table: Rust's types can't say it.
    assert_eq!(header.remove("TYPE_UNLISTED"), Some(8));
    assert_numbers(
        &rows,
        &WriteRefusal::ALL,
        |case| case.number().into(),
        header,
    );

    let rows = table(&page, "## The client", "| Code | Name | At byte | When |");
    let mut header = header_numbers("include/razidkot_client.h", "RAZIDKOT_CLIENT_READ_");
    for (name, code) in [("WAITING", 0), ("RESPONSE", 1), ("STATE_ILL_FORMED", 2)] {
        assert_eq!(header.remove(name), Some(code));
    }
    assert_numbers(
        &rows,
        &ReadRefusal::ALL,
        |case| case.number().into(),
        header,
    );
    // Where it is refused, as the examples have it, which are played.
    for row in rows.iter().take(6) {
        let example = format!("\nclient refuses {}, {} taken\n", row[1], row[2]);
        assert!(page.contains(&example), "{example}");
    }
}

#[test]
fn the_rosters_faults_are_those_of_the_enum_and_the_header() {
    let rows = table(&page(), "## The roster file", "| Fault | When |");
    let faults: Vec<String> = rows.iter().map(|row| row[0].clone()).collect();
    let expected = RosterFault::ALL[1..]
        .iter()
        .map(|case| format!("R{}", case.number()));
    assert_eq!(faults, expected.collect::<Vec<_>>());
    let header = header_numbers("include/razidkot.h", "RAZIDKOT_ROSTER_");
    let codes = header.values().filter(|code| **code > 1);
    assert_eq!(codes.count(), faults.len(), "0 is loaded, 1 is R0");
}

#[test]
fn the_counters_are_those_of_the_header() {
    let rows = table(&page(), "## The counters", "| Counter | Counts |");
    let header = repository_file("include/razidkot.h");
    let struct_end = header.find("} razidkot_counters;").expect("the counters");
    let fields = header[..struct_end].lines().filter_map(|line| {
        let field = line.trim().strip_prefix("uint64_t ")?.strip_suffix(';')?;
        Some(field.split('[').next().unwrap_or(field).to_string())
    });
    assert!(rows.iter().map(|row| row[0].clone()).eq(fields));
}

#[test]
fn the_fields_are_those_of_the_proto_file() {
    let rows = table(&page(), "## Operations", "| Body | Field | Name | Kind |");
    let mut body = String::new();
    let mut fields = Vec::new();
    for line in repository_file("proto/razidkot.proto").lines() {
        if let Some(name) = line.strip_prefix("message ") {
            body = name.trim_end_matches(" {").to_string();
        }
        let Some((kind_and_name, number)) = line.trim_end_matches(';').split_once(" = ") else {
            continue;
        };
        let Some((kind, name)) = kind_and_name
            .strip_prefix("  ")
            .and_then(|text| text.rsplit_once(' '))
        else {
            continue;
        };
        let number = number.trim_end_matches(" [packed = true]").to_string();
        let kind = kind.replace("repeated", "packed");
        fields.push(vec![body.clone(), number, name.to_string(), kind]);
    }
    assert_eq!(rows, fields);
}

// ---- The order of judgement

/// A service of this roster, without shipped keys.
fn service_of(roster: &[u8]) -> Service<NoJournal> {
    let registry = Registry::load(roster).expect("a roster");
    Service::new(registry, List::new(), NoJournal)
}

/// The status of each response to these bytes, on a fresh connection.
fn statuses(service: &mut Service<NoJournal>, bytes: &[u8]) -> Vec<u64> {
    let responses = send(service, &mut Connection::open(), bytes, &[]);
    let status = |response: &Vec<u8>| u16::from_le_bytes([response[24], response[25]]).into();
    responses.iter().map(status).collect()
}

/// A service in which `ct` holds as many keys as it may: `a` and those behind it.
fn full_service() -> Service<NoJournal> {
    let mut service = service_of(b"\x01\x02\0ct");
    for name in (b'a'..).take(SLOTS) {
        let mut import = drafts()[0].bytes();
        import[28 + 2] = name;
        assert_eq!(statuses(&mut service, &import), [0]);
    }
    service
}

fn order_of_judgement() -> Vec<u64> {
    let page = page();
    let rows = table(
        &page,
        "### Order of judgement",
        "| Order | Status | Judged |",
    );
    for (at, row) in rows.iter().enumerate() {
        assert_eq!(number(&row[0]), at as u64 + 1);
    }
    rows.iter().map(|row| number(&row[1])).collect()
}

#[test]
fn the_order_of_judgement_is_that_of_the_compiled_service() {
    let order = order_of_judgement();
    let mut service = full_service();
    for draft in drafts() {
        let first = order.iter().copied().find(|&status| draft.has(status));
        let said = statuses(&mut service, &draft.bytes());
        assert_eq!(said, Vec::from_iter(first), "{draft:?}");
    }
    // Every status of the third step is there, or named below the table.
    let elsewhere = [0, 17, 20, 1133, 1140, 1149];
    let all: BTreeSet<u64> = order.into_iter().chain(elsewhere).collect();
    assert_eq!(all.len(), 1 + Status::REFUSED.len());
}

/// No request has both an auth type above 1 and what 11 is for, so that no answer tells their order.
#[test]
fn the_order_of_judgement_is_that_of_the_definition() {
    let definitions = repository_file("crates/judgement/specs/Judgement.antt");
    let (_, refusals) = definitions
        .split_once("\nrefusals registry q =\n")
        .expect("it");
    let (refusals, _) = refusals.split_once("∷ []").expect("its end");
    let name = |line: &str| {
        line.trim_end_matches(')')
            .rsplit(", ")
            .next()
            .map(in_capitals)
    };
    let mut names: Vec<String> = refusals
        .lines()
        .filter(|line| line.ends_with(')'))
        .filter_map(name)
        .collect();
    names.dedup();
    let header = header_numbers("include/razidkot_status.h", "RAZIDKOT_");
    let defined: Vec<u64> = names.iter().map(|name| header[name]).collect();
    assert_eq!(order_of_judgement()[..defined.len()], defined);
    assert_eq!(defined.len(), 9);
}

// ---- Limits

/// Least and most of each row.
fn limits() -> BTreeMap<String, (u64, u64)> {
    let rows = table(&page(), "## Limits", "| What | Least | Most |");
    let row = |row: &Vec<String>| (row[0].clone(), (number(&row[1]), number(&row[2])));
    rows.iter().map(row).collect()
}

#[test]
fn the_limits_are_the_constants() {
    use razidkot_client::*;
    let mut limits = limits();
    let mut expect = |what: &str, least: u64, most: u64| {
        assert_eq!(limits.remove(what), Some((least, most)), "{what}");
    };
    expect(
        "a request that the client writes",
        28,
        LONGEST_REQUEST as u64,
    );
    expect(
        "the body of a request that the client writes",
        0,
        LONGEST_BODY as u64,
    );
    expect(
        "a response that the service writes",
        26,
        razidkot::LONGEST_RESPONSE as u64,
    );
    expect(
        "a response that the client reads",
        26,
        LONGEST_RESPONSE as u64,
    );
    expect(
        "entries of a list that the client reads",
        0,
        MOST_ENTRIES as u64,
    );
    expect("an application's name", 1, LONGEST_APPLICATION_NAME as u64);
    expect("a key's name", 1, LONGEST_KEY_NAME as u64);
    expect("a key's data", 1, LONGEST_DATA as u64);
    expect(
        "bits of a key that is imported, in steps of 1,024",
        LEAST_BITS.into(),
        MOST_BITS.into(),
    );
    assert_eq!(BITS_STEP, 1_024);
    expect("a hash", HASH_SIZE as u64, HASH_SIZE as u64);
    expect("applications on a roster", 0, razidkot::LINES as u64);
    expect("keys of an application", 0, SLOTS as u64);
    expect("keys on a list", 0, MOST_LISTED_KEYS as u64);
    expect("a list's bytes", 0, LONGEST_LIST as u64);
    let [h, c, a] = ["H of a request", "C that is read", "A that is read"].map(|what| limits[what]);
    let request = limits["a request that is read"];
    assert_eq!(request, (6 + h.0 + c.0 + a.0, 6 + h.1 + c.1 + a.1));
    assert_eq!(limits.len(), 4, "no row that is not looked at");
}

/// A Ping, and bytes behind its known header if it is longer.
fn ping_of_header_size(size: u64) -> Vec<u8> {
    let mut ping = request(PING, None, &[]);
    ping[4..6].copy_from_slice(&(size as u16).to_le_bytes());
    ping.resize(6 + size as usize, 0xEE);
    ping
}

#[test]
fn the_limits_of_a_request_are_those_of_the_compiled_service() {
    let limits = limits();
    let mut service = service_of(b"");
    let mut status = |request: Vec<u8>| statuses(&mut service, &request)[0];
    let (least, most) = limits["H of a request"];
    for (size, expected) in [(least - 1, 17), (least, 0), (most, 0), (most + 1, 17)] {
        assert_eq!(status(ping_of_header_size(size)), expected, "H {size}");
    }
    let ping = ping_of_header_size(least);
    // Such a body is no body of Ping's, and such a name is on no roster.
    let c = limits["C that is read"].1 as usize;
    assert_eq!(status(with_lengths(&ping, c, 0)), 7);
    assert_eq!(status(with_lengths(&ping, c + 1, 0)), 20);
    let a = limits["A that is read"].1 as usize;
    let mut other_auth = ping.clone();
    other_auth[19] = 2;
    assert_eq!(status(with_lengths(&other_auth, 0, a)), 12);
    assert_eq!(status(with_lengths(&other_auth, 0, a + 1)), 11);
}

// ---- The other pages

#[test]
fn the_other_pages_link_here() {
    for file in [
        "docs/INTEGRATOR.md",
        "docs/AUDITOR.md",
        "docs/LAYOUT.md",
        "docs/STATEMENTS.md",
    ] {
        assert!(repository_file(file).contains("](PROTOCOL.md"), "{file}");
    }
    assert!(repository_file("README.md").contains("](docs/PROTOCOL.md"));
}
