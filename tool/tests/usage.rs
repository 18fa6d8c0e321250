//! Help, and command lines that are not understood.

mod common;

use common::{ended, program, razidkot, sample};
use std::fs::File;

/// The words of each command, and how its help begins.
const COMMANDS: [(&[&str], &str); 21] = [
    (&[], "razidkot: "),
    (&["roster"], "razidkot roster make NAME.. [-o FILE] "),
    (
        &["roster", "make"],
        "razidkot roster make NAME.. [-o FILE]\n",
    ),
    (&["roster", "show"], "razidkot roster show FILE\n"),
    (&["list"], "razidkot list make NAME FILE .. [-o FILE] "),
    (
        &["list", "make"],
        "razidkot list make NAME FILE .. [-o FILE]\n",
    ),
    (&["list", "show"], "razidkot list show FILE\n"),
    (&["ask"], "razidkot ask SOCKET OPERATION .."),
    (&["ask", "keys.socket"], "razidkot ask SOCKET OPERATION .."),
    (&["ask", "keys.socket", "ping"], "razidkot ask SOCKET ping "),
    (
        &["ask", "keys.socket", "providers"],
        "razidkot ask SOCKET providers ",
    ),
    (
        &["ask", "keys.socket", "opcodes"],
        "razidkot ask SOCKET opcodes PROVIDER ",
    ),
    (
        &["ask", "keys.socket", "import"],
        "razidkot ask SOCKET import NAME FILE ",
    ),
    (
        &["ask", "keys.socket", "export"],
        "razidkot ask SOCKET export NAME ",
    ),
    (
        &["ask", "keys.socket", "destroy"],
        "razidkot ask SOCKET destroy NAME ",
    ),
    (
        &["ask", "keys.socket", "verify"],
        "razidkot ask SOCKET verify NAME --hash HEX|FILE --signature FILE ",
    ),
    (&["ask", "import"], "razidkot ask SOCKET import NAME FILE "),
    (&["capture"], "razidkot capture show FILE --roster FILE "),
    (
        &["capture", "show"],
        "razidkot capture show FILE --roster FILE [--list FILE] [--responses FILE]\n",
    ),
    (&["journal"], "razidkot journal show FILE [--roster FILE] "),
    (
        &["journal", "show"],
        "razidkot journal show FILE [--roster FILE]\n",
    ),
];

#[test]
fn each_command_has_help() {
    for (command, start) in COMMANDS {
        for option in ["--help", "-h"] {
            let behind = [command, &[option]].concat();
            let text = razidkot(&behind).text();
            assert!(text.starts_with(start), "{behind:?}: {text}");
            let before = [&[option], command].concat();
            assert_eq!(razidkot(&before).text(), text, "{before:?}");
            assert!(text.lines().all(|line| line.len() <= 100), "{text}");
        }
    }
}

#[test]
fn the_help_of_all_names_each_command() {
    let text = razidkot(&["--help"]).text();
    for command in [
        "roster make",
        "roster show",
        "list make",
        "list show",
        "ask",
        "capture show",
        "journal show",
    ] {
        assert!(text.contains(&format!("razidkot {command} ")), "{command}");
    }
    let text = razidkot(&["ask", "--help"]).text();
    for operation in [
        "ping",
        "providers",
        "opcodes",
        "import",
        "export",
        "destroy",
        "verify",
    ] {
        assert!(text.contains(&format!("\n  {operation} ")), "{operation}");
    }
}

/// A command line, what is said of it, and whose help to read.
const NOT_UNDERSTOOD: [(&str, &str, &str); 61] = [
    ("", "a command is missing", ""),
    ("keys", "unknown command keys", ""),
    ("keys --help", "unknown command keys", ""),
    ("roster drop --help", "unknown command roster drop", ""),
    ("roster", "a command is missing", " roster"),
    ("roster drop", "unknown command drop", " roster"),
    ("roster show", "FILE is missing", " roster show"),
    ("roster show a b", "b is one word too many", " roster show"),
    ("roster show a -o b", "-o is no option here", " roster show"),
    (
        "roster make a --app b",
        "--app is no option here",
        " roster make",
    ),
    ("roster make a -o", "-o needs a value", ""),
    ("roster make a -o b -o c", "-o is said twice", ""),
    ("roster make a --quiet", "unknown option --quiet", ""),
    ("roster make a --quiet=1", "unknown option --quiet", ""),
    ("list", "a command is missing", " list"),
    ("list drop", "unknown command drop", " list"),
    ("list make k", "the FILE of NAME k is missing", " list make"),
    (
        "list make k f l",
        "the FILE of NAME l is missing",
        " list make",
    ),
    (
        "list make k f --roster r",
        "--roster is no option here",
        " list make",
    ),
    ("list show", "FILE is missing", " list show"),
    ("list show f g", "g is one word too many", " list show"),
    ("list show f -o g", "-o is no option here", " list show"),
    (
        "roster show f --list g",
        "--list is no option here",
        " roster show",
    ),
    ("ask", "SOCKET is missing", " ask"),
    ("ask s", "an operation is missing", " ask"),
    ("ask s sign", "unknown operation sign", " ask"),
    ("ask s ping a", "a is one word too many", " ask ping"),
    (
        "ask s ping --bits 8",
        "--bits is no option here",
        " ask ping",
    ),
    (
        "ask s ping --session x",
        "--session x: no number, or too large",
        " ask",
    ),
    (
        "ask s ping --session=-1",
        "--session -1: no number, or too large",
        " ask",
    ),
    (
        "ask s ping --session 18446744073709551616",
        "--session 18446744073709551616: no number, or too large",
        " ask",
    ),
    (
        "ask s ping --format 3",
        "--format 3: not 1, Protocol Buffers, nor 2, tagged records",
        " ask",
    ),
    (
        "ask s ping --accept 0",
        "--accept 0: not 1, Protocol Buffers, nor 2, tagged records",
        " ask",
    ),
    (
        "ask s ping --format protobuf",
        "--format protobuf: no number, or too large",
        " ask",
    ),
    (
        "ask s providers --export",
        "--export is no option here",
        " ask providers",
    ),
    ("ask s opcodes", "PROVIDER is missing", " ask opcodes"),
    (
        "ask s opcodes 4294967296",
        "PROVIDER 4294967296: no number, or too large",
        " ask opcodes",
    ),
    ("ask s import", "NAME is missing", " ask import"),
    ("ask s import k", "FILE is missing", " ask import"),
    (
        "ask s import k f -o g",
        "-o is no option here",
        " ask import",
    ),
    ("ask s import k f --verify=no", "--verify has no value", ""),
    (
        "ask s import k f --bits 1k",
        "--bits 1k: no number, or too large",
        " ask import",
    ),
    ("ask s export", "NAME is missing", " ask export"),
    (
        "ask s destroy k -o f",
        "-o is no option here",
        " ask destroy",
    ),
    ("ask s verify", "NAME is missing", " ask verify"),
    (
        "ask s verify k",
        "--hash HEX or --hash FILE is missing",
        " ask verify",
    ),
    (
        "ask s verify k --signature f",
        "--hash HEX or --hash FILE is missing",
        " ask verify",
    ),
    (
        "ask s verify k --hash f",
        "--signature FILE is missing",
        " ask verify",
    ),
    (
        "ask s verify k f --hash g --signature h",
        "f is one word too many",
        " ask verify",
    ),
    (
        "ask s verify k --hash f --signature g --bits 2048",
        "--bits is no option here",
        " ask verify",
    ),
    (
        "ask s import k f --hash g",
        "--hash is no option here",
        " ask import",
    ),
    ("capture", "a command is missing", " capture"),
    ("capture hide", "unknown command hide", " capture"),
    ("capture show", "FILE is missing", " capture show"),
    (
        "capture show f",
        "--roster FILE is missing",
        " capture show",
    ),
    (
        "capture show f g --roster r",
        "g is one word too many",
        " capture show",
    ),
    ("journal", "a command is missing", " journal"),
    ("journal hide", "unknown command hide", " journal"),
    ("journal show", "FILE is missing", " journal show"),
    (
        "journal show f g",
        "g is one word too many",
        " journal show",
    ),
    (
        "journal show f --list g",
        "--list is no option here",
        " journal show",
    ),
];

#[test]
fn what_is_not_understood_has_status_2() {
    for (line, said, help) in NOT_UNDERSTOOD {
        let words: Vec<_> = line.split_whitespace().collect();
        razidkot(&words).assert_usage(said, help);
    }
}

#[test]
fn two_dashes_end_the_options() {
    razidkot(&["roster", "show", "--", "--help"])
        .assert_failed("--help: No such file or directory (os error 2)");
}

#[test]
fn a_full_standard_output_is_said() {
    let (roster, stream) = (sample("servers.roster"), sample("day.stream"));
    let (list, journal) = (sample("servers.list"), sample("day.journal"));
    let lines = [
        words!["roster", "show", roster],
        words!["roster", "make", "a"],
        words!["list", "show", list],
        words!["list", "make", "k", roster],
        words!["capture", "show", stream, "--roster", roster],
        words!["journal", "show", journal],
        words!["--help"],
    ];
    for line in lines {
        let full = File::options()
            .write(true)
            .open("/dev/full")
            .expect("/dev/full");
        let ended = ended(program().args(line).stdout(full));
        ended.assert_failed("standard output: No space left on device (os error 28)");
    }
}
