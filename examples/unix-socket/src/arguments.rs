//! What the program is asked on its command line.

use std::ffi::{OsStr, OsString};
use std::fmt;
use std::os::unix::ffi::OsStrExt;
use std::path::PathBuf;

pub const HELP: &str = "\
usage: unix-socket [OPTION].. SOCKET ROSTER

Serves the applications of the file ROSTER at the socket SOCKET until SIGTERM or
SIGINT comes. Then it serves what has arrived, removes SOCKET, and prints the
bill of all connections on standard output. Messages go to standard error.

  --list FILE     the keys that every application has besides its own
  --journal FILE  keep imported keys: restore them from FILE, and sync every change
                  to it before it is answered. FILE.roster is a copy of ROSTER,
                  which may get more names at its end, and no other change
  --capture FILE  append every answered request to FILE, for `bill ROSTER FILE
                  LIST`; without --list, LIST is an empty file, as /dev/null is
  --capture-responses FILE
                  with --capture, append the responses to those requests to FILE,
                  for `audit`
  --stdin         stop at the end of standard input too, which is not read else
  --help          print this

A SOCKET that nobody listens at is replaced. The status is 0 after a stop, 1 if
the server can't start or the journal, the capture or the bill can't be written
whole, and 2 for other arguments than these. A journal that can't be written
stops the server.
";

pub enum Asked {
    Help,
    Serve(Arguments),
}

#[derive(Debug, Default)]
pub struct Arguments {
    pub socket: PathBuf,
    pub roster: PathBuf,
    pub list: Option<PathBuf>,
    pub journal: Option<PathBuf>,
    pub capture: Option<PathBuf>,
    pub capture_responses: Option<PathBuf>,
    pub stdin: bool,
}

/// Arguments that can't be followed.
#[derive(Debug)]
pub enum Fault {
    UnknownOption(OsString),
    /// Behind this option.
    NoFile(&'static str),
    NotTwoFiles(usize),
    /// Responses alone show nothing.
    ResponsesAlone,
}

const CAPTURE: &str = "--capture";
const CAPTURE_RESPONSES: &str = "--capture-responses";
const JOURNAL: &str = "--journal";
const LIST: &str = "--list";

/// Options may stand anywhere; behind `--` there are none.
pub fn read(given: impl Iterator<Item = OsString>) -> Result<Asked, Fault> {
    let mut given = given;
    let mut arguments = Arguments::default();
    let mut files = Vec::new();
    while let Some(argument) = given.next() {
        match argument.as_bytes() {
            b"--help" | b"-h" => return Ok(Asked::Help),
            b"--stdin" => arguments.stdin = true,
            b"--" => files.extend(given.by_ref()),
            option if is_option(option, CAPTURE) => {
                arguments.capture = Some(file(CAPTURE, &argument, &mut given)?);
            }
            option if is_option(option, CAPTURE_RESPONSES) => {
                let file = file(CAPTURE_RESPONSES, &argument, &mut given)?;
                arguments.capture_responses = Some(file);
            }
            option if is_option(option, JOURNAL) => {
                arguments.journal = Some(file(JOURNAL, &argument, &mut given)?);
            }
            option if is_option(option, LIST) => {
                arguments.list = Some(file(LIST, &argument, &mut given)?);
            }
            option if option.starts_with(b"-") => return Err(Fault::UnknownOption(argument)),
            _ => files.push(argument),
        }
    }
    let count = files.len();
    let [socket, roster] =
        <[OsString; 2]>::try_from(files).map_err(|_| Fault::NotTwoFiles(count))?;
    if arguments.capture_responses.is_some() && arguments.capture.is_none() {
        return Err(Fault::ResponsesAlone);
    }
    arguments.socket = socket.into();
    arguments.roster = roster.into();
    Ok(Asked::Serve(arguments))
}

/// Is it this option, with or without a file behind `=`?
fn is_option(argument: &[u8], option: &str) -> bool {
    let behind = argument.strip_prefix(option.as_bytes());
    matches!(behind, Some([] | [b'=', ..]))
}

/// The file of an option, which stands behind `=` or is the next argument.
fn file(
    option: &'static str,
    argument: &OsStr,
    given: &mut impl Iterator<Item = OsString>,
) -> Result<PathBuf, Fault> {
    let file = match &argument.as_bytes()[option.len()..] {
        [] => given.next().unwrap_or_default(),
        [_, file @ ..] => OsStr::from_bytes(file).to_owned(),
    };
    let is_there = !file.is_empty();
    is_there.then(|| file.into()).ok_or(Fault::NoFile(option))
}

impl fmt::Display for Fault {
    fn fmt(&self, out: &mut fmt::Formatter) -> fmt::Result {
        match self {
            Fault::UnknownOption(option) => write!(out, "no such option: {}", option.display()),
            Fault::NoFile(option) => write!(out, "{option} needs a file"),
            Fault::NotTwoFiles(count) => {
                write!(out, "SOCKET and ROSTER are needed, not {count} files")
            }
            Fault::ResponsesAlone => write!(out, "{CAPTURE_RESPONSES} needs {CAPTURE}"),
        }
    }
}
