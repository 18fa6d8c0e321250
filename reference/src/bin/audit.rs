//! `audit ROSTER LIST JOURNAL REQUESTS RESPONSES`: prints whether captured responses are those that
//! the rules give, and the bill. Document 02, "The auditor".
#![forbid(unsafe_code)]

use std::ffi::OsString;
use std::fs::{self, File};
use std::io::{self, ErrorKind, Write};

fn main() -> io::Result<()> {
    let mut arguments = std::env::args_os().skip(1);
    let text = audit_of_files(std::array::from_fn(|_| arguments.next()))
        .unwrap_or_else(|_| reference::audit([None; 5]));
    io::stdout().write_all(&text)
}

/// An error is a file that can't be read; a missing argument counts as one.
fn audit_of_files(files: [Option<OsString>; 5]) -> io::Result<Vec<u8>> {
    let [roster, list, journal, requests, responses] = files;
    let open = |file: Option<OsString>| File::open(file.ok_or(ErrorKind::NotFound)?);
    let (journal, requests, responses) = (open(journal)?, open(requests)?, open(responses)?);
    let roster = fs::read(roster.ok_or(ErrorKind::NotFound)?)?;
    let list = fs::read(list.ok_or(ErrorKind::NotFound)?)?;
    reference::audit_from_readers(&roster, &list, journal, requests, responses)
}
