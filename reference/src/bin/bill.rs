//! `bill ROSTER STREAM LIST`: prints the bill of a roster file, a captured stream and a list of keys.
//! Document 01, "The bill"; document 02, "Keys we ship".
#![forbid(unsafe_code)]

use std::ffi::OsString;
use std::fs::{self, File};
use std::io::{self, ErrorKind, Write};

fn main() -> io::Result<()> {
    let mut arguments = std::env::args_os().skip(1);
    let text = bill_of_files(std::array::from_fn(|_| arguments.next()))
        .unwrap_or_else(|_| reference::bill(None, None, None));
    io::stdout().write_all(&text)
}

/// An error is a file that can't be read; a missing argument counts as one.
fn bill_of_files([roster, stream, list]: [Option<OsString>; 3]) -> io::Result<Vec<u8>> {
    let roster = fs::read(roster.ok_or(ErrorKind::NotFound)?)?;
    let stream = File::open(stream.ok_or(ErrorKind::NotFound)?)?;
    let list = fs::read(list.ok_or(ErrorKind::NotFound)?)?;
    reference::bill_from_reader(&roster, stream, &list)
}
