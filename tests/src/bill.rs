//! The proved program `bill ROSTER STREAM LIST`, run on files of a test.

use crate::ask::{record, request, PING};
use std::ffi::OsStr;
use std::fs;
use std::io::Write;
use std::path::{Path, PathBuf};
use std::process::{Command, Output, Stdio};
use std::thread;
use std::time::Duration;

/// What `./prove bill` writes.
const PROGRAM: &str = concat!(env!("CARGO_MANIFEST_DIR"), "/../target/bin/bill");

fn program() -> Command {
    let is_there = Path::new(PROGRAM).exists();
    assert!(is_there, "target/bin/bill is missing: run `./prove bill`");
    Command::new(PROGRAM)
}

/// What the program prints with these arguments.
pub fn printed(arguments: &[impl AsRef<OsStr>]) -> Vec<u8> {
    let output = program().args(arguments).stdin(Stdio::null()).output();
    checked(output.expect("a program that can be run"))
}

/// The same with these bytes on its standard input, a few at a time.
pub fn printed_from_pipe(arguments: &[&Path], bytes: &[u8]) -> Vec<u8> {
    let mut running = program()
        .args(arguments)
        .stdin(Stdio::piped())
        .stdout(Stdio::piped())
        .stderr(Stdio::piped())
        .spawn()
        .expect("a program that can be run");
    let mut pipe = running.stdin.take().expect("a pipe");
    for (place, few) in bytes.chunks(11).enumerate() {
        pipe.write_all(few).expect("the program reads to the end");
        // Time for it to read so few.
        if place < 3 {
            thread::sleep(Duration::from_millis(50));
        }
    }
    drop(pipe);
    checked(running.wait_with_output().expect("a program that ends"))
}

/// Its standard output; its status is 0 and it complains of nothing.
fn checked(output: Output) -> Vec<u8> {
    assert!(output.status.success(), "{output:?}");
    assert!(output.stderr.is_empty(), "{output:?}");
    output.stdout
}

pub fn text(bytes: Vec<u8>) -> String {
    String::from_utf8(bytes).expect("a bill is text")
}

/// A temporary folder with the files of one test, since tests run at once.
pub struct Folder(PathBuf);

impl Folder {
    /// `root` is the caller's CARGO_TARGET_TMPDIR.
    pub fn new(root: &str, test: &str) -> Folder {
        let path = Path::new(root).join(format!("bill-{test}"));
        fs::create_dir_all(&path).expect("a folder for the test");
        Folder(path)
    }

    pub fn path(&self) -> &Path {
        &self.0
    }

    pub fn file(&self, name: &str, bytes: &[u8]) -> PathBuf {
        let path = self.0.join(name);
        fs::write(&path, bytes).expect("a file for the test");
        path
    }

    pub fn missing(&self) -> PathBuf {
        self.0.join("there is no such file")
    }

    /// What the program prints of files with these bytes.
    pub fn printed(&self, roster: &[u8], stream: &[u8], list: &[u8]) -> Vec<u8> {
        printed(&[
            self.file("roster", roster),
            self.file("stream", stream),
            self.file("list", list),
        ])
    }

    /// `bill_with_list` with the empty list.
    pub fn bill(&self, roster: &[u8], stream: &[u8]) -> String {
        self.bill_with_list(roster, stream, &[])
    }

    /// The bill, printed as the reference has it.
    pub fn bill_with_list(&self, roster: &[u8], stream: &[u8], list: &[u8]) -> String {
        let expected = text(reference::bill(Some(roster), Some(stream), Some(list)));
        assert_eq!(text(self.printed(roster, stream, list)), expected);
        expected
    }
}

// ---- what the files have

pub fn roster_of(names: &[Vec<u8>]) -> Vec<u8> {
    names.iter().flat_map(|name| record(1, name)).collect()
}

/// The names a, b, .. as many as are asked for.
pub fn letters(count: u8) -> Vec<Vec<u8>> {
    (0..count).map(|number| vec![b'a' + number]).collect()
}

pub fn ping() -> Vec<u8> {
    request(PING, None, &[])
}
