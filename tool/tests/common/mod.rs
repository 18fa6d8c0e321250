//! The program, run by the tests, and what it said.

// Each file under tests/ uses some of it.
#![allow(dead_code)]

pub mod keys;
#[path = "../../../examples/rust-client/src/series.rs"]
pub mod series;

use razidkot_tests::bill::Folder;
use std::ffi::OsStr;
use std::path::{Path, PathBuf};
use std::process::{Command, Stdio};

/// How the program ended.
#[derive(Debug)]
pub struct Ended {
    pub status: i32,
    pub out: Vec<u8>,
    pub err: String,
}

pub fn razidkot(arguments: &[impl AsRef<OsStr>]) -> Ended {
    let mut command = program();
    command.args(arguments);
    ended(&mut command)
}

pub fn program() -> Command {
    let mut command = Command::new(env!("CARGO_BIN_EXE_razidkot"));
    command.stdin(Stdio::null());
    command
}

pub fn ended(command: &mut Command) -> Ended {
    let output = command.output().expect("a program that can be run");
    Ended {
        status: output.status.code().expect("no signal ended it"),
        out: output.stdout,
        err: String::from_utf8(output.stderr).expect("text"),
    }
}

impl Ended {
    /// What it printed; all was well.
    pub fn printed(self) -> Vec<u8> {
        assert_eq!((self.status, &self.err[..]), (0, ""), "{self:?}");
        self.out
    }

    pub fn text(self) -> String {
        String::from_utf8(self.printed()).expect("text")
    }

    /// It failed, printed nothing, and said this, which fits on a line.
    pub fn assert_failed(&self, said: &str) {
        assert_eq!((self.status, &self.out[..]), (1, &b""[..]), "{self:?}");
        assert_eq!(self.err, format!("razidkot: {said}\n"));
    }

    /// The service says that a signature is bad; it printed nothing, and said this.
    pub fn assert_bad_signature(&self, said: &str) {
        assert_eq!((self.status, &self.out[..]), (3, &b""[..]), "{self:?}");
        assert_eq!(self.err, format!("razidkot: {said}\n"));
    }

    /// The command line was not understood; it printed nothing, and said this and whose help to
    /// read.
    pub fn assert_usage(&self, said: &str, help: &str) {
        assert_eq!((self.status, &self.out[..]), (2, &b""[..]), "{self:?}");
        let expected = format!("razidkot: {said}\n`razidkot{help} --help` says more\n");
        assert_eq!(self.err, expected);
    }
}

/// A folder for the files of a test.
pub fn folder(test: &str) -> Folder {
    Folder::new(env!("CARGO_TARGET_TMPDIR"), test)
}

/// A file that is not there, though an earlier run may have made it.
pub fn free(folder: &Folder, name: &str) -> PathBuf {
    let path = folder.path().join(name);
    let _ = std::fs::remove_file(&path);
    path
}

pub fn sample(name: &str) -> PathBuf {
    Path::new(env!("CARGO_MANIFEST_DIR"))
        .join("../samples")
        .join(name)
}

/// Words of a command line.
#[macro_export]
macro_rules! words {
    ($($word:expr),* $(,)?) => {
        &[$(std::ffi::OsStr::new(&$word)),*] as &[&std::ffi::OsStr]
    };
}
