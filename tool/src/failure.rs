//! What is said on standard error, and the program's status.

use std::ffi::OsStr;
use std::fmt;
use std::io;
use std::path::Path;

/// Why a command was not done.
#[derive(Debug)]
pub enum Failure {
    /// The command line is not understood.
    Usage {
        /// Whose help says more: the words of a command, or none.
        command: &'static str,
        /// What is wrong with it.
        reason: String,
    },
    /// It was understood, and failed or was refused.
    Failed(String),
    /// The service checked a signature, and it is not the key's.
    BadSignature(String),
}

impl Failure {
    /// The program's status.
    pub fn status(&self) -> u8 {
        match self {
            Failure::Failed(_) => 1,
            Failure::Usage { .. } => 2,
            Failure::BadSignature(_) => 3,
        }
    }

    /// Standard output can't be written.
    pub fn output(error: io::Error) -> Failure {
        Failure::Failed(format!("standard output: {error}"))
    }

    /// A file or a socket, and why it won't do.
    pub(crate) fn at(path: &Path, reason: impl fmt::Display) -> Failure {
        Failure::Failed(format!("{}: {reason}", path.display()))
    }

    pub(crate) fn usage(command: &'static str, reason: impl Into<String>) -> Failure {
        let reason = reason.into();
        Failure::Usage { command, reason }
    }

    pub(crate) fn unknown(command: &'static str, what: &str, word: &OsStr) -> Failure {
        Failure::usage(command, format!("unknown {what} {}", word.display()))
    }
}

impl fmt::Display for Failure {
    fn fmt(&self, out: &mut fmt::Formatter) -> fmt::Result {
        match self {
            Failure::Failed(reason) | Failure::BadSignature(reason) => out.write_str(reason),
            Failure::Usage { command, reason } => {
                let space = if command.is_empty() { "" } else { " " };
                write!(out, "{reason}\n`razidkot{space}{command} --help` says more")
            }
        }
    }
}

impl std::error::Error for Failure {}
