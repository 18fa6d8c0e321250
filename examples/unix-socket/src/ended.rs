//! How a connection ended, and what was lost with it.

use crate::Say;
use razidkot::CallError;
use std::fmt;
use std::io;

/// A connection that has ended.
#[derive(Debug, Default)]
pub struct Ended {
    /// Bytes taken of a request that the peer did not finish.
    pub unfinished: u64,
    /// Responses that could not be sent, if any.
    pub undelivered: Option<Undelivered>,
    /// Why it ended; none where the peer ended it.
    pub fault: Option<Fault>,
}

/// Responses to requests that were judged and counted, and that could not be sent whole. Whether a
/// peer read what was sent, no server can tell.
#[derive(Debug)]
pub struct Undelivered {
    /// What the first of them failed with.
    pub error: io::Error,
    pub responses: u64,
    /// Their bytes, but for those of the first that went out.
    pub bytes: u64,
}

/// Why a connection ended before the peer's own end.
#[derive(Debug)]
pub enum Fault {
    Read(io::Error),
    /// So many bytes had been read and were not taken.
    NotTaken {
        error: CallError<io::Error>,
        bytes: usize,
    },
}

impl Ended {
    /// Says what was lost, if anything was.
    pub fn report(&self, connection: u64, say: Say) {
        if let Some(undelivered) = &self.undelivered {
            say(&format_args!("connection {connection}: {undelivered}"));
        }
        if let Some(fault) = &self.fault {
            let unfinished = self.unfinished;
            say(&format_args!(
                "connection {connection}: {fault}; {unfinished} bytes of a request held"
            ));
        }
    }
}

impl fmt::Display for Undelivered {
    fn fmt(&self, out: &mut fmt::Formatter) -> fmt::Result {
        let Undelivered {
            error,
            responses,
            bytes,
        } = self;
        write!(
            out,
            "responses not delivered: {responses}, of {bytes} bytes: {error}"
        )
    }
}

impl fmt::Display for Fault {
    fn fmt(&self, out: &mut fmt::Formatter) -> fmt::Result {
        match self {
            Fault::Read(error) => write!(out, "nothing more can be read: {error}"),
            Fault::NotTaken { error, bytes } => write!(out, "{error}, {bytes} bytes lost"),
        }
    }
}
