//! A server that can be started and stopped.

use crate::address::{self, Address, SocketError};
use crate::listener::{Listener, Sum};
use crate::{keys_of, Capture, CaptureError, Captured, Say, Shared};
use crate::{JournalError, JournalFile, Records};
use razidkot::{Counters, List, ListFault, Registry, RosterFault, Service};
use std::fmt;
use std::io;
use std::net::Shutdown;
use std::os::fd::OwnedFd;
use std::os::unix::net::UnixStream;
use std::path::{Path, PathBuf};
use std::sync::mpsc::Sender;
use std::sync::{Arc, OnceLock};
use std::thread::{self, JoinHandle};
use std::time::{Duration, Instant};

/// What a server is started with.
#[derive(Clone, Debug)]
pub struct Settings<'a> {
    /// Where it listens.
    pub socket: &'a Path,
    /// The bytes of a roster file.
    pub roster: &'a [u8],
    /// The bytes of a list of keys that every application has; none for no such keys.
    pub list: &'a [u8],
    /// Where it keeps its keys; without, they are lost when it stops.
    pub journal: Option<&'a Path>,
    /// Where it appends the requests it answers.
    pub capture: Option<&'a Path>,
    /// Where it appends its responses to them, if it captures requests.
    pub capture_responses: Option<&'a Path>,
    /// A peer that takes nothing of a response for so long gets no more of them, and a stop takes
    /// hardly longer. Above 0.
    pub patience: Duration,
    /// Where its messages go.
    pub say: Say,
    /// Told why, when it can answer no more: its journal can't be written.
    pub stop: Sender<String>,
}

/// A running server. One that is dropped and not stopped runs on to the end of the program, without
/// its socket's file.
pub struct Server {
    address: Address,
    /// The listening socket; it is a stream's type that can be shut down.
    socket: UnixStream,
    shared: Arc<Shared>,
    patience: Duration,
    stopping: Arc<OnceLock<Instant>>,
    listening: JoinHandle<Sum>,
}

/// What all connections have come to: bytes taken are those answered, dropped and unfinished.
#[derive(Debug)]
pub struct Totals {
    pub counters: Counters,
    /// As `bill` prints it; what is held is `unfinished`.
    pub bill: String,
    pub connections: u64,
    /// Bytes of requests that their peers did not finish.
    pub unfinished: u64,
    /// Responses that could not be sent.
    pub undelivered: u64,
    pub captured: Option<Captured>,
    /// What the journal failed with. The last request that changed keys was then not answered, though it
    /// is counted.
    pub journal_fault: Option<String>,
}

/// Why a server is not started.
#[derive(Debug)]
pub enum StartError {
    Roster(RosterFault),
    List(ListFault),
    Journal(PathBuf, JournalError),
    Socket(PathBuf, SocketError),
    Capture(PathBuf, CaptureError),
    Thread(io::Error),
}

impl Server {
    /// Serves with a registry of the roster's applications, the keys of the journal and those of the
    /// list. Of two faulty files the roster is said, as `bill` does.
    pub fn start(settings: Settings) -> Result<Server, StartError> {
        let registry = Registry::load(settings.roster).map_err(StartError::Roster)?;
        let list = List::from_bytes(settings.list).map_err(StartError::List)?;
        let (records, registry) = restore(&settings, registry)?;
        let journal = records.length();
        let restored = keys_of(&registry);
        let service = Service::new(registry, list, records);
        let shared = Arc::new(Shared::new(service, settings.stop.clone()));
        let no_socket = |error| StartError::Socket(settings.socket.to_path_buf(), error);
        let (listener, address) =
            address::listen(settings.socket, settings.say).map_err(no_socket)?;
        if let Some(path) = settings.capture {
            shared.capture(open_capture(&settings, path, restored, journal)?);
        }
        let socket = listener.try_clone();
        let socket = socket.map_err(|error| no_socket(SocketError::Failed(error)))?;
        let stopping = Arc::new(OnceLock::new());
        let listener = Listener::new(
            listener,
            Arc::clone(&shared),
            settings.patience,
            settings.say,
            Arc::clone(&stopping),
        );
        let listening = thread::Builder::new().spawn(move || listener.listen());
        Ok(Server {
            address,
            socket: UnixStream::from(OwnedFd::from(socket)),
            shared,
            patience: settings.patience,
            stopping,
            listening: listening.map_err(StartError::Thread)?,
        })
    }

    /// Takes no more connections, ends those there are, and says what all have come to. What had
    /// arrived before is still served, that of clients that still waited to be accepted too. It
    /// needs no descriptor, so that it works where there is none left.
    pub fn stop(self) -> Totals {
        drop(self.address);
        self.stopping.get_or_init(|| Instant::now() + self.patience);
        let stopped = self.socket.shutdown(Shutdown::Both);
        stopped.expect("a listening socket can be shut down");
        let sum = self.listening.join().expect("a listener does not panic");
        Totals {
            counters: self.shared.counters(),
            bill: self.shared.bill(sum.unfinished),
            connections: sum.connections,
            unfinished: sum.unfinished,
            undelivered: sum.undelivered,
            captured: self.shared.end_capture(),
            journal_fault: self.shared.journal_fault(),
        }
    }
}

/// The capture, which begins with so many keys, and so many bytes of the journal if there is one.
fn open_capture(
    settings: &Settings,
    path: &Path,
    restored: usize,
    journal: Option<u64>,
) -> Result<Capture, StartError> {
    let failed = |path: &Path, error| StartError::Capture(path.to_path_buf(), error);
    let capture = Capture::open(path, restored, settings.say);
    let mut capture = capture.map_err(|error| failed(path, error))?;
    if let Some(path) = settings.capture_responses {
        let both = capture.with_responses(path);
        capture = both.map_err(|error| failed(path, error))?;
    }
    if let (Some(bytes), Some(journal)) = (journal, settings.journal) {
        let (path, journal) = (path.display(), journal.display());
        (settings.say)(&format_args!(
            "{path}: begins behind the first {bytes} bytes of the journal {journal}"
        ));
    }
    Ok(capture)
}

/// The registry with the journal's keys, and where records go from now on.
fn restore(settings: &Settings, registry: Registry) -> Result<(Records, Registry), StartError> {
    let Some(path) = settings.journal else {
        return Ok((Records::Dropped, registry));
    };
    let no_journal = |error| StartError::Journal(path.to_path_buf(), error);
    let opened = JournalFile::open(path, settings.roster, registry, settings.say);
    let (journal, registry) = opened.map_err(no_journal)?;
    Ok((Records::Kept(journal), registry))
}

impl fmt::Display for StartError {
    fn fmt(&self, out: &mut fmt::Formatter) -> fmt::Result {
        match self {
            StartError::Roster(fault) => write!(out, "{fault}: {}", reason(*fault)),
            StartError::List(fault) => write!(out, "{fault}"),
            StartError::Journal(path, error) => write!(out, "{}: {error}", path.display()),
            StartError::Socket(path, error) => write!(out, "{}: {error}", path.display()),
            StartError::Capture(path, error) => write!(out, "{}: {error}", path.display()),
            StartError::Thread(error) => write!(out, "no thread to accept clients: {error}"),
        }
    }
}

/// Document 01, "Roster, registry, connection, tally", for whoever wrote the roster.
fn reason(fault: RosterFault) -> &'static str {
    match fault {
        RosterFault::WrongMemorySize => "registry memory of a wrong size",
        RosterFault::CutRecord => "a record is cut short",
        RosterFault::UnknownTag => "a record with a tag other than 1",
        RosterFault::BadName => "a name not of 1 to 64 bytes from 0x21 to 0x7E",
        RosterFault::NinthName => "more than 8 names",
        RosterFault::RepeatedName => "a name that stands there twice",
    }
}

impl std::error::Error for StartError {}
