//! The socket's file: taken if it is free or stale, and removed at the end.

use crate::Say;
use std::fmt;
use std::fs::{self, File, Metadata, TryLockError};
use std::io::{self, ErrorKind};
use std::os::unix::fs::{FileTypeExt, MetadataExt};
use std::os::unix::net::{UnixListener, UnixStream};
use std::path::{Path, PathBuf};
use std::sync::mpsc;
use std::thread;
use std::time::Duration;

/// How long a server that is there may take to accept, and another that starts to have started.
const MOMENT: Duration = Duration::from_secs(1);
const STEP: Duration = Duration::from_millis(10);

/// The file of a socket that this server made. Dropped, it removes the file.
#[derive(Debug)]
pub struct Address {
    path: PathBuf,
    file: (u64, u64),
    say: Say,
}

/// Why there is no socket at a path.
#[derive(Debug)]
pub enum SocketError {
    /// Another server listens there.
    Live,
    /// Another file is there, and stays.
    NoSocket,
    /// Another server is starting in the same folder, and does not get done.
    Busy,
    /// A socket is there, and it can't be told whether anybody listens.
    Unclear(io::Error),
    Failed(io::Error),
}

/// Listens at `path`. A socket file that nobody listens at, as a server leaves it that was killed, is
/// replaced.
pub fn listen(path: &Path, say: Say) -> Result<(UnixListener, Address), SocketError> {
    // Of two servers that start at once, one would remove the other's fresh file as a stale one.
    let _lock = lock_folder(path)?;
    remove_stale(path)?;
    let listener = UnixListener::bind(path)?;
    let file = identity(&fs::symlink_metadata(path)?);
    let path = path.to_path_buf();
    Ok((listener, Address { path, file, say }))
}

/// Holds the folder until the file is dropped. None where folders can't be locked; servers that start
/// at once are then not told apart.
fn lock_folder(path: &Path) -> Result<Option<File>, SocketError> {
    let folder = match path.parent() {
        Some(folder) if !folder.as_os_str().is_empty() => folder,
        _ => Path::new("."),
    };
    let Ok(folder) = File::open(folder) else {
        return Ok(None);
    };
    for _ in 0..MOMENT.as_millis() / STEP.as_millis() {
        match folder.try_lock() {
            Ok(()) => return Ok(Some(folder)),
            Err(TryLockError::Error(_)) => return Ok(None),
            Err(TryLockError::WouldBlock) => thread::sleep(STEP),
        }
    }
    Err(SocketError::Busy)
}

fn remove_stale(path: &Path) -> Result<(), SocketError> {
    match fs::symlink_metadata(path) {
        Ok(found) if found.file_type().is_socket() => {}
        Ok(_) => return Err(SocketError::NoSocket),
        Err(error) if error.kind() == ErrorKind::NotFound => return Ok(()),
        Err(error) => return Err(SocketError::Failed(error)),
    }
    match connect(path) {
        Ok(()) => Err(SocketError::Live),
        Err(error) if error.kind() == ErrorKind::ConnectionRefused => Ok(fs::remove_file(path)?),
        Err(error) => Err(SocketError::Unclear(error)),
    }
}

/// Does anybody listen there? A connect that has to wait says so too: others are waiting in front of it.
fn connect(path: &Path) -> io::Result<()> {
    let (sender, receiver) = mpsc::channel();
    let path = path.to_path_buf();
    thread::Builder::new().spawn(move || sender.send(UnixStream::connect(path)))?;
    match receiver.recv_timeout(MOMENT) {
        Ok(connected) => connected.map(drop),
        Err(_) => Ok(()),
    }
}

fn identity(file: &Metadata) -> (u64, u64) {
    (file.dev(), file.ino())
}

impl Drop for Address {
    /// Leaves a file alone that somebody else has put in its place.
    fn drop(&mut self) {
        let path = &self.path;
        let removed = match fs::symlink_metadata(path) {
            Ok(found) if identity(&found) == self.file => fs::remove_file(path),
            Ok(_) => Err(io::Error::other("another file is there by now, and stays")),
            Err(error) => Err(error),
        };
        if let Err(error) = removed {
            (self.say)(&format_args!("{}: not removed: {error}", path.display()));
        }
    }
}

impl From<io::Error> for SocketError {
    fn from(error: io::Error) -> SocketError {
        SocketError::Failed(error)
    }
}

impl fmt::Display for SocketError {
    fn fmt(&self, out: &mut fmt::Formatter) -> fmt::Result {
        match self {
            SocketError::Live => write!(out, "another server listens there"),
            SocketError::NoSocket => write!(out, "there is a file that is no socket"),
            SocketError::Busy => write!(out, "its folder is locked by another program"),
            SocketError::Unclear(error) => {
                write!(
                    out,
                    "there is a socket, and who listens is unclear: {error}"
                )
            }
            SocketError::Failed(error) => write!(out, "no socket: {error}"),
        }
    }
}

impl std::error::Error for SocketError {}
