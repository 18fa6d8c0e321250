//! The journal's file: restored at the start, and then each record synced before its response is sent.
//! Beside it lies a copy of its roster, since records name applications by their lines' numbers.

use crate::Say;
use razidkot::{Journal, JournalFault, JournalReader, RefusedJournal, Registry};
use std::ffi::OsString;
use std::fmt;
use std::fs::{self, File, OpenOptions, TryLockError};
use std::io::{self, ErrorKind, Read, Write};
use std::path::{Path, PathBuf};

/// The registry is checked once a chunk, so that long ones are quick.
const CHUNK: usize = 65_536;

/// Where the server's records go.
#[derive(Debug)]
pub enum Records {
    /// Nowhere: keys are lost when the server stops.
    Dropped,
    Kept(JournalFile),
}

impl Journal for Records {
    type Error = io::Error;

    fn append(&mut self, record: &[u8]) -> io::Result<()> {
        match self {
            Records::Dropped => Ok(()),
            Records::Kept(journal) => journal.append(record),
        }
    }
}

impl Records {
    /// How many bytes of the journal were restored, if there is one.
    pub fn length(&self) -> Option<u64> {
        match self {
            Records::Dropped => None,
            Records::Kept(journal) => Some(journal.restored),
        }
    }
}

/// A locked file, all of it whole records.
#[derive(Debug)]
pub struct JournalFile {
    file: File,
    /// How many bytes it had when it was opened.
    restored: u64,
}

/// Why there is no journal.
#[derive(Debug)]
pub enum JournalError {
    /// Another server has it.
    Locked,
    /// A pipe or a device, which keeps nothing.
    NoFile,
    /// The copy of the roster beside the journal does not begin this roster.
    OtherRoster(PathBuf),
    /// There are records, and no copy of their roster.
    NoRoster(PathBuf),
    Refused(RefusedJournal),
    Failed(io::Error),
}

impl JournalFile {
    /// Restores the keys into the roster's registry, drops a cut record at the file's end, and says so.
    /// The file is made if it is not there.
    pub fn open(
        path: &Path,
        roster: &[u8],
        registry: Registry,
        say: Say,
    ) -> Result<(JournalFile, Registry), JournalError> {
        // A pipe that nobody writes would keep it waiting.
        if path.metadata().is_ok_and(|found| !found.is_file()) {
            return Err(JournalError::NoFile);
        }
        let mut options = OpenOptions::new();
        let mut file = options.read(true).append(true).create(true).open(path)?;
        match file.try_lock() {
            Ok(()) => {}
            Err(TryLockError::WouldBlock) => return Err(JournalError::Locked),
            Err(TryLockError::Error(error)) => return Err(JournalError::Failed(error)),
        }
        // However the file is named, its roster is beside it.
        let real = fs::canonicalize(path)?;
        let copy = Copy::beside(&real);
        copy.check(roster, file.metadata()?.len())?;
        let registry = restore(&mut file, registry, &path.display(), say)?;
        copy.renew(roster)?;
        sync_folder(&real)?;
        let restored = file.metadata()?.len();
        Ok((JournalFile { file, restored }, registry))
    }

    /// Comes back when the record is on disk.
    fn append(&mut self, record: &[u8]) -> io::Result<()> {
        self.file.write_all(record)?;
        self.file.sync_data()
    }
}

/// Reads the file, and cuts it to its whole records.
fn restore(
    file: &mut File,
    registry: Registry,
    path: &dyn fmt::Display,
    say: Say,
) -> Result<Registry, JournalError> {
    let mut reader = JournalReader::begin(registry);
    let mut chunk = vec![0; CHUNK];
    loop {
        match file.read(&mut chunk) {
            Ok(0) => break,
            Ok(length) => reader.read(&chunk[..length])?,
            Err(error) if error.kind() == ErrorKind::Interrupted => {}
            Err(error) => return Err(error.into()),
        }
    }
    let restored = reader.finish()?;
    if restored.cut > 0 {
        // Behind a part of a record nothing could be read.
        file.set_len(restored.kept)?;
    }
    file.sync_all()?;
    let (keys, kept, cut) = (keys_of(&restored.registry), restored.kept, restored.cut);
    say(&format_args!(
        "{path}: restored keys {keys}, from {kept} bytes; dropped {cut} bytes of a cut record"
    ));
    Ok(restored.registry)
}

/// How many keys a registry has.
pub fn keys_of(registry: &Registry) -> usize {
    let slots = registry
        .applications()
        .flat_map(|application| application.slots);
    slots.flatten().count()
}

/// The roster that the journal was written with: its lines are numbered by it.
struct Copy {
    path: PathBuf,
}

impl Copy {
    fn beside(journal: &Path) -> Copy {
        Copy {
            path: with_suffix(journal, ".roster"),
        }
    }

    /// A roster that begins with the copy is good: the lines of all records are what they were. Where
    /// there is no record, any is.
    fn check(&self, roster: &[u8], journal_length: u64) -> Result<(), JournalError> {
        match fs::read(&self.path) {
            _ if journal_length == 0 => Ok(()),
            Ok(copy) if roster.starts_with(&copy) => Ok(()),
            Ok(_) => Err(JournalError::OtherRoster(self.path.clone())),
            Err(error) if error.kind() == ErrorKind::NotFound => {
                Err(JournalError::NoRoster(self.path.clone()))
            }
            Err(error) => Err(error.into()),
        }
    }

    /// Makes it this roster, whole or not at all.
    fn renew(&self, roster: &[u8]) -> io::Result<()> {
        if fs::read(&self.path).is_ok_and(|copy| copy == roster) {
            return Ok(());
        }
        let new = with_suffix(&self.path, ".new");
        let mut file = File::create(&new)?;
        file.write_all(roster)?;
        file.sync_all()?;
        fs::rename(&new, &self.path)
    }
}

fn with_suffix(path: &Path, suffix: &str) -> PathBuf {
    let mut name = OsString::from(path);
    name.push(suffix);
    name.into()
}

/// The names of new files in a folder are on disk when the folder is.
fn sync_folder(file: &Path) -> io::Result<()> {
    let folder = file.parent().expect("a file is in a folder");
    File::open(folder)?.sync_all()
}

impl From<io::Error> for JournalError {
    fn from(error: io::Error) -> JournalError {
        JournalError::Failed(error)
    }
}

impl From<RefusedJournal> for JournalError {
    fn from(refused: RefusedJournal) -> JournalError {
        JournalError::Refused(refused)
    }
}

impl fmt::Display for JournalError {
    fn fmt(&self, out: &mut fmt::Formatter) -> fmt::Result {
        match self {
            JournalError::Locked => write!(out, "another server has this journal"),
            JournalError::NoFile => write!(out, "not a file that can be a journal"),
            JournalError::OtherRoster(copy) => write!(
                out,
                "another roster: the journal is of {}, which has to be the beginning of the roster",
                copy.display()
            ),
            JournalError::NoRoster(copy) => write!(
                out,
                "{} is missing: copy the roster there that the journal was written with",
                copy.display()
            ),
            JournalError::Refused(refused) => write!(out, "{refused}: {}", advice(*refused)),
            JournalError::Failed(error) => write!(out, "no journal: {error}"),
        }
    }
}

/// What is wrong, and what to do.
fn advice(refused: RefusedJournal) -> String {
    let what = match refused.fault {
        JournalFault::WrongCrc => "its CRC is wrong: the file was changed or damaged",
        JournalFault::WrongLayout => "no import or destroy: no journal, or one of a later version",
        JournalFault::NotAllowed => "its line is not in use, or Import or Destroy would refuse it",
    };
    let kept = refused.kept;
    format!(
        "{what}; `razidkot journal show` shows it. Restore a good copy, or lose this change and all \
         behind it: truncate --size={kept}"
    )
}

impl std::error::Error for JournalError {}
