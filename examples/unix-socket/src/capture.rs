//! The captured streams: what calls on all connections took, so that `bill` comes to the same as the
//! server, and what they answered, so that `audit` accepts it. Requests stand whole, in the order in which
//! they were answered, and so do the responses; the README has the reasons.

use crate::Say;
use std::fmt;
use std::fs::{File, OpenOptions, TryLockError};
use std::io::{self, Write};
use std::path::{Path, PathBuf};

/// So many bytes of a request stand as they came, the longest that is read. Behind them are only
/// bytes that are skipped or dropped, and zeros stand for those.
const KEPT: usize = 4_422;

/// What a connection has taken behind its last whole request, and what it was answered if that closed it.
#[derive(Debug, Default)]
pub struct Rest {
    front: Vec<u8>,
    length: u64,
    response: Vec<u8>,
}

impl Rest {
    pub fn add(&mut self, taken: &[u8]) {
        let kept = taken.len().min(KEPT - self.front.len());
        self.front.extend(&taken[..kept]);
        self.length += taken.len() as u64;
    }

    /// The response to a bad start.
    pub fn answer(&mut self, response: &[u8]) {
        self.response = response.to_vec();
    }

    pub fn clear(&mut self) {
        self.front.clear();
        self.length = 0;
        self.response.clear();
    }

    /// How many bytes, those included that zeros stand for.
    pub fn length(&self) -> u64 {
        self.length
    }
}

/// The files, at the ends of which each answered request and its response are written.
#[derive(Debug)]
pub struct Capture {
    requests: Stream,
    responses: Option<Stream>,
    restored: usize,
    fault: Option<io::Error>,
    rests: Rests,
    say: Say,
}

/// A file that whole requests, or whole responses, are appended to.
#[derive(Debug)]
struct Stream {
    path: PathBuf,
    file: File,
    begin: u64,
    end: u64,
}

/// What connections had when they ended. A stream can have one rest, at its end.
#[derive(Debug, Default)]
struct Rests {
    first: Option<Rest>,
    connections: u64,
    bytes: u64,
}

/// A capture that has ended.
#[derive(Debug)]
pub struct Captured {
    pub path: PathBuf,
    /// Where this run's stream begins in the file, and where it ends.
    pub begin: u64,
    pub end: u64,
    /// The same of the responses, if they are captured.
    pub responses: Option<CapturedResponses>,
    /// Connections whose rests were left out, and their bytes.
    pub connections: u64,
    pub bytes: u64,
    /// Keys that the server began with, and `bill` does not.
    pub restored: usize,
    /// Why nothing was written behind `end`, though there was more.
    pub fault: Option<io::Error>,
}

/// This run's responses: the file, and where they begin and end in it.
#[derive(Debug)]
pub struct CapturedResponses {
    pub path: PathBuf,
    pub begin: u64,
    pub end: u64,
}

/// Why there is no capture.
#[derive(Debug)]
pub enum CaptureError {
    /// Another program captures into it.
    Locked,
    /// A pipe or a device, which can't be cut back to its last whole request.
    NoFile,
    Failed(io::Error),
}

impl Stream {
    /// Goes on behind what the file has, which is made if it is not there.
    fn open(path: &Path, say: Say) -> Result<Stream, CaptureError> {
        // A pipe that nobody reads would keep it waiting.
        if path.metadata().is_ok_and(|found| !found.is_file()) {
            return Err(CaptureError::NoFile);
        }
        let file = OpenOptions::new().create(true).append(true).open(path)?;
        match file.try_lock() {
            Ok(()) => {}
            Err(TryLockError::WouldBlock) => return Err(CaptureError::Locked),
            Err(TryLockError::Error(error)) => return Err(CaptureError::Failed(error)),
        }
        let begin = file.metadata()?.len();
        if begin > 0 {
            let path = path.display();
            say(&format_args!("{path}: captures behind its {begin} bytes"));
        }
        Ok(Stream {
            path: path.to_path_buf(),
            file,
            begin,
            end: begin,
        })
    }

    /// So many bytes: these, and zeros.
    fn write(&mut self, front: &[u8], length: u64) -> io::Result<()> {
        self.file.write_all(front)?;
        // Zeros without writing them: up to four gigabytes, while all connections wait.
        if length > front.len() as u64 {
            self.file.set_len(self.end + length)?;
        }
        Ok(())
    }

    /// What stands behind the end is no whole request or response.
    fn cut(&self) -> io::Result<()> {
        self.file.set_len(self.end)
    }
}

impl Capture {
    /// Captures requests, and responses if there is a file for them. The server begins with so many keys.
    pub fn open(path: &Path, restored: usize, say: Say) -> Result<Capture, CaptureError> {
        Ok(Capture {
            requests: Stream::open(path, say)?,
            responses: None,
            restored,
            fault: None,
            rests: Rests::default(),
            say,
        })
    }

    /// Captures responses too.
    pub fn with_responses(mut self, path: &Path) -> Result<Capture, CaptureError> {
        self.responses = Some(Stream::open(path, self.say)?);
        Ok(self)
    }

    /// Appends a request and its response. The first ones that can't be written whole are the last that are
    /// tried: with a gap in it a stream would have another bill, or another verdict.
    pub fn append(&mut self, request: &Rest, response: &[u8]) {
        if self.fault.is_some() {
            return;
        }
        if let Err(error) = self.write(request, response) {
            let (path, end) = (self.requests.path.display(), self.requests.end);
            (self.say)(&format_args!(
                "{path}: {error}; nothing is captured behind byte {end}"
            ));
            // A part of either may stand there.
            let cut = self.requests.cut();
            let cut = cut.and(self.responses.as_ref().map_or(Ok(()), Stream::cut));
            self.fault = Some(cut.err().unwrap_or(error));
        }
    }

    /// Neither counts before both are written.
    fn write(&mut self, request: &Rest, response: &[u8]) -> io::Result<()> {
        self.requests.write(&request.front, request.length)?;
        if let Some(responses) = &mut self.responses {
            responses.write(response, response.len() as u64)?;
            responses.end += response.len() as u64;
        }
        self.requests.end += request.length;
        Ok(())
    }

    /// A connection has ended with this rest.
    pub fn keep(&mut self, rest: Rest) {
        if rest.length > 0 {
            self.rests.connections += 1;
            self.rests.bytes += rest.length;
            self.rests.first.get_or_insert(rest);
        }
    }

    /// Appends the rest if there is only one.
    pub fn finish(mut self) -> Captured {
        let mut rests = std::mem::take(&mut self.rests);
        if let (1, Some(rest)) = (rests.connections, &rests.first) {
            self.append(rest, &rest.response);
            rests = Rests::default();
        }
        let synced = self.requests.file.sync_all();
        let synced = synced.and(match &self.responses {
            Some(responses) => responses.file.sync_all(),
            None => Ok(()),
        });
        let responses = self.responses.map(|stream| CapturedResponses {
            path: stream.path,
            begin: stream.begin,
            end: stream.end,
        });
        Captured {
            path: self.requests.path,
            begin: self.requests.begin,
            end: self.requests.end,
            responses,
            connections: rests.connections,
            bytes: rests.bytes,
            restored: self.restored,
            fault: self.fault.or(synced.err()),
        }
    }
}

impl fmt::Display for Captured {
    fn fmt(&self, out: &mut fmt::Formatter) -> fmt::Result {
        let Captured {
            path,
            begin,
            end,
            responses,
            connections,
            bytes,
            restored,
            fault,
        } = self;
        let path = path.display();
        write!(out, "{path}: captured bytes {begin} to {end}")?;
        if let Some(CapturedResponses { path, begin, end }) = responses {
            write!(
                out,
                ", responses in {}: bytes {begin} to {end}",
                path.display()
            )?;
        }
        if let Some(error) = fault {
            return write!(out, ", and not all that was taken: {error}");
        }
        if *connections > 0 {
            let left_out = format!("{connections} connections, {bytes} bytes, are left out");
            write!(out, "; the ends of {left_out}")?;
        }
        match (connections, restored) {
            (0, 0) => write!(out, ", with the same bill"),
            (_, 0) => Ok(()),
            _ => write!(
                out,
                "; a bill of it begins without the {restored} keys that were restored"
            ),
        }
    }
}

impl From<io::Error> for CaptureError {
    fn from(error: io::Error) -> CaptureError {
        CaptureError::Failed(error)
    }
}

impl fmt::Display for CaptureError {
    fn fmt(&self, out: &mut fmt::Formatter) -> fmt::Result {
        match self {
            CaptureError::Locked => write!(out, "another program captures into it"),
            CaptureError::NoFile => write!(out, "not a file that can be captured into"),
            CaptureError::Failed(error) => write!(out, "can't be captured into: {error}"),
        }
    }
}

impl std::error::Error for CaptureError {}
