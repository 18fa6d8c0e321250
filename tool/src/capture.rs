//! `capture show`: a captured stream, handed to the compiled service and shown request by request.

use crate::arguments::Arguments;
use crate::request::Request;
use crate::response::{broken_at, byte_of_body};
use crate::{input, list, roster, Failure};
use razidkot::{Audit, Buffers, Connection, Held, List, NoJournal, Registry, Service, Status};
use razidkot::{Verdict, LONGEST_CHUNK};
use std::fs::File;
use std::io::{self, Write};
use std::path::{Path, PathBuf};

const SHOW: &str = "capture show";

/// The longest request that is read; of a longer one no more is kept.
const LONGEST_REQUEST: usize = 4_422;

/// Does `capture ..`.
pub fn run(mut arguments: Arguments, out: &mut dyn Write) -> Result<(), Failure> {
    let command = arguments.word("capture", "a command")?;
    if command != "show" {
        return Err(Failure::unknown("capture", "command", &command));
    }
    let file = PathBuf::from(arguments.word(SHOW, "FILE")?);
    let roster = arguments.path("--roster");
    let roster = roster.ok_or_else(|| Failure::usage(SHOW, "--roster FILE is missing"))?;
    let list = arguments.path("--list");
    let responses = arguments.path("--responses");
    arguments.end(SHOW)?;

    let registry = roster::load(&roster)?;
    let list = list.map_or(Ok(List::new()), |file| list::load(&file))?;
    let verdict = match &responses {
        Some(responses) => Some(audit(&registry, &list, &file, responses)?),
        None => None,
    };
    let service = Service::new(registry, list, NoJournal);
    let mut capture = Capture::new(service, verdict);
    let failed = |error| Failure::at(&file, error);
    let mut stream = File::open(&file).map_err(failed)?;
    let mut chunk = vec![0; LONGEST_CHUNK];
    let mut length = input::read(&mut stream, &mut chunk).map_err(failed)?;
    heading(out).map_err(Failure::output)?;
    while length > 0 {
        let shown = capture.show(&chunk[..length], out);
        shown.map_err(Failure::output)?;
        length = input::read(&mut stream, &mut chunk).map_err(failed)?;
    }
    capture.end(out).map_err(Failure::output)?;
    match (verdict, responses) {
        (Some(Verdict::Wrong { .. }), Some(file)) => Err(Failure::at(&file, "a wrong response")),
        _ => Ok(()),
    }
}

/// What the proved auditor says of the responses.
fn audit(
    registry: &Registry,
    list: &List,
    requests: &Path,
    responses: &Path,
) -> Result<Verdict, Failure> {
    let open = |file: &Path| File::open(file).map_err(|error| Failure::at(file, error));
    let (mut stream, mut captured) = (open(requests)?, open(responses)?);
    let audit = Audit::begin(registry.clone(), list.clone());
    let audited = audit.read(&mut stream, &mut captured);
    let audited = audited.map_err(|error| Failure::at(requests, error))?;
    Ok(audited.verdict)
}

/// The service, and what is needed to show the request that it is at.
struct Capture {
    service: Service<NoJournal>,
    connection: Connection,
    /// The first bytes of that request.
    request: Vec<u8>,
    /// How many were answered before it.
    answered: u64,
    /// What is said of the responses, if there are any.
    verdict: Option<Verdict>,
}

impl Capture {
    fn new(service: Service<NoJournal>, verdict: Option<Verdict>) -> Capture {
        Capture {
            service,
            connection: Connection::open(),
            request: Vec::new(),
            answered: 0,
            verdict,
        }
    }

    /// Shows the requests that this chunk finishes.
    fn show(&mut self, chunk: &[u8], out: &mut dyn Write) -> io::Result<()> {
        let mut buffers = Buffers::new();
        let mut rest = chunk;
        while !rest.is_empty() {
            let offset = self.service.counters().answered;
            let answer = self
                .service
                .call(&mut self.connection, rest, &mut buffers)
                .expect("a chunk in bounds, and counters of fewer than 2^62 bytes");
            let (taken, behind) = rest.split_at(answer.taken);
            let room = LONGEST_REQUEST - self.request.len();
            self.request.extend(&taken[..taken.len().min(room)]);
            if let Some(response) = answer.response {
                let status = u16::from_le_bytes([response[24], response[25]]);
                let broken = broken_at(response);
                self.show_request(offset, status, broken, out)?;
            }
            rest = behind;
        }
        Ok(())
    }

    /// Shows the request that was just answered, and begins the next.
    fn show_request(
        &mut self,
        offset: u64,
        status: u16,
        broken: Option<u32>,
        out: &mut dyn Write,
    ) -> io::Result<()> {
        let length = self.service.counters().answered - offset;
        let name = Status::from_number(status).map_or("-".into(), |status| format!("{status:?}"));
        // One with a wrong start has no header whose fields could be told.
        let request = Request::new(&self.request);
        let operation = request.as_ref().map(Request::operation);
        let application = request.as_ref().and_then(Request::application);
        let [operation, application] =
            [operation, application].map(|field| field.unwrap_or_else(|| "unread".into()));
        let broken = broken.map_or(String::new(), |at| format!(" {}", byte_of_body(at)));
        self.request.clear();
        self.answered += 1;
        let mark = self.mark();
        writeln!(
            out,
            "{offset:>10} {length:>10} {status:>7} {name:<31} {operation:<19} {application}{broken}{mark}"
        )
    }

    /// Of the first wrong response, what is said of it.
    fn mark(&self) -> String {
        match self.verdict {
            Some(Verdict::Wrong { response, byte }) if response == self.answered => {
                format!("  <- captured response wrong at byte {byte}")
            }
            _ => String::new(),
        }
    }

    /// Shows what is behind the last request.
    fn end(&self, out: &mut dyn Write) -> io::Result<()> {
        let counters = self.service.counters();
        let (offset, held) = (counters.answered, self.connection.held());
        let length = held.count();
        if length > 0 {
            let what = said(held);
            writeln!(out, "{offset:>10} {length:>10}    held {what}")?;
        }
        let length = counters.dropped;
        if length > 0 {
            writeln!(out, "{offset:>10} {length:>10} dropped behind a close")?;
        }
        match self.verdict {
            Some(verdict) => writeln!(out, "{verdict}"),
            None => Ok(()),
        }
    }
}

fn heading(out: &mut dyn Write) -> io::Result<()> {
    let [offset, length, status, name] = ["offset", "length", "status", ""];
    let [operation, application] = ["operation", "application"];
    writeln!(
        out,
        "{offset:>10} {length:>10} {status:>7} {name:<31} {operation:<19} {application}"
    )
}

/// The beginning of a request, in words.
fn said(held: Held) -> String {
    let (what, bytes) = match held {
        Held::Skipping { header, .. } => ("an oversized request", header),
        Held::Beginning(bytes) => ("a request", bytes),
        Held::Closed => ("nothing", &[][..]),
    };
    match (Request::new(bytes), held.to_go()) {
        (Some(request), Some(to_go)) => {
            let operation = request.operation();
            format!("{what} not finished: {operation}, bytes to go: {to_go}")
        }
        _ => format!("{what} not finished: its header is not whole"),
    }
}
