//! The auditor: a captured response stream against the responses that the rules give.
//! Document 02, "The auditor".

use crate::bill::{bill_text, read_chunk, refused_start, text_of};
use crate::call::{call, MAX_CHUNK, MIN_JOURNAL_BUFFER, MIN_RESPONSE_BUFFER};
use crate::counters::Counters;
use crate::journal::{journal_begin, journal_read, JournalFault};
use crate::{CONNECTION_SIZE, JOURNAL_STATE_SIZE, REGISTRY_SIZE};
use std::fmt;
use std::io::{self, Read};

/// What is said of a captured response stream.
#[derive(Clone, Copy, Debug, PartialEq, Eq)]
pub enum Verdict {
    Accepted,
    /// The first wrong response, from 1, and the first wrong byte in it, from 0.
    Wrong {
        response: u64,
        byte: usize,
    },
}

impl fmt::Display for Verdict {
    fn fmt(&self, out: &mut fmt::Formatter) -> fmt::Result {
        match self {
            Verdict::Accepted => out.write_str("accepted"),
            Verdict::Wrong { response, byte } => write!(out, "wrong {response} {byte}"),
        }
    }
}

/// The verdict on an uncut capture against the rules' responses.
pub fn verdict(responses: &[Vec<u8>], captured: &[u8]) -> Verdict {
    let mut rest = captured;
    for (response, number) in responses.iter().zip(1..) {
        let wrong = |byte| Verdict::Wrong {
            response: number,
            byte,
        };
        // A missing byte is a wrong one.
        if let Some(byte) = (0..response.len()).find(|&at| rest.get(at) != Some(&response[at])) {
            return wrong(byte);
        }
        rest = &rest[response.len()..];
    }
    if rest.is_empty() {
        Verdict::Accepted
    } else {
        Verdict::Wrong {
            response: responses.len() as u64 + 1,
            byte: 0,
        }
    }
}

/// What the auditor prints of these five files; `None` stands for a file that can't be read, tried
/// first. They are roster, list, journal, requests and responses.
pub fn audit(files: [Option<&[u8]>; 5]) -> Vec<u8> {
    let [Some(roster), Some(list), Some(journal), Some(requests), Some(responses)] = files else {
        return no_file();
    };
    audit_from_readers(roster, list, journal, requests, responses).unwrap_or_else(|_| no_file())
}

pub fn no_file() -> Vec<u8> {
    text_of(&["no file".to_string()])
}

/// The same with journal and streams read chunk by chunk; an error is that of a file.
pub fn audit_from_readers(
    roster: &[u8],
    list: &[u8],
    mut journal: impl Read,
    mut requests: impl Read,
    mut responses: impl Read,
) -> io::Result<Vec<u8>> {
    let mut registry = vec![0; REGISTRY_SIZE];
    let mut refused = refused_start(roster, list, &mut registry);
    if refused.is_none() {
        let fault = restore(&mut registry, &mut journal)?;
        refused = fault.map(|fault| format!("journal J{}", fault.number()));
    }
    match refused {
        None => audit_from_start(registry, list, requests, responses),
        Some(refused) => {
            // An unreadable file comes before a refused start, so each is read to its end.
            io::copy(&mut journal, &mut io::sink())?;
            io::copy(&mut requests, &mut io::sink())?;
            io::copy(&mut responses, &mut io::sink())?;
            Ok(text_of(&[refused]))
        }
    }
}

/// The verdict and the bill, from this registry.
fn audit_from_start(
    mut registry: Vec<u8>,
    list: &[u8],
    mut requests: impl Read,
    responses: impl Read,
) -> io::Result<Vec<u8>> {
    let mut comparing = Comparing::new(responses);
    let mut connection = vec![0; CONNECTION_SIZE];
    let mut counters = Counters::default();
    let mut buffer = vec![0; MAX_CHUNK];
    let mut response = [0; MIN_RESPONSE_BUFFER];
    let mut record = [0; MIN_JOURNAL_BUFFER];
    loop {
        let mut chunk = read_chunk(&mut requests, &mut buffer)?;
        if chunk.is_empty() {
            break;
        }
        while !chunk.is_empty() {
            let taken = call(
                chunk,
                &mut connection,
                &mut registry,
                list,
                &mut counters,
                &mut response,
                &mut record,
            )
            .expect("memory and list are good and no file has more than 2^62 bytes");
            chunk = &chunk[taken.taken..];
            if taken.written > 0 {
                comparing.compare(&response[..taken.written])?;
            }
        }
    }
    let mut text = text_of(&[comparing.end()?.to_string()]);
    text.extend(bill_text(&counters, &registry, &connection));
    Ok(text)
}

/// Restores the journal's keys; a cut end is no fault.
fn restore(registry: &mut [u8], journal: &mut impl Read) -> io::Result<Option<JournalFault>> {
    let mut state = vec![0; JOURNAL_STATE_SIZE];
    journal_begin(&mut state).expect("memory of the exact size");
    let mut buffer = vec![0; MAX_CHUNK];
    loop {
        let chunk = read_chunk(journal, &mut buffer)?;
        let answer = journal_read(&mut state, registry, chunk).expect("memory is well formed");
        if chunk.is_empty() || answer.fault.is_some() {
            return Ok(answer.fault);
        }
    }
}

/// The captured responses, compared one response after the other.
struct Comparing<R> {
    captured: io::BufReader<R>,
    /// Of responses that were compared.
    number: u64,
    wrong: Option<Verdict>,
}

impl<R: Read> Comparing<R> {
    fn new(captured: R) -> Comparing<R> {
        Comparing {
            captured: io::BufReader::with_capacity(MAX_CHUNK, captured),
            number: 0,
            wrong: None,
        }
    }

    fn compare(&mut self, response: &[u8]) -> io::Result<()> {
        self.number += 1;
        if self.wrong.is_some() {
            return Ok(());
        }
        let mut captured = Vec::with_capacity(response.len());
        let length = response.len() as u64;
        Read::by_ref(&mut self.captured)
            .take(length)
            .read_to_end(&mut captured)?;
        let byte = (0..response.len()).find(|&at| captured.get(at) != Some(&response[at]));
        self.wrong = byte.map(|byte| Verdict::Wrong {
            response: self.number,
            byte,
        });
        Ok(())
    }

    /// Reads to the end, so that a file that can't be read is told whatever the verdict.
    fn end(mut self) -> io::Result<Verdict> {
        let left = io::copy(&mut self.captured, &mut io::sink())?;
        let runs_on = Verdict::Wrong {
            response: self.number + 1,
            byte: 0,
        };
        Ok(match self.wrong {
            Some(wrong) => wrong,
            None if left > 0 => runs_on,
            None => Verdict::Accepted,
        })
    }
}
