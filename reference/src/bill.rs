//! The bill of a roster file, a captured stream and a list of keys.
//! Document 01, "The bill"; document 02, "Keys we ship" and "Use per key".

use crate::call::{call, Refusal, MAX_CHUNK, MIN_JOURNAL_BUFFER, MIN_RESPONSE_BUFFER};
use crate::connection::unfinished_bytes;
use crate::counters::Counters;
use crate::list::list_is_well_formed;
use crate::registry::{application_name, read_uses, used_slots, Line};
use crate::roster::load_roster;
use crate::status::Status;
use crate::{CONNECTION_SIZE, REGISTRY_SIZE};
use std::io::{self, ErrorKind, Read};

/// The bill of these three files; `None` stands for a file that can't be read, tried first.
pub fn bill(roster: Option<&[u8]>, stream: Option<&[u8]>, list: Option<&[u8]>) -> Vec<u8> {
    let no_file = || text_of(&["no file".to_string()]);
    match (roster, stream, list) {
        (Some(roster), Some(stream), Some(list)) => {
            bill_from_reader(roster, stream, list).unwrap_or_else(|_| no_file())
        }
        _ => no_file(),
    }
}

/// The bill of a roster file, a stream read chunk by chunk and a list; an error is the stream's own.
pub fn bill_from_reader(roster: &[u8], mut stream: impl Read, list: &[u8]) -> io::Result<Vec<u8>> {
    let mut registry = vec![0; REGISTRY_SIZE];
    if let Some(refused) = refused_start(roster, list, &mut registry) {
        // An unreadable stream comes before a refused start, so it is read to its end.
        io::copy(&mut stream, &mut io::sink())?;
        return Ok(text_of(&[refused]));
    }
    let mut connection = vec![0; CONNECTION_SIZE];
    let mut counters = Counters::default();
    let mut buffer = vec![0; MAX_CHUNK];
    loop {
        let chunk = read_chunk(&mut stream, &mut buffer)?;
        if chunk.is_empty() {
            return Ok(bill_text(&counters, &registry, &connection));
        }
        take_chunk(chunk, &mut connection, &mut registry, list, &mut counters);
    }
}

/// Loads the roster; the only line of the bill where it or, the roster being good, the list is bad.
pub(crate) fn refused_start(roster: &[u8], list: &[u8], registry: &mut [u8]) -> Option<String> {
    if let Err(fault) = load_roster(roster, registry) {
        return Some(format!("roster R{}", fault.number()));
    }
    (!list_is_well_formed(list)).then(|| format!("list C{}", Refusal::ListIllFormed.number()))
}

/// The bill of these counters, on a well-formed registry and connection.
pub fn bill_text(counters: &Counters, registry: &[u8], connection: &[u8]) -> Vec<u8> {
    let mut lines = vec![format!("taken {}", counters.taken)];
    lines.extend(roster_lines(counters, registry));
    lines.extend(key_lines(registry));
    lines.push(format!("open {}", counters.unauthenticated));
    lines.extend(refused_lines(counters));
    lines.push(format!("dropped {}", counters.dropped));
    lines.push(format!("held {}", unfinished_bytes(connection)));
    text_of(&lines)
}

fn roster_lines<'a>(
    counters: &'a Counters,
    registry: &'a [u8],
) -> impl Iterator<Item = String> + 'a {
    Line::all()
        .map(|line| (line.number(), application_name(registry, line)))
        .take_while(|(_, name)| !name.is_empty())
        .map(|(number, name)| {
            // Legal names are ASCII, so nothing is lost.
            let name = String::from_utf8_lossy(name);
            format!("line {number} {name} {}", counters.served[number])
        })
}

/// Of every used slot, one whose key nobody used too.
fn key_lines(registry: &[u8]) -> impl Iterator<Item = String> + '_ {
    Line::all().flat_map(move |line| {
        used_slots(registry, line).map(move |slot| {
            let uses = read_uses(registry, line, slot);
            format!("key {} {} {uses}", line.number(), slot.number())
        })
    })
}

fn refused_lines(counters: &Counters) -> impl Iterator<Item = String> + '_ {
    Status::REFUSED
        .into_iter()
        .zip(counters.refused)
        .filter(|&(_, count)| count != 0)
        .map(|(status, count)| format!("refused {} {count}", status.number()))
}

/// Every line ends with a newline, the last one too.
pub(crate) fn text_of(lines: &[String]) -> Vec<u8> {
    lines
        .iter()
        .flat_map(|line| [line.as_bytes(), b"\n"])
        .flatten()
        .copied()
        .collect()
}

/// The next bytes of the stream; none at its end.
pub(crate) fn read_chunk<'a>(stream: &mut impl Read, buffer: &'a mut [u8]) -> io::Result<&'a [u8]> {
    loop {
        match stream.read(buffer) {
            Ok(count) => return Ok(&buffer[..count]),
            Err(error) if error.kind() == ErrorKind::Interrupted => {}
            Err(error) => return Err(error),
        }
    }
}

fn take_chunk(
    mut chunk: &[u8],
    connection: &mut [u8],
    registry: &mut [u8],
    list: &[u8],
    counters: &mut Counters,
) {
    let response = &mut [0; MIN_RESPONSE_BUFFER];
    let journal = &mut [0; MIN_JOURNAL_BUFFER];
    while !chunk.is_empty() {
        let taken = call(
            chunk, connection, registry, list, counters, response, journal,
        )
        .expect("memory and list are good and no file has more than 2^62 bytes");
        chunk = &chunk[taken.taken..];
    }
}
