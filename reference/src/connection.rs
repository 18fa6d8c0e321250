//! The connection in its lent memory: layout, well-formedness and the changes a call makes.
//! Document 01, "Roster, registry, connection, tally"; the layout is the one set down in docs/.

use crate::bytes::{is_zero, read_u64, write_at};
use crate::call::Refusal;
use crate::wire::{header_length, start_is_good, Header, LONGEST_REQUEST, START_LENGTH};

pub const CONNECTION_SIZE: usize = BYTES_AT + LONGEST_REQUEST;

const COUNT_AT: usize = 1;
const BYTES_AT: usize = 9;

const OPEN: u8 = 0;
const SKIPPING: u8 = 1;
const CLOSED: u8 = 2;

/// What a well-formed connection is.
#[derive(Clone, Copy, Debug, PartialEq, Eq)]
pub enum State {
    Open { held: usize },
    Skipping { to_go: u64 },
    Closed,
}

pub fn connection_is_well_formed(connection: &[u8]) -> bool {
    read_state(connection).is_some()
}

/// Makes memory of the exact size a fresh connection, open and holding nothing: all zero.
pub fn open_connection(connection: &mut [u8]) -> Result<(), Refusal> {
    if connection.len() != CONNECTION_SIZE {
        return Err(Refusal::ConnectionIllFormed);
    }
    reset(connection);
    Ok(())
}

/// The connection's state, unless it is ill formed.
pub fn read_state(connection: &[u8]) -> Option<State> {
    if connection.len() != CONNECTION_SIZE {
        return None;
    }
    let count = read_u64(connection, COUNT_AT);
    match connection[0] {
        OPEN => read_open(count, &connection[BYTES_AT..]),
        SKIPPING => read_skipping(count, &connection[BYTES_AT..]),
        // A closed connection holds nothing, so the rest is all zero.
        CLOSED => is_zero(&connection[1..]).then_some(State::Closed),
        _ => None,
    }
}

fn read_open(count: u64, bytes: &[u8]) -> Option<State> {
    let count = usize::try_from(count).ok()?;
    let (held, unused) = bytes.split_at_checked(count)?;
    (is_beginning_of_request(held) && is_zero(unused)).then_some(State::Open { held: count })
}

fn is_beginning_of_request(held: &[u8]) -> bool {
    if held.len() < START_LENGTH {
        return true;
    }
    if !start_is_good(held) {
        return false;
    }
    if held.len() < header_length(held) {
        return true;
    }
    let header = Header::read(held);
    !header.is_oversized() && (held.len() as u64) < header.request_length()
}

fn read_skipping(to_go: u64, bytes: &[u8]) -> Option<State> {
    if !start_is_good(bytes) {
        return None;
    }
    let header = Header::read(bytes);
    (header.is_oversized()
        && (1..=header.payload_length()).contains(&to_go)
        && is_zero(&bytes[header.length..]))
    .then_some(State::Skipping { to_go })
}

/// Bytes of an unfinished request, skipped ones too; of a well-formed connection.
pub fn unfinished_bytes(connection: &[u8]) -> u64 {
    match read_state(connection) {
        Some(State::Open { held }) => held as u64,
        Some(State::Skipping { to_go }) => skipped_header(connection).request_length() - to_go,
        Some(State::Closed) | None => 0,
    }
}

/// The bytes that an open connection holds.
pub fn held_bytes(connection: &[u8], held: usize) -> &[u8] {
    &connection[BYTES_AT..BYTES_AT + held]
}

/// The header that a skipping connection holds.
pub fn skipped_header(connection: &[u8]) -> Header {
    Header::read(&connection[BYTES_AT..])
}

/// Adds bytes behind the `held` ones of an open connection.
pub fn hold(connection: &mut [u8], held: usize, bytes: &[u8]) {
    write_at(connection, BYTES_AT + held, bytes);
    write_count(connection, (held + bytes.len()) as u64);
}

/// Makes an open connection that holds exactly a header, or a skipping one, one that skips.
pub fn skip(connection: &mut [u8], to_go: u64) {
    connection[0] = SKIPPING;
    write_count(connection, to_go);
}

pub fn close(connection: &mut [u8]) {
    connection.fill(0);
    connection[0] = CLOSED;
}

pub fn reset(connection: &mut [u8]) {
    connection.fill(0);
}

fn write_count(connection: &mut [u8], count: u64) {
    write_at(connection, COUNT_AT, &count.to_le_bytes());
}
