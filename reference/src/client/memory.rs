//! A reader's state in lent memory of one exact size: layout, well-formedness, begin and read.
//! Document 02, "The client's half" and "A second body format"; the layout is the one set down in docs/.

use super::read::{ReadAnswer, Reader, LONGEST_READABLE_RESPONSE};
use crate::bytes::{is_zero, read_u16, read_u64, write_at};
use crate::message::BodyFormat;
use crate::opcode::Opcode;

pub const CLIENT_SIZE: usize = BYTES_AT + LONGEST_READABLE_RESPONSE;

const SESSION_AT: usize = 2;
const ACCEPT_TYPE_AT: usize = 10;
const HELD_AT: usize = 11;
const BYTES_AT: usize = 13;

/// A state that no reading leaves, refused before a byte is taken.
#[derive(Clone, Copy, Debug, PartialEq, Eq)]
pub struct IllFormed;

/// Memory of another size than `CLIENT_SIZE`.
#[derive(Clone, Copy, Debug, PartialEq, Eq)]
pub struct WrongSize;

/// Makes memory of the exact size a fresh state, whatever lay there; leaves any other alone.
pub fn client_begin(
    memory: &mut [u8],
    opcode: Opcode,
    session: u64,
    accept: BodyFormat,
) -> Result<(), WrongSize> {
    if memory.len() != CLIENT_SIZE {
        return Err(WrongSize);
    }
    memory.fill(0);
    write_at(memory, 0, &opcode.number().to_le_bytes());
    write_at(memory, SESSION_AT, &session.to_le_bytes());
    memory[ACCEPT_TYPE_AT] = accept.number();
    Ok(())
}

/// `Reader::read` on the state in `memory`; an ill-formed one stays as it is.
pub fn client_read(memory: &mut [u8], chunk: &[u8]) -> Result<ReadAnswer, IllFormed> {
    let mut reader = load(memory).ok_or(IllFormed)?;
    let answer = reader.read(chunk);
    write_at(memory, HELD_AT, &(reader.held.len() as u16).to_le_bytes());
    write_at(memory, BYTES_AT, &reader.held);
    Ok(answer)
}

/// The state, unless it is ill formed. Any held bytes are well formed, and any session is.
fn load(memory: &[u8]) -> Option<Reader> {
    if memory.len() != CLIENT_SIZE {
        return None;
    }
    let opcode = Opcode::from_number(read_u16(memory, 0))?;
    let accept = BodyFormat::from_number(memory[ACCEPT_TYPE_AT])?;
    let held_length = usize::from(read_u16(memory, HELD_AT));
    let (held, unused) = memory[BYTES_AT..].split_at_checked(held_length)?;
    is_zero(unused).then(|| Reader {
        opcode,
        session: read_u64(memory, SESSION_AT),
        accept,
        held: held.to_vec(),
    })
}
