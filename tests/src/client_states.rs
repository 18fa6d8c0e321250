//! A reader's state in memory, lent to the compiled client and to the reference: all that a call
//! says and leaves is compared. docs/LAYOUT.md, "Memory of a response's reader".

use crate::ask::OPCODES;
use crate::client_program::{Program, Said, ILL_FORMED};
use crate::tagged::{LISTED_TYPES, PROTOBUF};
use reference::{BodyFormat, Opcode};

pub const STATE_SIZE: usize = 1_037;
pub const ACCEPT_TYPE_AT: usize = 10;
pub const COUNT_AT: usize = 11;
pub const HELD_AT: usize = 13;
pub const LONGEST_RESPONSE: usize = 1_024;

/// Bytes behind the state that are never lent, to see that nothing is written there.
const GUARD: usize = 64;

/// The request whose response is awaited.
#[derive(Clone, Copy, Debug, PartialEq, Eq)]
pub struct Awaited {
    pub opcode: u16,
    pub session: u64,
    pub accept_type: u8,
}

impl Awaited {
    /// Of a request that asked for Protocol Buffers.
    pub fn protobuf(opcode: u16, session: u64) -> Awaited {
        Awaited {
            opcode,
            session,
            accept_type: PROTOBUF,
        }
    }

    /// The content type of a response with this status: on status 17 only 1.
    pub fn content_type(self, status: u16) -> u8 {
        match status {
            17 => PROTOBUF,
            _ => self.accept_type,
        }
    }

    pub fn provider(self) -> u8 {
        u8::from(matches!(self.opcode, 3 | 5 | 6 | 7))
    }

    /// What the reference's rule says of uncut bytes.
    pub fn uncut(self, bytes: &[u8]) -> Said {
        let opcode = Opcode::from_number(self.opcode).expect("a listed opcode");
        let accept = BodyFormat::from_number(self.accept_type).expect("a listed type");
        let answer = reference::read_response(opcode, self.session, accept, bytes);
        Said::of_reference(answer.taken, answer.reading)
    }
}

/// State memory that holds these bytes of the response that is awaited.
pub fn state_of(awaited: Awaited, held: &[u8]) -> Vec<u8> {
    let mut memory = vec![0; STATE_SIZE];
    memory[..2].copy_from_slice(&awaited.opcode.to_le_bytes());
    memory[2..ACCEPT_TYPE_AT].copy_from_slice(&awaited.session.to_le_bytes());
    memory[ACCEPT_TYPE_AT] = awaited.accept_type;
    memory[COUNT_AT..HELD_AT].copy_from_slice(&(held.len() as u16).to_le_bytes());
    memory[HELD_AT..][..held.len()].copy_from_slice(held);
    memory
}

/// Why memory is no state, each reason that there is.
pub fn faults_of(memory: &[u8]) -> Vec<&'static str> {
    if memory.len() != STATE_SIZE {
        return vec!["another size"];
    }
    let opcode = u16::from_le_bytes([memory[0], memory[1]]);
    let count = u16::from_le_bytes([memory[COUNT_AT], memory[COUNT_AT + 1]]);
    // All of them, for a search that may stop is slow.
    let behind = memory.get(HELD_AT + usize::from(count)..);
    let behind = behind.map_or(0, |behind| behind.iter().fold(0, |all, byte| all | byte));
    let faults = [
        (!OPCODES.contains(&opcode), "an unlisted opcode"),
        (
            !LISTED_TYPES.contains(&memory[ACCEPT_TYPE_AT]),
            "an unlisted accept type",
        ),
        (usize::from(count) > LONGEST_RESPONSE, "too many held"),
        (behind != 0, "a byte behind"),
    ];
    faults
        .into_iter()
        .filter_map(|(is_there, fault)| is_there.then_some(fault))
        .collect()
}

/// The same memory twice, lent to the one and to the other.
pub struct Both {
    proved: Vec<u8>,
    reference: Vec<u8>,
    size: usize,
}

impl Both {
    pub fn new(memory: &[u8]) -> Both {
        let guarded = [memory, &[0xA5; GUARD]].concat();
        Both {
            proved: guarded.clone(),
            reference: guarded,
            size: memory.len(),
        }
    }

    pub fn memory(&self) -> &[u8] {
        &self.reference[..self.size]
    }

    pub fn begin(&mut self, awaited: Awaited) -> Result<u32, String> {
        let Awaited {
            opcode,
            session,
            accept_type,
        } = awaited;
        let begin = |program: Program, memory: &mut [u8]| {
            program.begin(memory, opcode, session, accept_type)
        };
        let proved = begin(Program::Proved, &mut self.proved[..self.size]);
        let expected = begin(Program::Reference, &mut self.reference[..self.size]);
        if proved != expected {
            return Err(format!("begun with {proved}, expected {expected}"));
        }
        self.agree().map(|()| expected)
    }

    /// One call of each. What it leaves of a state is a state, and an ill-formed one stays.
    pub fn read(&mut self, chunk: &[u8]) -> Result<Said, String> {
        let faults = faults_of(self.memory());
        let proved = Program::Proved.read(&mut self.proved[..self.size], chunk);
        let expected = Program::Reference.read(&mut self.reference[..self.size], chunk);
        if proved != expected {
            return Err(format!("{proved:?}, expected {expected:?}"));
        }
        self.agree()?;
        if (expected.code == ILL_FORMED) == faults.is_empty() {
            return Err(format!("{expected:?} of a state with {faults:?}"));
        }
        match faults_of(self.memory()) {
            left if left != faults => Err(format!("left with {left:?} after {expected:?}")),
            _ => Ok(expected),
        }
    }

    fn agree(&self) -> Result<(), String> {
        if self.proved == self.reference {
            return Ok(());
        }
        let mut bytes = self.proved.iter().zip(&self.reference);
        let place = bytes.position(|(byte, other)| byte != other);
        Err(format!("the state, first at byte {place:?}"))
    }
}

/// Hands the chunks to a fresh state one after the other, also behind a response or a refusal, and
/// an empty one last; all of it comes to what is said of the uncut bytes.
pub fn hand_over(awaited: Awaited, chunks: &[&[u8]]) -> Result<Vec<Said>, String> {
    let mut state = Both::new(&state_of(awaited, &[]));
    let mut said = Vec::with_capacity(chunks.len() + 1);
    for &chunk in chunks.iter().chain([&&[][..]]) {
        said.push(state.read(chunk)?);
    }
    let uncut = awaited.uncut(&chunks.concat());
    let taken = said.iter().map(|said| said.taken).sum();
    let last = said.last().expect("the empty chunk's").clone();
    if (Said { taken, ..last }) != uncut {
        return Err(format!("{said:?}, expected {uncut:?}"));
    }
    Ok(said)
}
