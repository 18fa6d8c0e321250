//! The compiled client and the reference's under one face: the archive's numbers, and an output as
//! it is read from the state's memory. Document 02, "The client's half".

use crate::client_asked::Asked;
use crate::client_states::ACCEPT_TYPE_AT;
use razidkot_client::raw::{self, OutputNumbers, Request};
use reference::{BodyFormat, CoreOpcode, Opcode, Output, ReadRefusal, Reading};

/// What reading says while more is awaited, of a response and of an ill-formed state.
pub const WAITING: u32 = 0;
pub const RESPONSE: u32 = 1;
pub const ILL_FORMED: u32 = 2;

/// The numbers of the refusals, in the order in which they are tried.
pub const WRONG_MAGIC: u32 = 3;
pub const WRONG_HEADER_SIZE: u32 = 4;
pub const WRONG_VERSION: u32 = 5;
pub const WRONG_CONTENT_TYPE: u32 = 6;
pub const NOT_ITS_REQUESTS: u32 = 7;
pub const CONTENT_TOO_LONG: u32 = 8;
pub const UNREADABLE_BODY: u32 = 9;
pub const REFUSALS: [u32; 7] = [
    WRONG_MAGIC,
    WRONG_HEADER_SIZE,
    WRONG_VERSION,
    WRONG_CONTENT_TYPE,
    NOT_ITS_REQUESTS,
    CONTENT_TOO_LONG,
    UNREADABLE_BODY,
];

/// Entries of a list's room that no entry was written to.
const UNTOUCHED: u32 = 0xEEEE_EEEE;

/// What a call of the reader says; `output` is `Nothing` where there is no response.
#[derive(Clone, Debug, PartialEq, Eq)]
pub struct Said {
    pub code: u32,
    pub status: u32,
    pub taken: usize,
    pub output: Output,
}

impl Said {
    fn without_response(code: u32, taken: usize) -> Said {
        Said {
            code,
            status: 0,
            taken,
            output: Output::Nothing,
        }
    }

    pub fn of_reference(taken: usize, reading: Reading) -> Said {
        match reading {
            Reading::Waiting => Said::without_response(WAITING, taken),
            Reading::Response { status, output } => Said {
                code: RESPONSE,
                status: status.into(),
                taken,
                output,
            },
            Reading::Refused(refusal) => Said::without_response(refusal_number(refusal), taken),
        }
    }
}

#[derive(Clone, Copy, Debug, PartialEq, Eq)]
pub enum Program {
    Proved,
    Reference,
}

impl Program {
    pub const BOTH: [Program; 2] = [Program::Proved, Program::Reference];

    pub fn write(self, asked: &Asked, out: &mut [u8]) -> Request {
        match self {
            Program::Proved => asked.write_proved(out),
            Program::Reference => asked.write_reference(out),
        }
    }

    /// 0, or 1 for memory of another size, or 2 for an opcode that is not listed, or 3 for an accept type
    /// that is not.
    pub fn begin(self, state: &mut [u8], opcode: u16, session: u64, accept_type: u8) -> u32 {
        match self {
            Program::Proved => raw::begin(state, opcode, session, accept_type),
            Program::Reference => begin_reference(state, opcode, session, accept_type),
        }
    }

    pub fn read(self, state: &mut [u8], chunk: &[u8]) -> Said {
        match self {
            Program::Proved => read_proved(state, chunk),
            Program::Reference => match reference::client_read(state, chunk) {
                Ok(answer) => Said::of_reference(answer.taken, answer.reading),
                Err(reference::IllFormed) => Said::without_response(ILL_FORMED, 0),
            },
        }
    }
}

/// The reference's types have the listed opcodes and formats alone. Another number is told apart here,
/// behind the memory's size, which is judged with a copy.
fn begin_reference(state: &mut [u8], opcode: u16, session: u64, accept_type: u8) -> u32 {
    let any = Opcode::Core(CoreOpcode::Ping);
    if reference::client_begin(&mut state.to_vec(), any, session, BodyFormat::Tagged).is_err() {
        return 1;
    }
    let Some(opcode) = Opcode::from_number(opcode) else {
        return 2;
    };
    let Some(accept) = BodyFormat::from_number(accept_type) else {
        return 3;
    };
    let begun = reference::client_begin(state, opcode, session, accept);
    assert_eq!(begun, Ok(()));
    0
}

fn refusal_number(refusal: ReadRefusal) -> u32 {
    match refusal {
        ReadRefusal::WrongMagic => WRONG_MAGIC,
        ReadRefusal::WrongHeaderSize => WRONG_HEADER_SIZE,
        ReadRefusal::WrongVersion => WRONG_VERSION,
        ReadRefusal::WrongContentType => WRONG_CONTENT_TYPE,
        ReadRefusal::NotItsRequests => NOT_ITS_REQUESTS,
        ReadRefusal::ContentTooLong => CONTENT_TOO_LONG,
        ReadRefusal::UnreadableBody => UNREADABLE_BODY,
    }
}

fn read_proved(state: &mut [u8], chunk: &[u8]) -> Said {
    let answer = raw::read(state, chunk);
    Said {
        code: answer.code,
        status: answer.status,
        taken: answer.taken,
        output: output_in(state, answer.output),
    }
}

/// The output whose places are in the state's memory; what it doesn't have is 0.
fn output_in(state: &[u8], numbers: OutputNumbers) -> Output {
    let version = (numbers.major, numbers.minor);
    let place = (numbers.start, numbers.length);
    if matches!(numbers.kind, 0 | 1 | 5) {
        assert_eq!(place, (0, 0), "no place: {numbers:?}");
    }
    if numbers.kind != 1 {
        assert_eq!(version, (0, 0), "no version: {numbers:?}");
    }
    if numbers.kind != 5 {
        assert_eq!(numbers.offset, 0, "no offset: {numbers:?}");
    }
    let placed = state.get(place.0..).and_then(|rest| rest.get(..place.1));
    let placed = placed.expect("a place within the state's memory");
    match numbers.kind {
        0 => Output::Nothing,
        1 => Output::Version {
            major: version.0,
            minor: version.1,
        },
        2 => Output::Providers(entries_of(state[ACCEPT_TYPE_AT], placed)),
        3 => Output::Opcodes(entries_of(state[ACCEPT_TYPE_AT], placed)),
        4 => Output::Data(placed.to_vec()),
        5 => Output::Offset(numbers.offset),
        kind => panic!("no output of kind {kind}"),
    }
}

/// The entries, the same with room to spare, with just enough and with too little.
pub fn entries_of(accept_type: u8, packed: &[u8]) -> Vec<u32> {
    let mut entries = vec![UNTOUCHED; packed.len() + 2];
    let count = raw::read_list(accept_type, packed, &mut entries);
    let behind = entries.split_off(count);
    assert!(behind.iter().all(|&entry| entry == UNTOUCHED));
    for room in [0, count / 2, count.saturating_sub(1), count] {
        let mut first = vec![UNTOUCHED; room];
        assert_eq!(raw::read_list(accept_type, packed, &mut first), room);
        assert_eq!(first, entries[..room]);
    }
    entries
}
