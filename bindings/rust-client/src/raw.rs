//! The archive's functions with their numbers, on any memory. The safe types of the crate are built
//! on them; they are for callers that keep a reader's state themselves.
//!
//! ```
//! use razidkot_client::{raw, BodyFormat, Opcode, STATE_SIZE};
//!
//! let mut state = [0; STATE_SIZE];
//! assert_eq!(raw::read(&mut state, b"\x10").code, 2, "no state was begun there");
//! let accept_type = BodyFormat::Protobuf.number();
//! assert_eq!(raw::begin(&mut state, Opcode::PsaDestroyKey.number(), 5, accept_type), 0);
//! assert_eq!(raw::begin(&mut state, 2, 5, accept_type), 2, "no opcode that is listed");
//! assert_eq!(raw::begin(&mut state, 3, 5, 7), 3, "no body format");
//!
//! let response = b"\x10\xA7\xC0\x5E\x14\0\x01\0\x01\x05\0\0\0\0\0\0\0\x01\0\0\0\0\x03\0\x74\x04";
//! let answer = raw::read(&mut state, response);
//! assert_eq!((answer.code, answer.status, answer.taken), (1, 1140, 26));
//! ```

pub use crate::foreign::{
    begin, read, read_list, write_destroy, write_export, write_import, write_list_opcodes,
    write_list_providers, write_ping, write_verify,
};

/// What writing a request says: the header's `razidkot_client_request`.
#[derive(Clone, Copy, Debug, PartialEq, Eq)]
#[repr(C)]
pub struct Request {
    /// 0 for a request that was written, else the number of the refusal.
    pub code: u32,
    /// Bytes of the request; 0 if it was refused.
    pub written: usize,
}

/// An output: the header's `razidkot_client_output`. What an output doesn't have is 0.
#[derive(Clone, Copy, Debug, PartialEq, Eq)]
#[repr(C)]
pub struct OutputNumbers {
    /// 0 nothing, 1 version, 2 providers, 3 opcodes, 4 data, 5 offset.
    pub kind: u32,
    /// A version's first number.
    pub major: u32,
    /// A version's second number.
    pub minor: u32,
    /// Where a request's body broke.
    pub offset: u32,
    /// Where in the state's memory data, or a list, begins.
    pub start: usize,
    /// How many bytes it has.
    pub length: usize,
}

/// What reading says: the header's `razidkot_client_answer`.
#[derive(Clone, Copy, Debug, PartialEq, Eq)]
#[repr(C)]
pub struct Answer {
    /// 0 while more is awaited, 1 for a response, 2 for an ill-formed state, 3 to 9 for a refusal.
    pub code: u32,
    /// A response's status; 0 where there is none.
    pub status: u32,
    /// Bytes of the chunk that were taken.
    pub taken: usize,
    /// A response's output.
    pub output: OutputNumbers,
}
