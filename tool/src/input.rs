//! Where bytes come from.

use std::io::{self, ErrorKind, Read};

/// Reads what has come, at least a byte unless the stream is at its end.
pub fn read(stream: &mut impl Read, chunk: &mut [u8]) -> io::Result<usize> {
    loop {
        match stream.read(chunk) {
            Err(error) if error.kind() == ErrorKind::Interrupted => {}
            result => return result,
        }
    }
}
