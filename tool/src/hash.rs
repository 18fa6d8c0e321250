//! A hash on the command line: its digits, or a file that has its bytes. How many bytes it may have
//! is for the client to say.

use crate::Failure;
use razidkot_client::HASH_SIZE;
use std::ffi::OsStr;
use std::fs;
use std::os::unix::ffi::OsStrExt;

/// 64 hexadecimal digits are the hash itself. Any other word is a file.
pub fn read(word: &OsStr) -> Result<Vec<u8>, Failure> {
    if let Some(hash) = digits(word.as_bytes()) {
        return Ok(hash);
    }
    fs::read(word).map_err(|error| {
        let word = word.display();
        let reason = format!("--hash {word}: not 64 hexadecimal digits, and as a file: {error}");
        Failure::Failed(reason)
    })
}

fn digits(text: &[u8]) -> Option<Vec<u8>> {
    if text.len() != 2 * HASH_SIZE {
        return None;
    }
    text.chunks_exact(2)
        .map(|pair| Some(digit(pair[0])? << 4 | digit(pair[1])?))
        .collect()
}

fn digit(byte: u8) -> Option<u8> {
    let digit = char::from(byte).to_digit(16)?;
    u8::try_from(digit).ok()
}
