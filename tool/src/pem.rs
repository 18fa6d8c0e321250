//! PEM (RFC 7468): one block of base64 between a BEGIN and an END line.

use crate::key::KeyFault;

/// A PEM block.
pub struct Block {
    pub label: Vec<u8>,
    pub data: Vec<u8>,
}

const BEGIN: &[u8] = b"-----BEGIN ";
const END: &[u8] = b"-----END ";

/// The block of a file, and nothing if the file is no PEM. Text before and behind the block is passed
/// over.
pub fn read(file: &[u8]) -> Result<Option<Block>, KeyFault> {
    let mut lines = file.split(|&byte| byte == b'\n').map(<[u8]>::trim_ascii);
    // Where a block begins within a line, the file is not taken for other data: it may be a private key.
    if !file.windows(BEGIN.len()).any(|part| part == BEGIN) {
        return Ok(None);
    }
    let label = lines.find_map(|line| label_of(line, BEGIN));
    let label = label.ok_or(KeyFault::PemNotWhole)?;
    let mut text = Vec::new();
    loop {
        let line = lines.next().ok_or(KeyFault::PemNotWhole)?;
        if label_of(line, END) == Some(label) {
            break;
        }
        text.extend(line);
    }
    if lines.any(|line| label_of(line, BEGIN).is_some()) {
        return Err(KeyFault::SeveralPemBlocks);
    }
    Ok(Some(Block {
        label: label.to_vec(),
        data: decode(&text).ok_or(KeyFault::NotBase64)?,
    }))
}

/// The label of a line that begins or ends a block.
fn label_of<'a>(line: &'a [u8], start: &[u8]) -> Option<&'a [u8]> {
    line.strip_prefix(start)?.strip_suffix(b"-----")
}

/// Base64 (RFC 4648) with its padding, and no bit left over.
fn decode(text: &[u8]) -> Option<Vec<u8>> {
    if !text.len().is_multiple_of(4) {
        return None;
    }
    let padded = text.strip_suffix(b"==").or(text.strip_suffix(b"="));
    let mut data = Vec::new();
    let (mut held, mut bits) = (0, 0);
    for &byte in padded.unwrap_or(text) {
        held = held << 6 | digit(byte)?;
        bits += 6;
        if bits >= 8 {
            bits -= 8;
            data.push((held >> bits) as u8);
            held &= (1 << bits) - 1;
        }
    }
    (held == 0).then_some(data)
}

fn digit(byte: u8) -> Option<u32> {
    let digit = match byte {
        b'A'..=b'Z' => byte - b'A',
        b'a'..=b'z' => byte - b'a' + 26,
        b'0'..=b'9' => byte - b'0' + 52,
        b'+' => 62,
        b'/' => 63,
        _ => return None,
    };
    Some(digit.into())
}
