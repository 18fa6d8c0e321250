//! Who sent a request, told from its bytes: document 02, "One application can't sway another".

use crate::oracle::read_header;
use crate::requests::{AUTH_LENGTH_AT, AUTH_TYPE_AT};

const MAGIC: [u8; 4] = [0x10, 0xA7, 0xC0, 0x5E];
pub const LONGEST_CONTENT: usize = 4_096;
pub const LONGEST_AUTH: usize = 256;

/// Who a request says that it is from, and how long its parts are.
struct Envelope {
    auth_type: u8,
    header_length: usize,
    content_length: usize,
    auth_length: usize,
}

impl Envelope {
    /// Of one request from its first byte to its last; an oversized one too.
    fn of_whole(request: &[u8]) -> Option<Envelope> {
        let [header_size, _, _, _, _, _, _, auth_type, content_length, auth_length, _] =
            read_header(request).filter(|_| !has_bad_start(request))?;
        let envelope = Envelope {
            auth_type: auth_type as u8,
            header_length: 6 + header_size as usize,
            content_length: content_length as usize,
            auth_length: auth_length as usize,
        };
        let length = envelope.header_length + envelope.content_length + envelope.auth_length;
        (length == request.len()).then_some(envelope)
    }
}

/// Status 17, if a request is awaited.
pub fn has_bad_start(bytes: &[u8]) -> bool {
    match bytes {
        [a, b, c, d, low, high, ..] => {
            let header_size = u16::from_le_bytes([*low, *high]);
            [*a, *b, *c, *d] != MAGIC || !(22..=64).contains(&header_size)
        }
        _ => false,
    }
}

/// One request from its first byte to its last; an oversized one too.
pub fn is_whole(bytes: &[u8]) -> bool {
    Envelope::of_whole(bytes).is_some()
}

/// "whole, C and A within bounds, auth type 1 with its name"
pub fn is_of(application: &[u8], request: &[u8]) -> bool {
    Envelope::of_whole(request).is_some_and(|envelope| {
        envelope.content_length <= LONGEST_CONTENT
            && envelope.auth_length <= LONGEST_AUTH
            && envelope.auth_type == 1
            && &request[request.len() - envelope.auth_length..] == application
    })
}

/// A whole request with auth type 0, whoever's name it has.
pub fn is_unauthenticated(request: &[u8]) -> bool {
    Envelope::of_whole(request).is_some_and(|envelope| envelope.auth_type == 0)
}

/// The same whole request with this auth type and these auth bytes.
pub fn with_sender(request: &[u8], auth_type: u8, auth: &[u8]) -> Vec<u8> {
    let auth_length = Envelope::of_whole(request).map_or(0, |envelope| envelope.auth_length);
    let mut request = request[..request.len() - auth_length].to_vec();
    request[AUTH_TYPE_AT] = auth_type;
    request[AUTH_LENGTH_AT..][..2].copy_from_slice(&(auth.len() as u16).to_le_bytes());
    request.extend(auth);
    request
}
