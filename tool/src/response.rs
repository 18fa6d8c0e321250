//! Where a request's body broke, as the response of status 7 says it.

use razidkot_client::{BodyFormat, Opcode, Output, Reader, Reading, Response};

/// The place in a body, in words.
pub fn byte_of_body(at: u32) -> String {
    format!("byte {at} of the body")
}

/// At which byte of its request's body this response of the service says that it broke, read by the
/// proved client; nothing if it has another status.
pub fn broken_at(response: &[u8]) -> Option<u32> {
    let (session, _) = response.get(9..)?.split_first_chunk()?;
    let (opcode, _) = response.get(22..)?.split_first_chunk()?;
    let opcode = Opcode::from_number(u16::from_le_bytes(*opcode).into())?;
    let format = BodyFormat::from_number(response[17])?;
    let mut reader = Reader::awaiting(opcode, u64::from_le_bytes(*session), format);
    match reader.read(response).said {
        Ok(Reading::Response(Response {
            output: Output::Offset(at),
            ..
        })) => Some(at),
        _ => None,
    }
}
