//! Writing a request into a lent buffer, and what is refused before a byte is written.
//! Document 02, "The client's half", its last sentence, "Checking signatures", "No more odd key
//! lengths" and "A second body format"; document 01, "Bytes on the wire" and "Operations and their
//! fields".

use crate::bytes::write_at;
use crate::message::{bytes_field_length, BodyFormat, Writer};
use crate::opcode::{CoreOpcode, KeystoreOpcode, Opcode};
use crate::registry::{
    application_name_is_legal, bits_are_importable, data_is_legal, key_name_is_legal,
};
use crate::rsa::HASH_LENGTH;
use crate::wire::{Header, MAX_CONTENT_LENGTH, SHORTEST_HEADER_LENGTH};

pub const MIN_REQUEST_BUFFER: usize = 5_120;

/// A listed operation with its input.
#[derive(Clone, Copy, Debug, PartialEq, Eq)]
pub enum Operation<'a> {
    Ping,
    ListProviders,
    ListOpcodes {
        provider: u32,
    },
    ImportKey {
        name: &'a [u8],
        data: &'a [u8],
        bits: u32,
        export_allowed: bool,
        verify_allowed: bool,
    },
    DestroyKey {
        name: &'a [u8],
    },
    ExportPublicKey {
        name: &'a [u8],
    },
    VerifySignature {
        name: &'a [u8],
        hash: &'a [u8],
        signature: &'a [u8],
    },
}

/// How the request's body is written, and how the response's is asked for.
#[derive(Clone, Copy, Debug, PartialEq, Eq)]
pub struct Formats {
    pub content: BodyFormat,
    pub accept: BodyFormat,
}

impl Formats {
    /// Protocol Buffers both ways.
    pub const PROTOBUF: Formats = Formats {
        content: BodyFormat::Protobuf,
        accept: BodyFormat::Protobuf,
    };
}

/// Why a request is not written; the cases stand in the order in which they are tried.
#[derive(Clone, Copy, Debug, PartialEq, Eq)]
pub enum WriteRefusal {
    BufferTooSmall,
    BadApplicationName,
    BadKeyName,
    BadData,
    BadBits,
    BadHash,
    BodyTooLong,
}

/// Writes the request to the front of `buffer` and says how many bytes it has; bytes past it stay.
/// With no application the auth type is 0. A refusal leaves all of the buffer alone.
pub fn write_request(
    buffer: &mut [u8],
    session: u64,
    formats: Formats,
    application: Option<&[u8]>,
    operation: &Operation,
) -> Result<usize, WriteRefusal> {
    judge(buffer, formats.content, application, operation)?;
    let opcode = operation.opcode();
    let mut writer = Writer::new(formats.content, &mut buffer[SHORTEST_HEADER_LENGTH..]);
    operation.write_body(&mut writer);
    let body_length = writer.written();
    let auth = application.unwrap_or_default();
    let header = Header {
        length: SHORTEST_HEADER_LENGTH,
        major: 1,
        minor: 0,
        provider: opcode.provider() as u8,
        session,
        content_type: formats.content.number(),
        accept_type: formats.accept.number(),
        auth_type: u8::from(application.is_some()),
        content_length: body_length as u32,
        auth_length: auth.len() as u16,
        opcode: opcode.number(),
    };
    header.write(buffer);
    write_at(buffer, SHORTEST_HEADER_LENGTH + body_length, auth);
    Ok(header.request_length() as usize)
}

fn judge(
    buffer: &[u8],
    format: BodyFormat,
    application: Option<&[u8]>,
    operation: &Operation,
) -> Result<(), WriteRefusal> {
    // Whatever the request's own length.
    if buffer.len() < MIN_REQUEST_BUFFER {
        return Err(WriteRefusal::BufferTooSmall);
    }
    if application.is_some_and(|name| !application_name_is_legal(name)) {
        return Err(WriteRefusal::BadApplicationName);
    }
    operation.judge(format)
}

impl Operation<'_> {
    pub fn opcode(&self) -> Opcode {
        match self {
            Operation::Ping => Opcode::Core(CoreOpcode::Ping),
            Operation::ListProviders => Opcode::Core(CoreOpcode::ListProviders),
            Operation::ListOpcodes { .. } => Opcode::Core(CoreOpcode::ListOpcodes),
            Operation::ImportKey { .. } => Opcode::Keystore(KeystoreOpcode::Import),
            Operation::DestroyKey { .. } => Opcode::Keystore(KeystoreOpcode::Destroy),
            Operation::ExportPublicKey { .. } => Opcode::Keystore(KeystoreOpcode::Export),
            Operation::VerifySignature { .. } => Opcode::Keystore(KeystoreOpcode::Verify),
        }
    }

    /// The key's name, data and bits, the hash and the body; ListOpcodes may ask for any provider.
    fn judge(&self, format: BodyFormat) -> Result<(), WriteRefusal> {
        match *self {
            Operation::Ping | Operation::ListProviders | Operation::ListOpcodes { .. } => Ok(()),
            Operation::ImportKey {
                name, data, bits, ..
            } => judge_key(name, data, bits),
            Operation::DestroyKey { name } | Operation::ExportPublicKey { name } => {
                judge_key_name(name)
            }
            Operation::VerifySignature {
                name,
                hash,
                signature,
            } => judge_signature(format, name, hash, signature),
        }
    }

    fn write_body(&self, writer: &mut Writer) {
        match *self {
            Operation::Ping | Operation::ListProviders => {}
            Operation::ListOpcodes { provider } => writer.write_uint32(1, provider),
            Operation::ImportKey {
                name,
                data,
                bits,
                export_allowed,
                verify_allowed,
            } => {
                writer.write_bytes(1, name);
                writer.write_bytes(2, data);
                writer.write_uint32(3, bits);
                writer.write_bool(4, export_allowed);
                writer.write_bool(5, verify_allowed);
            }
            Operation::DestroyKey { name } | Operation::ExportPublicKey { name } => {
                writer.write_bytes(1, name);
            }
            Operation::VerifySignature {
                name,
                hash,
                signature,
            } => {
                writer.write_bytes(1, name);
                writer.write_bytes(2, hash);
                writer.write_bytes(3, signature);
            }
        }
    }
}

fn judge_key(name: &[u8], data: &[u8], bits: u32) -> Result<(), WriteRefusal> {
    judge_key_name(name)?;
    if !data_is_legal(data) {
        return Err(WriteRefusal::BadData);
    }
    if !bits_are_importable(bits) {
        return Err(WriteRefusal::BadBits);
    }
    Ok(())
}

/// Any signature is written, even one that is no key's, where the body has room for it.
fn judge_signature(
    format: BodyFormat,
    name: &[u8],
    hash: &[u8],
    signature: &[u8],
) -> Result<(), WriteRefusal> {
    judge_key_name(name)?;
    if hash.len() != HASH_LENGTH {
        return Err(WriteRefusal::BadHash);
    }
    let lengths = [name, hash, signature].map(|value| bytes_field_length(format, value));
    let body_length: usize = lengths.iter().sum();
    if body_length > MAX_CONTENT_LENGTH as usize {
        return Err(WriteRefusal::BodyTooLong);
    }
    Ok(())
}

fn judge_key_name(name: &[u8]) -> Result<(), WriteRefusal> {
    if key_name_is_legal(name) {
        Ok(())
    } else {
        Err(WriteRefusal::BadKeyName)
    }
}
