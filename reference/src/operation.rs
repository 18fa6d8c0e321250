//! The seven operations: what each reads from its body, does and writes.
//! Document 01, "Operations and their fields"; document 02, "Unlisted fields" (a field that is not
//! listed, or has another wire type, is skipped), "Checking signatures", "Keys we ship", "Use per key",
//! "Surviving a power cut", "No more odd key lengths", "Where the body broke" and "A second body format":
//! no operation knows which format a body has.

use crate::list::find_listed_key;
use crate::message::{Body, Kind, Unreadable, Writer};
use crate::opcode::{CoreOpcode, KeystoreOpcode, Provider};
use crate::registry::{
    self, bits_are_importable, data_is_legal, key_name_is_legal, Key, Line, Slot, LONGEST_DATA,
};
use crate::rsa::{self, Outcome, HASH_LENGTH};
use crate::status::Status;
use crate::wire::RESPONSE_HEADER_LENGTH;

/// An export of the longest data: its tag and two bytes of length come before it.
pub const LONGEST_RESPONSE: usize = RESPONSE_HEADER_LENGTH + 3 + LONGEST_DATA;

/// Why a request is not served.
#[derive(Clone, Copy, Debug, PartialEq, Eq)]
pub enum Refused {
    /// With an empty body.
    With(Status),
    /// Status 7, whose body says where the request's broke.
    Unreadable(Unreadable),
}

impl From<Status> for Refused {
    fn from(status: Status) -> Refused {
        Refused::With(status)
    }
}

impl From<Unreadable> for Refused {
    fn from(unreadable: Unreadable) -> Refused {
        Refused::Unreadable(unreadable)
    }
}

/// Writes the response's body; a refusal writes nothing.
pub fn perform_core(opcode: CoreOpcode, body: &Body, writer: &mut Writer) -> Result<(), Refused> {
    match opcode {
        CoreOpcode::Ping => {
            body.read(&[])?;
            writer.write_uint32(1, 1);
            writer.write_uint32(2, 0);
        }
        CoreOpcode::ListProviders => {
            body.read(&[])?;
            writer.write_list(1, &Provider::ALL.map(Provider::number));
        }
        CoreOpcode::ListOpcodes => {
            let number = body.read(&[Kind::Uint32])?.uint32(1);
            let provider = Provider::from_number(number).ok_or(Status::ProviderDoesNotExist)?;
            writer.write_list(1, &opcode_numbers(provider));
        }
    }
    Ok(())
}

fn opcode_numbers(provider: Provider) -> Vec<u32> {
    match provider {
        Provider::Core => CoreOpcode::ALL.map(|opcode| opcode as u32).to_vec(),
        Provider::Keystore => KeystoreOpcode::ALL.map(|opcode| opcode as u32).to_vec(),
    }
}

/// What an import or a destroy changes, as it lies in the request or in the journal.
#[derive(Clone, Copy, Debug, PartialEq, Eq)]
pub enum Change<'a> {
    Import(Key<'a>),
    /// The key of this name.
    Destroy(&'a [u8]),
}

/// Writes the response's body, and says what the journal is to have; uses are no change. A refusal
/// changes nothing.
pub fn perform_keystore<'a>(
    opcode: KeystoreOpcode,
    line: Line,
    body: &Body<'a>,
    registry: &mut [u8],
    list: &[u8],
    writer: &mut Writer,
) -> Result<Option<Change<'a>>, Refused> {
    let change = match opcode {
        KeystoreOpcode::Import => {
            let key = read_key_input(body)?;
            judge_key(&key)?;
            Change::Import(key)
        }
        KeystoreOpcode::Destroy => Change::Destroy(read_name(body)?),
        KeystoreOpcode::Export => {
            let source = find_key(registry, list, line, read_name(body)?)?;
            export(&source, writer)?;
            count_use(source.own_slot(), line, registry);
            return Ok(None);
        }
        KeystoreOpcode::Verify => {
            let input = read_verify_input(body)?;
            let source = find_key(registry, list, line, input.name)?;
            verify(&source, &input)?;
            count_use(source.own_slot(), line, registry);
            return Ok(None);
        }
    };
    make_change(registry, list, line, &change)?;
    Ok(Some(change))
}

/// Import's bounds: name and data, then bits.
fn judge_key(key: &Key) -> Result<(), Status> {
    if !key_name_is_legal(key.name) || !data_is_legal(key.data) {
        return Err(Status::PsaErrorInvalidArgument);
    }
    if !bits_are_importable(key.bits) {
        return Err(Status::PsaErrorNotSupported);
    }
    Ok(())
}

/// Import of a legal key, whose bounds the caller has judged, or Destroy; a refusal changes nothing.
pub fn make_change(
    registry: &mut [u8],
    list: &[u8],
    line: Line,
    change: &Change,
) -> Result<(), Status> {
    match change {
        Change::Import(key) => place(registry, list, line, key),
        Change::Destroy(name) => destroy(registry, list, line, name),
    }
}

/// Only a served use comes here; a listed key, which is in no slot, has no count.
fn count_use(own: Option<Slot>, line: Line, registry: &mut [u8]) {
    if let Some(slot) = own {
        registry::add_use(registry, line, slot);
    }
}

/// Who holds a key.
enum Source<'a> {
    Own(Slot, Key<'a>),
    /// Its data: it allows both uses, and its bits are its modulus's.
    Listed(&'a [u8]),
}

impl Source<'_> {
    fn own_slot(&self) -> Option<Slot> {
        match self {
            Source::Own(slot, _) => Some(*slot),
            Source::Listed(_) => None,
        }
    }
}

/// Among the application's own first, then in the list; a bad name is refused before either.
fn find_key<'a>(
    registry: &'a [u8],
    list: &'a [u8],
    line: Line,
    name: &[u8],
) -> Result<Source<'a>, Status> {
    if !key_name_is_legal(name) {
        return Err(Status::PsaErrorInvalidArgument);
    }
    if let Some(slot) = registry::find_key(registry, line, name) {
        return Ok(Source::Own(slot, registry::read_key(registry, line, slot)));
    }
    let data = find_listed_key(list, name).ok_or(Status::PsaErrorDoesNotExist)?;
    Ok(Source::Listed(data))
}

/// Import behind its bounds: a name that is held or listed, then a full line.
fn place(registry: &mut [u8], list: &[u8], line: Line, key: &Key) -> Result<(), Status> {
    // A held name may lie behind a free slot, so it is looked for in the whole line first.
    if find_key(registry, list, line, key.name).is_ok() {
        return Err(Status::PsaErrorAlreadyExists);
    }
    let slot =
        registry::find_free_slot(registry, line).ok_or(Status::PsaErrorInsufficientStorage)?;
    registry::write_key(registry, line, slot, key);
    Ok(())
}

/// A listed key stays, unless the application holds its own of that name: then its own goes.
fn destroy(registry: &mut [u8], list: &[u8], line: Line, name: &[u8]) -> Result<(), Status> {
    let Source::Own(slot, _) = find_key(registry, list, line, name)? else {
        return Err(Status::PsaErrorNotPermitted);
    };
    registry::free_slot(registry, line, slot);
    Ok(())
}

fn export(source: &Source, writer: &mut Writer) -> Result<(), Status> {
    let data = match source {
        Source::Own(_, key) if !key.export_allowed => return Err(Status::PsaErrorNotPermitted),
        Source::Own(_, key) => key.data,
        Source::Listed(data) => data,
    };
    writer.write_bytes(1, data);
    Ok(())
}

/// The key's permission, then the hash's length, then key and signature by RFC 8017.
fn verify(source: &Source, input: &VerifyInput) -> Result<(), Status> {
    let (data, bits) = match source {
        Source::Own(_, key) if !key.verify_allowed => return Err(Status::PsaErrorNotPermitted),
        Source::Own(_, key) => (key.data, key.bits),
        Source::Listed(data) => (*data, rsa::modulus_bits(data)),
    };
    if input.hash.len() != HASH_LENGTH {
        return Err(Status::PsaErrorInvalidArgument);
    }
    // An own key of other bits is from before Import refused them.
    if !bits_are_importable(bits) {
        return Err(Status::PsaErrorNotSupported);
    }
    match rsa::verify(data, bits, input.hash, input.signature).outcome {
        Outcome::Valid => Ok(()),
        Outcome::InvalidSignature => Err(Status::PsaErrorInvalidSignature),
        Outcome::InvalidKey => Err(Status::PsaErrorNotSupported),
    }
}

fn read_key_input<'a>(body: &Body<'a>) -> Result<Key<'a>, Unreadable> {
    let message = body.read(&[
        Kind::Bytes,
        Kind::Bytes,
        Kind::Uint32,
        Kind::Bool,
        Kind::Bool,
    ])?;
    Ok(Key {
        name: message.bytes(1),
        data: message.bytes(2),
        bits: message.uint32(3),
        export_allowed: message.bool(4),
        verify_allowed: message.bool(5),
    })
}

fn read_name<'a>(body: &Body<'a>) -> Result<&'a [u8], Unreadable> {
    Ok(body.read(&[Kind::Bytes])?.bytes(1))
}

/// Verify's input, as it lies in the body.
struct VerifyInput<'a> {
    name: &'a [u8],
    hash: &'a [u8],
    signature: &'a [u8],
}

fn read_verify_input<'a>(body: &Body<'a>) -> Result<VerifyInput<'a>, Unreadable> {
    let message = body.read(&[Kind::Bytes; 3])?;
    Ok(VerifyInput {
        name: message.bytes(1),
        hash: message.bytes(2),
        signature: message.bytes(3),
    })
}
