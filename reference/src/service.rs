//! The judgement of one request and the writing of its response and of its record.
//! Document 01, "Order of judgement on one request"; document 02, "Surviving a power cut", for the
//! record, "Where the body broke", for the body of a status 7 response, and "A second body format".

use crate::journal::write_record;
use crate::message::{Body, BodyFormat, Writer};
use crate::opcode::{Opcode, Provider};
use crate::operation::{perform_core, perform_keystore, Change, Refused};
use crate::registry::{find_application, Line};
use crate::status::Status;
use crate::wire::{
    write_response_header, Echo, Header, MAX_CONTENT_LENGTH, RESPONSE_HEADER_LENGTH,
};

/// Who sent a request that authentication let through.
#[derive(Clone, Copy, Debug, PartialEq, Eq)]
pub enum Caller {
    Application(Line),
    /// Auth type 0.
    Unauthenticated,
}

#[derive(Clone, Copy, Debug, PartialEq, Eq)]
pub enum Verdict {
    Served(Caller),
    /// Never with `Status::Success`.
    Refused(Status),
}

/// The verdict on a request, how many bytes of response were written, and how many of a record.
#[derive(Clone, Copy, Debug, PartialEq, Eq)]
pub struct Answer {
    pub verdict: Verdict,
    pub written: usize,
    /// 0 for none.
    pub recorded: usize,
}

/// Test 1: wrong magic or H; provider, session and opcode are zero.
pub fn answer_bad_start(response: &mut [u8]) -> Answer {
    let refused = Status::InvalidHeader.into();
    refuse(refused, Echo::default(), BodyFormat::Protobuf, response)
}

/// Test 2: C or A too large; provider, session and opcode repeat the header's.
pub fn answer_oversized(header: &Header, response: &mut [u8]) -> Answer {
    let status = if header.content_length > MAX_CONTENT_LENGTH {
        Status::BodySizeExceedsLimit
    } else {
        Status::AuthenticationError
    };
    refuse(status.into(), header.echo(), BodyFormat::Protobuf, response)
}

/// Test 3: a whole request, judged where it lies; only a served one changes the registry.
pub fn answer_whole(
    request: &[u8],
    registry: &mut [u8],
    list: &[u8],
    response: &mut [u8],
    journal: &mut [u8],
) -> Answer {
    let header = Header::read(request);
    let payload = &request[header.length..];
    let format = response_format(&header);
    let mut writer = Writer::new(format, &mut response[RESPONSE_HEADER_LENGTH..]);
    match judge(&header, payload, registry, list, &mut writer) {
        Ok((caller, change)) => {
            let length = writer.written();
            write_response_header(response, header.echo(), format, Status::Success, length);
            Answer {
                verdict: Verdict::Served(caller),
                written: RESPONSE_HEADER_LENGTH + length,
                recorded: record(caller, &change, journal),
            }
        }
        Err(refused) => refuse(refused, header.echo(), format, response),
    }
}

/// The one that is asked for, whichever the request used, and where it is none the first.
fn response_format(header: &Header) -> BodyFormat {
    BodyFormat::from_number(header.accept_type).unwrap_or(BodyFormat::Protobuf)
}

/// The record's length; where there is none, 0, and the journal's buffer stays.
fn record(caller: Caller, change: &Option<Change>, journal: &mut [u8]) -> usize {
    match (caller, change) {
        (Caller::Application(line), Some(change)) => write_record(journal, line, change),
        _ => 0,
    }
}

fn refuse(refused: Refused, echo: Echo, format: BodyFormat, response: &mut [u8]) -> Answer {
    let mut body = Writer::new(format, &mut response[RESPONSE_HEADER_LENGTH..]);
    let status = match refused {
        Refused::With(status) => status,
        Refused::Unreadable(unreadable) => {
            body.write_uint32(1, unreadable.at as u32);
            Status::DeserializingBodyFailed
        }
    };
    let body_length = body.written();
    write_response_header(response, echo, format, status, body_length);
    Answer {
        verdict: Verdict::Refused(status),
        written: RESPONSE_HEADER_LENGTH + body_length,
        recorded: 0,
    }
}

/// The caller served and what the journal is to have, or the first refusal that applies.
fn judge<'a>(
    header: &Header,
    payload: &'a [u8],
    registry: &mut [u8],
    list: &[u8],
    writer: &mut Writer,
) -> Result<(Caller, Option<Change<'a>>), Refused> {
    let (format, opcode) = judge_header(header)?;
    let (bytes, auth) = payload.split_at(header.content_length as usize);
    let body = Body { format, bytes };
    let caller = authenticate(header.auth_type, auth, registry)?;
    let change = match (opcode, caller) {
        (Opcode::Core(opcode), _) => {
            perform_core(opcode, &body, writer)?;
            None
        }
        (Opcode::Keystore(_), Caller::Unauthenticated) => {
            return Err(Status::NotAuthenticated.into());
        }
        (Opcode::Keystore(opcode), Caller::Application(line)) => {
            perform_keystore(opcode, line, &body, registry, list, writer)?
        }
    };
    Ok((caller, change))
}

/// The body's format and the opcode.
fn judge_header(header: &Header) -> Result<(BodyFormat, Opcode), Status> {
    if (header.major, header.minor) != (1, 0) {
        return Err(Status::WireProtocolVersionNotSupported);
    }
    let format =
        BodyFormat::from_number(header.content_type).ok_or(Status::ContentTypeNotSupported)?;
    BodyFormat::from_number(header.accept_type).ok_or(Status::AcceptTypeNotSupported)?;
    let opcode = Opcode::from_number(header.opcode).ok_or(Status::OpcodeDoesNotExist)?;
    let provider =
        Provider::from_number(header.provider.into()).ok_or(Status::ProviderDoesNotExist)?;
    if opcode.provider() != provider {
        return Err(Status::WrongProviderID);
    }
    Ok((format, opcode))
}

fn authenticate(auth_type: u8, auth: &[u8], registry: &[u8]) -> Result<Caller, Status> {
    match auth_type {
        0 if auth.is_empty() => Ok(Caller::Unauthenticated),
        0 => Err(Status::AuthenticationError),
        1 => find_application(registry, auth)
            .map(Caller::Application)
            .ok_or(Status::AuthenticationError),
        _ => Err(Status::AuthenticatorDoesNotExist),
    }
}
