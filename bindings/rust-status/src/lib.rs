//! The statuses that a response carries: document 01, "Order of judgement on one request", and
//! document 02, "Checking signatures". The service's crate and the client's both hand them on, so
//! that a program with both has one type, and neither links the other's archive.
#![no_std]

/// How many statuses a request may be refused with.
pub const REFUSED_STATUSES: usize = 19;

/// What a response says of its request; `number` gives the papers' number.
#[derive(Clone, Copy, Debug, PartialEq, Eq, PartialOrd, Ord, Hash)]
#[repr(u16)]
#[allow(missing_docs)] // The names are those of documents 01 and 02.
pub enum Status {
    Success = 0,
    WrongProviderID = 1,
    ContentTypeNotSupported = 2,
    AcceptTypeNotSupported = 3,
    WireProtocolVersionNotSupported = 4,
    ProviderDoesNotExist = 6,
    /// The response's body says at which byte the request's can't be read. No other status but 0 has a
    /// body.
    DeserializingBodyFailed = 7,
    OpcodeDoesNotExist = 9,
    AuthenticationError = 11,
    AuthenticatorDoesNotExist = 12,
    InvalidHeader = 17,
    NotAuthenticated = 19,
    BodySizeExceedsLimit = 20,
    PsaErrorNotPermitted = 1133,
    /// Of an Import: bits other than 2,048, 3,072 and 4,096. Of a verify: a key that can't be used so.
    PsaErrorNotSupported = 1134,
    PsaErrorInvalidArgument = 1135,
    PsaErrorAlreadyExists = 1139,
    PsaErrorDoesNotExist = 1140,
    PsaErrorInsufficientStorage = 1142,
    PsaErrorInvalidSignature = 1149,
}

impl Status {
    /// Every status but `Success`, ascending: the order in which the service counts them.
    pub const REFUSED: [Status; REFUSED_STATUSES] = [
        Status::WrongProviderID,
        Status::ContentTypeNotSupported,
        Status::AcceptTypeNotSupported,
        Status::WireProtocolVersionNotSupported,
        Status::ProviderDoesNotExist,
        Status::DeserializingBodyFailed,
        Status::OpcodeDoesNotExist,
        Status::AuthenticationError,
        Status::AuthenticatorDoesNotExist,
        Status::InvalidHeader,
        Status::NotAuthenticated,
        Status::BodySizeExceedsLimit,
        Status::PsaErrorNotPermitted,
        Status::PsaErrorNotSupported,
        Status::PsaErrorInvalidArgument,
        Status::PsaErrorAlreadyExists,
        Status::PsaErrorDoesNotExist,
        Status::PsaErrorInsufficientStorage,
        Status::PsaErrorInvalidSignature,
    ];

    /// The number on the wire.
    pub fn number(self) -> u16 {
        self as u16
    }

    /// The status of this number, if it is listed.
    ///
    /// ```
    /// use razidkot_status::Status;
    ///
    /// assert_eq!(Status::from_number(1140), Some(Status::PsaErrorDoesNotExist));
    /// assert_eq!(Status::from_number(1149), Some(Status::PsaErrorInvalidSignature));
    /// assert_eq!(Status::from_number(5), None);
    /// ```
    pub fn from_number(number: u16) -> Option<Status> {
        let refused = |status: &Status| status.number() == number;
        match number {
            0 => Some(Status::Success),
            _ => Status::REFUSED.into_iter().find(refused),
        }
    }
}
