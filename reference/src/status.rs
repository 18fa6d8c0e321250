//! The statuses that a response carries, with their numbers.
//! Document 01, "Order of judgement on one request", the table; document 02, "Checking signatures".

#[derive(Clone, Copy, Debug, PartialEq, Eq)]
#[repr(u16)]
pub enum Status {
    Success = 0,
    WrongProviderID = 1,
    ContentTypeNotSupported = 2,
    AcceptTypeNotSupported = 3,
    WireProtocolVersionNotSupported = 4,
    ProviderDoesNotExist = 6,
    DeserializingBodyFailed = 7,
    OpcodeDoesNotExist = 9,
    AuthenticationError = 11,
    AuthenticatorDoesNotExist = 12,
    InvalidHeader = 17,
    NotAuthenticated = 19,
    BodySizeExceedsLimit = 20,
    PsaErrorNotPermitted = 1133,
    PsaErrorNotSupported = 1134,
    PsaErrorInvalidArgument = 1135,
    PsaErrorAlreadyExists = 1139,
    PsaErrorDoesNotExist = 1140,
    PsaErrorInsufficientStorage = 1142,
    PsaErrorInvalidSignature = 1149,
}

impl Status {
    /// Every status, in ascending order of their numbers.
    pub const ALL: [Status; 20] = [
        Status::Success,
        Status::WrongProviderID,
        Status::ContentTypeNotSupported,
        Status::AcceptTypeNotSupported,
        Status::WireProtocolVersionNotSupported,
        Status::ProviderDoesNotExist,
        Status::DeserializingBodyFailed,
        Status::OpcodeDoesNotExist,
        Status::AuthenticationError,
        Status::AuthenticatorDoesNotExist,
        Status::InvalidHeader,
        Status::NotAuthenticated,
        Status::BodySizeExceedsLimit,
        Status::PsaErrorNotPermitted,
        Status::PsaErrorNotSupported,
        Status::PsaErrorInvalidArgument,
        Status::PsaErrorAlreadyExists,
        Status::PsaErrorDoesNotExist,
        Status::PsaErrorInsufficientStorage,
        Status::PsaErrorInvalidSignature,
    ];

    /// Every status but `Success`, in ascending order: the order of `Counters::refused`.
    pub const REFUSED: [Status; 19] = {
        let mut refused = [Status::Success; 19];
        let mut place = 0;
        while place < refused.len() {
            refused[place] = Status::ALL[place + 1];
            place += 1;
        }
        refused
    };

    pub fn number(self) -> u16 {
        self as u16
    }
}
