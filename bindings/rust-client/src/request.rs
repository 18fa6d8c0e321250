//! A request, and writing it.

use crate::{raw, BodyFormat, Opcode, HASH_SIZE};
use core::fmt;

/// A request: who asks for what, the session that its response repeats, and the formats of both
/// bodies.
#[derive(Clone, Copy, Debug, PartialEq, Eq)]
pub struct Request<'a> {
    /// Any number.
    pub session: u64,
    /// The name of the application that asks (auth type 1), or nobody (auth type 0).
    pub application: Option<&'a [u8]>,
    /// What is asked for.
    pub operation: Operation<'a>,
    /// The format of the request's body.
    pub content_type: BodyFormat,
    /// The format that the response's body is to have, whichever the request's has.
    pub accept_type: BodyFormat,
}

impl<'a> Request<'a> {
    /// One with both bodies in Protocol Buffers.
    pub const fn new(
        session: u64,
        application: Option<&'a [u8]>,
        operation: Operation<'a>,
    ) -> Request<'a> {
        Request {
            session,
            application,
            operation,
            content_type: BodyFormat::Protobuf,
            accept_type: BodyFormat::Protobuf,
        }
    }

    /// The same with both bodies in this format.
    ///
    /// ```
    /// use razidkot_client::{BodyFormat, Operation, Request, LEAST_REQUEST_BUFFER};
    ///
    /// let export = Request::new(0, Some(b"scanner"), Operation::ExportPublicKey { name: b"a" });
    /// let mut buffer = [0; LEAST_REQUEST_BUFFER];
    /// let written = export.in_format(BodyFormat::Tagged).write(&mut buffer)?;
    /// assert_eq!(buffer[17..19], [2, 2]);
    /// assert_eq!(&buffer[28..written], b"\x01\x01\x00ascanner");
    /// # Ok::<(), razidkot_client::WriteRefusal>(())
    /// ```
    pub const fn in_format(self, format: BodyFormat) -> Request<'a> {
        Request {
            content_type: format,
            accept_type: format,
            ..self
        }
    }

    /// Writes the request to the front of `buffer` and says how many bytes it has; bytes past it
    /// stay. A refused request leaves all of `buffer` as it was.
    ///
    /// What the service will not do, a keystore operation for nobody, the opcodes of a provider that
    /// is not there or a signature of another length than the key's, is written as asked, and the
    /// response's status says so.
    ///
    /// ```
    /// use razidkot_client::{Operation, Request, WriteRefusal, LEAST_REQUEST_BUFFER};
    ///
    /// let mut request = Request::new(0, Some(b"scanner"), Operation::ExportPublicKey { name: b"a" });
    /// let mut buffer = [0; LEAST_REQUEST_BUFFER];
    /// assert_eq!(request.write(&mut buffer), Ok(28 + 3 + 7));
    /// assert_eq!(&buffer[28..38], b"\x0A\x01ascanner");
    ///
    /// request.operation = Operation::ExportPublicKey { name: b"a key" };
    /// assert_eq!(request.write(&mut buffer), Err(WriteRefusal::KeyNameIllegal));
    /// assert_eq!(request.write(&mut buffer[1..]), Err(WriteRefusal::BufferTooSmall));
    /// ```
    pub fn write(&self, buffer: &mut [u8]) -> Result<usize, WriteRefusal> {
        let answer = self.write_raw(buffer);
        match answer.code {
            0 => Ok(answer.written),
            8 => unreachable!("both types are listed"),
            code => Err(WriteRefusal::ALL[code as usize - 1]),
        }
    }

    fn write_raw(&self, out: &mut [u8]) -> raw::Request {
        let (session, content, accept) = (
            self.session,
            self.content_type.number(),
            self.accept_type.number(),
        );
        let (named, by) = match self.application {
            Some(name) => (true, name),
            None => (false, &[][..]),
        };
        match self.operation {
            Operation::Ping => raw::write_ping(out, session, content, accept, named, by),
            Operation::ListProviders => {
                raw::write_list_providers(out, session, content, accept, named, by)
            }
            Operation::ListOpcodes { provider } => {
                raw::write_list_opcodes(out, session, content, accept, named, by, provider)
            }
            Operation::ImportKey(key) => raw::write_import(
                out,
                session,
                content,
                accept,
                named,
                by,
                key.name,
                key.data,
                key.bits,
                key.export_allowed,
                key.verify_allowed,
            ),
            Operation::DestroyKey { name } => {
                raw::write_destroy(out, session, content, accept, named, by, name)
            }
            Operation::ExportPublicKey { name } => {
                raw::write_export(out, session, content, accept, named, by, name)
            }
            Operation::AsymmetricVerify(Verify {
                name,
                hash,
                signature,
            }) => raw::write_verify(
                out, session, content, accept, named, by, name, hash, signature,
            ),
        }
    }
}

/// A listed operation with its input.
#[derive(Clone, Copy, Debug, PartialEq, Eq)]
pub enum Operation<'a> {
    /// Which version of the protocol the service speaks.
    Ping,
    /// Which providers there are.
    ListProviders,
    /// Which operations a provider has.
    ListOpcodes {
        /// A [`Provider`](crate::Provider)'s number, or any other.
        provider: u32,
    },
    /// Keeps a public key under a name.
    ImportKey(Import<'a>),
    /// Drops a key.
    DestroyKey {
        /// 1 to 32 bytes, each 0x21 to 0x7E.
        name: &'a [u8],
    },
    /// The data of a key.
    ExportPublicKey {
        /// 1 to 32 bytes, each 0x21 to 0x7E.
        name: &'a [u8],
    },
    /// Is a signature the key's? Status 0 says that it is.
    AsymmetricVerify(Verify<'a>),
}

impl Operation<'_> {
    /// Its opcode.
    pub fn opcode(&self) -> Opcode {
        match self {
            Operation::Ping => Opcode::Ping,
            Operation::ListProviders => Opcode::ListProviders,
            Operation::ListOpcodes { .. } => Opcode::ListOpcodes,
            Operation::ImportKey(_) => Opcode::PsaImportKey,
            Operation::DestroyKey { .. } => Opcode::PsaDestroyKey,
            Operation::ExportPublicKey { .. } => Opcode::PsaExportPublicKey,
            Operation::AsymmetricVerify(_) => Opcode::PsaAsymmetricVerify,
        }
    }
}

/// The key that an Import brings.
#[derive(Clone, Copy, Debug, PartialEq, Eq)]
pub struct Import<'a> {
    /// 1 to 32 bytes, each 0x21 to 0x7E.
    pub name: &'a [u8],
    /// 1 to 600 bytes, which the service keeps as they are.
    pub data: &'a [u8],
    /// The key's length: 2,048, 3,072 or 4,096.
    pub bits: u32,
    /// May it be exported?
    pub export_allowed: bool,
    /// May it be used to verify? Its data is to be a DER RSAPublicKey (RFC 8017) then; Import takes
    /// any.
    pub verify_allowed: bool,
}

/// A signature to be checked: RSASSA-PKCS1-v1_5 with SHA-256 (RFC 8017, 8.2.2), the hash standing
/// for the message's. Status 0 says that it is the key's, [`PsaErrorInvalidSignature`] that it is
/// not, [`PsaErrorNotSupported`] that the key can't be used so: its data is no RSAPublicKey with a
/// modulus of the key's bits, or those are other bits than Import takes.
///
/// [`PsaErrorInvalidSignature`]: crate::Status::PsaErrorInvalidSignature
/// [`PsaErrorNotSupported`]: crate::Status::PsaErrorNotSupported
#[derive(Clone, Copy, Debug, PartialEq, Eq)]
pub struct Verify<'a> {
    /// The key's name: 1 to 32 bytes, each 0x21 to 0x7E.
    pub name: &'a [u8],
    /// The SHA-256 of what is signed. It has [`HASH_SIZE`] bytes, or the request is refused.
    pub hash: &'a [u8],
    /// The signature: of any length, but the body has at most
    /// [`LONGEST_BODY`](crate::LONGEST_BODY) bytes.
    pub signature: &'a [u8],
}

impl<'a> Verify<'a> {
    /// One whose hash has the right length by its type, so that
    /// [`WriteRefusal::HashIllegal`] can't be said.
    ///
    /// ```
    /// use razidkot_client::{Operation, Request, Verify, LEAST_REQUEST_BUFFER};
    ///
    /// let (hash, signature) = ([0x5A; 32], [0xA5; 256]);
    /// let verify = Operation::AsymmetricVerify(Verify::new(b"a", &hash, &signature));
    /// let request = Request::new(0, Some(b"scanner"), verify);
    /// let mut buffer = [0; LEAST_REQUEST_BUFFER];
    /// // The header, the name's field, the hash's, the signature's, and the application's name.
    /// assert_eq!(request.write(&mut buffer), Ok(28 + 3 + 34 + 259 + 7));
    /// ```
    pub const fn new(name: &'a [u8], hash: &'a [u8; HASH_SIZE], signature: &'a [u8]) -> Verify<'a> {
        Verify {
            name,
            hash,
            signature,
        }
    }
}

/// Why a request is not written; the first that applies, in this order.
#[derive(Clone, Copy, Debug, PartialEq, Eq)]
#[repr(u32)]
pub enum WriteRefusal {
    /// Fewer than [`LEAST_REQUEST_BUFFER`](crate::LEAST_REQUEST_BUFFER) bytes, whatever the request.
    BufferTooSmall = 1,
    /// An application's name not of 1 to 64 bytes, or with a byte outside 0x21 to 0x7E.
    ApplicationNameIllegal = 2,
    /// A key's name not of 1 to 32 bytes, or with a byte outside 0x21 to 0x7E.
    KeyNameIllegal = 3,
    /// Data not of 1 to 600 bytes.
    DataIllegal = 4,
    /// Bits other than 2,048, 3,072 and 4,096. The service would answer
    /// [`PsaErrorNotSupported`](crate::Status::PsaErrorNotSupported).
    BitsIllegal = 5,
    /// A hash not of [`HASH_SIZE`] bytes.
    HashIllegal = 6,
    /// A body that would have more than [`LONGEST_BODY`](crate::LONGEST_BODY) bytes: the signature
    /// is too long.
    BodyTooLong = 7,
}

impl WriteRefusal {
    /// Every refusal, in the order in which they are judged.
    pub const ALL: [WriteRefusal; 7] = [
        WriteRefusal::BufferTooSmall,
        WriteRefusal::ApplicationNameIllegal,
        WriteRefusal::KeyNameIllegal,
        WriteRefusal::DataIllegal,
        WriteRefusal::BitsIllegal,
        WriteRefusal::HashIllegal,
        WriteRefusal::BodyTooLong,
    ];

    /// The number that the archive says, `raw::Request::code`.
    pub fn number(self) -> u32 {
        self as u32
    }
}

impl fmt::Display for WriteRefusal {
    fn fmt(&self, out: &mut fmt::Formatter) -> fmt::Result {
        let why = match self {
            WriteRefusal::BufferTooSmall => "a buffer below 5,120 bytes",
            WriteRefusal::ApplicationNameIllegal => "the application's name",
            WriteRefusal::KeyNameIllegal => "the key's name",
            WriteRefusal::DataIllegal => "the key's data",
            WriteRefusal::BitsIllegal => "the key's bits",
            WriteRefusal::HashIllegal => "a hash not of 32 bytes",
            WriteRefusal::BodyTooLong => "a body above 4,096 bytes",
        };
        write!(out, "request not written: {why}")
    }
}

impl core::error::Error for WriteRefusal {}
