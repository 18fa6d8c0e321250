//! `ask`: one request over a Unix socket, written and its response read by the proved client.

use crate::arguments::{number, Arguments};
use crate::key::{self, PublicKey};
use crate::response::byte_of_body;
use crate::{hash, input, output, Failure};
use razidkot_client::{BodyFormat, Import, Opcode, Operation, Output, Provider, Reader, Reading};
use razidkot_client::{Request, Response, Status, Verify, WriteRefusal, LEAST_REQUEST_BUFFER};
use std::error::Error;
use std::ffi::OsString;
use std::fmt::Debug;
use std::fs;
use std::io::{self, Write};
use std::os::unix::ffi::OsStringExt;
use std::os::unix::net::UnixStream;
use std::path::{Path, PathBuf};

/// The service's answer to an import with other bits than those that it takes.
const NOT_SUPPORTED: Status = Status::PsaErrorNotSupported;

/// What the command line asks for.
struct Ask {
    socket: PathBuf,
    application: Option<Vec<u8>>,
    session: u64,
    /// The format of the request's body, and that asked for in the response.
    format: BodyFormat,
    accept: BodyFormat,
    asked: Asked,
}

enum Asked {
    Ping,
    Providers,
    Opcodes(u32),
    Import(KeyFile),
    Export {
        name: Vec<u8>,
        destination: Option<PathBuf>,
    },
    Destroy {
        name: Vec<u8>,
    },
    Verify(Signature),
}

/// A key to be imported, and the file it is from.
struct KeyFile {
    name: Vec<u8>,
    file: PathBuf,
    data: Vec<u8>,
    bits: u32,
    export_allowed: bool,
    verify_allowed: bool,
}

/// A signature to be checked, and the words that say where it and the hash are from.
struct Signature {
    name: Vec<u8>,
    hash: Vec<u8>,
    hash_from: OsString,
    signature: Vec<u8>,
    file: PathBuf,
}

/// Does `ask ..`.
pub fn run(arguments: Arguments, out: &mut dyn Write) -> Result<(), Failure> {
    let ask = Ask::parse(arguments)?;
    let request = ask.request();
    // What the client refuses to write needs no service.
    let mut buffer = [0; LEAST_REQUEST_BUFFER];
    let written = request.write(&mut buffer);
    let written = written.map_err(|refusal| ask.not_written(refusal))?;
    let mut reader = Reader::begin(&request);
    converse(&ask.socket, &buffer[..written], &mut reader)
        .map_err(|reason| Failure::at(&ask.socket, reason))?;
    match reader.said() {
        Ok(Reading::Response(response)) => ask.print(response, out),
        Ok(Reading::Waiting) => Err(Failure::at(&ask.socket, "no response")),
        Err(refusal) => Err(Failure::at(&ask.socket, refusal)),
    }
}

// ---- what is asked

impl Ask {
    fn parse(mut arguments: Arguments) -> Result<Ask, Failure> {
        let socket = PathBuf::from(arguments.word("ask", "SOCKET")?);
        let application = arguments.value("--app").map(OsStringExt::into_vec);
        let session = arguments.number("ask", "--session")?.unwrap_or(0);
        let format = format(&mut arguments, "--format")?.unwrap_or_default();
        let accept = self::format(&mut arguments, "--accept")?.unwrap_or(format);
        let operation = arguments.word("ask", "an operation")?;
        let asked = match operation.to_str() {
            Some("ping") => without("ask ping", Asked::Ping, arguments),
            Some("providers") => without("ask providers", Asked::Providers, arguments),
            Some("opcodes") => opcodes(arguments),
            Some("import") => import(arguments),
            Some("export") => export(arguments),
            Some("destroy") => destroy(arguments),
            Some("verify") => verify(arguments),
            _ => Err(Failure::unknown("ask", "operation", &operation)),
        }?;
        Ok(Ask {
            socket,
            application,
            session,
            format,
            accept,
            asked,
        })
    }

    fn request(&self) -> Request<'_> {
        Request {
            session: self.session,
            application: self.application.as_deref(),
            operation: self.asked.operation(),
            content_type: self.format,
            accept_type: self.accept,
        }
    }
}

impl Asked {
    fn operation(&self) -> Operation<'_> {
        match self {
            Asked::Ping => Operation::Ping,
            Asked::Providers => Operation::ListProviders,
            Asked::Opcodes(provider) => Operation::ListOpcodes {
                provider: *provider,
            },
            Asked::Import(key) => Operation::ImportKey(Import {
                name: &key.name,
                data: &key.data,
                bits: key.bits,
                export_allowed: key.export_allowed,
                verify_allowed: key.verify_allowed,
            }),
            Asked::Export { name, .. } => Operation::ExportPublicKey { name },
            Asked::Destroy { name } => Operation::DestroyKey { name },
            Asked::Verify(asked) => Operation::AsymmetricVerify(Verify {
                name: &asked.name,
                hash: &asked.hash,
                signature: &asked.signature,
            }),
        }
    }

    /// The name of a key; empty where none is asked about.
    fn name(&self) -> &[u8] {
        match self {
            Asked::Import(KeyFile { name, .. })
            | Asked::Export { name, .. }
            | Asked::Destroy { name }
            | Asked::Verify(Signature { name, .. }) => name,
            Asked::Ping | Asked::Providers | Asked::Opcodes(_) => b"",
        }
    }
}

/// The value of an option as a body format.
fn format(arguments: &mut Arguments, option: &str) -> Result<Option<BodyFormat>, Failure> {
    let Some(number) = arguments.number("ask", option)? else {
        return Ok(None);
    };
    let format = BodyFormat::from_number(number);
    let unknown = || format!("{option} {number}: not 1, Protocol Buffers, nor 2, tagged records");
    let format = format.ok_or_else(|| Failure::usage("ask", unknown()))?;
    Ok(Some(format))
}

/// An operation without input.
fn without(command: &'static str, asked: Asked, arguments: Arguments) -> Result<Asked, Failure> {
    arguments.end(command)?;
    Ok(asked)
}

fn opcodes(mut arguments: Arguments) -> Result<Asked, Failure> {
    const COMMAND: &str = "ask opcodes";
    let provider = arguments.word(COMMAND, "PROVIDER")?;
    arguments.end(COMMAND)?;
    Ok(Asked::Opcodes(number(COMMAND, "PROVIDER", &provider)?))
}

fn import(mut arguments: Arguments) -> Result<Asked, Failure> {
    const COMMAND: &str = "ask import";
    let name = arguments.name(COMMAND)?;
    let file = PathBuf::from(arguments.word(COMMAND, "FILE")?);
    let bits = arguments.number(COMMAND, "--bits")?;
    let export_allowed = arguments.flag("--export");
    let verify_allowed = arguments.flag("--verify");
    arguments.end(COMMAND)?;

    let bytes = fs::read(&file).map_err(|error| Failure::at(&file, error))?;
    let key = key::read(&bytes).map_err(|fault| Failure::at(&file, fault))?;
    let bits = bits_of(&key, bits).map_err(|reason| Failure::at(&file, reason))?;
    Ok(Asked::Import(KeyFile {
        name,
        file,
        data: key.data,
        bits,
        export_allowed,
        verify_allowed,
    }))
}

/// A key's bits: a modulus says them, and what is said besides must agree.
fn bits_of(key: &PublicKey, said: Option<u32>) -> Result<u32, String> {
    match (key.bits, said) {
        (Some(bits), Some(said)) if bits != said => {
            Err(format!("the modulus has {bits} bits, not {said}"))
        }
        (Some(bits), _) | (None, Some(bits)) => Ok(bits),
        (None, None) => Err("no RSA public key whose modulus says its bits: say --bits".into()),
    }
}

fn export(mut arguments: Arguments) -> Result<Asked, Failure> {
    const COMMAND: &str = "ask export";
    let name = arguments.name(COMMAND)?;
    let destination = arguments.path("-o");
    arguments.end(COMMAND)?;
    Ok(Asked::Export { name, destination })
}

fn destroy(mut arguments: Arguments) -> Result<Asked, Failure> {
    const COMMAND: &str = "ask destroy";
    let name = arguments.name(COMMAND)?;
    arguments.end(COMMAND)?;
    Ok(Asked::Destroy { name })
}

fn verify(mut arguments: Arguments) -> Result<Asked, Failure> {
    const COMMAND: &str = "ask verify";
    let name = arguments.name(COMMAND)?;
    let missing = |what: &str| Failure::usage(COMMAND, format!("{what} is missing"));
    let hash_from = arguments.value("--hash");
    let hash_from = hash_from.ok_or_else(|| missing("--hash HEX or --hash FILE"))?;
    let file = arguments.path("--signature");
    let file = file.ok_or_else(|| missing("--signature FILE"))?;
    arguments.end(COMMAND)?;

    let hash = hash::read(&hash_from)?;
    let signature = fs::read(&file).map_err(|error| Failure::at(&file, error))?;
    Ok(Asked::Verify(Signature {
        name,
        hash,
        hash_from,
        signature,
        file,
    }))
}

// ---- the conversation

/// Sends a request and reads until its response is whole or refused, in whatever chunks it comes.
fn converse(socket: &Path, request: &[u8], reader: &mut Reader) -> Result<(), Box<dyn Error>> {
    let mut stream = UnixStream::connect(socket)?;
    stream.write_all(request)?;
    let mut chunk = [0; 4_096];
    let mut received = 0;
    loop {
        let length = input::read(&mut stream, &mut chunk)?;
        if length == 0 {
            let cut = format!("the connection ended at byte {received} of the response");
            return Err(format!("{cut}; the request may have been served").into());
        }
        received += length;
        if reader.read(&chunk[..length]).said != Ok(Reading::Waiting) {
            return Ok(());
        }
    }
}

// ---- what came of it

impl Ask {
    /// The request that the client refuses, by what of the command line is at fault.
    fn not_written(&self, refusal: WriteRefusal) -> Failure {
        let quoted = |name: &[u8]| format!("\"{}\"", name.escape_ascii());
        let reason = match (refusal, &self.asked) {
            (WriteRefusal::ApplicationNameIllegal, _) => {
                let name = quoted(self.application.as_deref().unwrap_or_default());
                format!("--app {name}: not 1 to 64 bytes, each 0x21 to 0x7E")
            }
            (WriteRefusal::KeyNameIllegal, asked) => {
                let name = quoted(asked.name());
                format!("NAME {name}: not 1 to 32 bytes, each 0x21 to 0x7E")
            }
            (WriteRefusal::DataIllegal, Asked::Import(key)) => {
                let (file, length) = (key.file.display(), key.data.len());
                format!("{file}: {length} bytes of data, not 1 to 600")
            }
            (WriteRefusal::BitsIllegal, Asked::Import(key)) => {
                let (file, bits) = (key.file.display(), key.bits);
                let (would, number) = (NOT_SUPPORTED, NOT_SUPPORTED.number());
                format!(
                    "{file}: {bits} bits, not 2048, 3072 or 4096: \
                     the service would answer {would:?} (status {number})"
                )
            }
            (WriteRefusal::HashIllegal, Asked::Verify(asked)) => {
                let (from, length) = (asked.hash_from.display(), asked.hash.len());
                format!("--hash {from}: {length} bytes, not the 32 of a SHA-256")
            }
            (WriteRefusal::BodyTooLong, Asked::Verify(asked)) => {
                let (file, length) = (asked.file.display(), asked.signature.len());
                format!("{file}: {length} bytes of signature, more than a request can have")
            }
            (other, _) => other.to_string(),
        };
        Failure::Failed(reason)
    }

    fn print(&self, response: Response, out: &mut dyn Write) -> Result<(), Failure> {
        if response.status != 0 {
            return Err(self.refused(&response));
        }
        match response.output {
            Output::Nothing => match self.asked {
                Asked::Verify(_) => writeln!(out, "good signature"),
                _ => Ok(()),
            },
            Output::Version { major, minor } => writeln!(out, "{major}.{minor}"),
            Output::Providers(entries) => list(entries, Provider::from_number, out),
            Output::Opcodes(entries) => list(entries, Opcode::from_number, out),
            Output::Data(data) => return output::write(data, self.asked.destination(), out),
            // Of status 7 alone.
            Output::Offset(_) => Ok(()),
        }
        .map_err(Failure::output)
    }

    /// A status other than 0. That a signature is bad is an answer to what was asked, and told apart
    /// from all else.
    fn refused(&self, response: &Response) -> Failure {
        match (&self.asked, response.listed_status()) {
            (Asked::Verify(_), Some(status @ Status::PsaErrorInvalidSignature)) => {
                let (socket, number) = (self.socket.display(), response.status);
                Failure::BadSignature(format!(
                    "{socket}: bad signature: {status:?} (status {number})"
                ))
            }
            _ => Failure::at(&self.socket, refused(response)),
        }
    }
}

impl Asked {
    fn destination(&self) -> Option<&Path> {
        match self {
            Asked::Export { destination, .. } => destination.as_deref(),
            _ => None,
        }
    }
}

fn refused(response: &Response) -> String {
    let number = response.status;
    let place = match response.output {
        Output::Offset(at) => format!(", {}", byte_of_body(at)),
        _ => String::new(),
    };
    match response.listed_status() {
        Some(status) => format!("refused: {status:?} (status {number}){place}"),
        None => format!("refused: status {number}, which is not listed"),
    }
}

/// The entries, a line each: the number, and the name where it is known.
fn list<N: Debug>(
    entries: impl Iterator<Item = u32>,
    named: impl Fn(u32) -> Option<N>,
    out: &mut dyn Write,
) -> io::Result<()> {
    for entry in entries {
        match named(entry) {
            Some(name) => writeln!(out, "{entry} {name:?}")?,
            None => writeln!(out, "{entry}")?,
        }
    }
    Ok(())
}
