//! A request in words: `PsaExportPublicKey, session 2, application ct, name a`.

use super::text::bytes_of;
use super::Fault;
use razidkot_client::{
    BodyFormat, Import, Opcode, Operation, Request, Verify, LEAST_REQUEST_BUFFER,
};

pub struct Wanted {
    pub opcode: Opcode,
    pub buffer: usize,
    session: u64,
    content_type: BodyFormat,
    accept_type: BodyFormat,
    application: Option<Vec<u8>>,
    provider: u32,
    name: Vec<u8>,
    data: Vec<u8>,
    hash: Vec<u8>,
    signature: Vec<u8>,
    bits: u32,
    export_allowed: bool,
    verify_allowed: bool,
}

/// `type 2`.
fn format_of(text: &str) -> Result<BodyFormat, Fault> {
    let number = text
        .strip_prefix("type ")
        .and_then(|text| text.parse().ok());
    let format = number.and_then(BodyFormat::from_number);
    format.ok_or(format!("{text}: no body format"))
}

fn parsed<T: std::str::FromStr>(text: &str) -> Result<T, Fault> {
    text.parse().map_err(|_| format!("{text}: no number"))
}

impl Wanted {
    pub fn parse(text: &str) -> Result<Wanted, Fault> {
        let mut parts = text.split(", ");
        let name = parts.next().unwrap_or_default();
        let opcode = Opcode::ALL
            .into_iter()
            .find(|case| format!("{case:?}") == name);
        let mut wanted = Wanted {
            opcode: opcode.ok_or(format!("{name}: no operation"))?,
            buffer: LEAST_REQUEST_BUFFER,
            session: 0,
            content_type: BodyFormat::Protobuf,
            accept_type: BodyFormat::Protobuf,
            application: None,
            provider: 0,
            name: Vec::new(),
            data: Vec::new(),
            hash: Vec::new(),
            signature: Vec::new(),
            bits: 0,
            export_allowed: false,
            verify_allowed: false,
        };
        parts.try_for_each(|part| wanted.set(part))?;
        Ok(wanted)
    }

    fn set(&mut self, part: &str) -> Result<(), Fault> {
        let (what, value) = part.split_once(' ').unwrap_or((part, ""));
        match what {
            "nobody" => self.application = None,
            "session" => self.session = parsed(value)?,
            "content" => self.content_type = format_of(value)?,
            "accept" => self.accept_type = format_of(value)?,
            "application" => self.application = Some(value.into()),
            "provider" => self.provider = parsed(value)?,
            "name" => self.name = value.into(),
            "data" => self.data = bytes_of(value)?,
            "hash" => self.hash = bytes_of(value)?,
            "signature" => self.signature = bytes_of(value)?,
            "bits" => self.bits = parsed(value)?,
            "buffer" => self.buffer = parsed(value)?,
            "export" => self.export_allowed = value == "allowed",
            "verify" => self.verify_allowed = value == "allowed",
            _ => return Err(format!("{part}: no part of a request")),
        }
        Ok(())
    }

    fn operation(&self) -> Operation<'_> {
        let name = self.name.as_slice();
        match self.opcode {
            Opcode::Ping => Operation::Ping,
            Opcode::ListProviders => Operation::ListProviders,
            Opcode::ListOpcodes => Operation::ListOpcodes {
                provider: self.provider,
            },
            Opcode::PsaDestroyKey => Operation::DestroyKey { name },
            Opcode::PsaExportPublicKey => Operation::ExportPublicKey { name },
            Opcode::PsaAsymmetricVerify => Operation::AsymmetricVerify(Verify {
                name,
                hash: &self.hash,
                signature: &self.signature,
            }),
            Opcode::PsaImportKey => Operation::ImportKey(Import {
                name,
                data: &self.data,
                bits: self.bits,
                export_allowed: self.export_allowed,
                verify_allowed: self.verify_allowed,
            }),
        }
    }

    pub fn request(&self) -> Request<'_> {
        Request {
            session: self.session,
            application: self.application.as_deref(),
            operation: self.operation(),
            content_type: self.content_type,
            accept_type: self.accept_type,
        }
    }

    /// The bytes that the compiled client writes, or the name of its refusal.
    pub fn written(&self) -> Result<Vec<u8>, String> {
        let mut buffer = vec![0xEE; self.buffer];
        match self.request().write(&mut buffer) {
            Ok(written) => Ok(buffer[..written].to_vec()),
            Err(refusal) => Err(format!("{refusal:?}")),
        }
    }
}
