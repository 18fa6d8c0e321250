//! The fields of a captured request that are shown: document 01, "Bytes on the wire". They are not
//! judged here.

use razidkot_client::Opcode;

/// A request whose header is whole: its first bytes, or all.
pub struct Request<'a>(&'a [u8]);

impl<'a> Request<'a> {
    /// The request that begins with these bytes; nothing if its header is not whole.
    pub fn new(bytes: &'a [u8]) -> Option<Request<'a>> {
        let size = bytes.get(4..6)?;
        let size = usize::from(u16::from_le_bytes([size[0], size[1]]));
        (size >= 22 && bytes.len() >= 6 + size).then_some(Request(bytes))
    }

    /// Its operation by name, or its opcode where none is listed.
    pub fn operation(&self) -> String {
        let opcode = self.number(26);
        match Opcode::from_number(opcode.into()) {
            Some(listed) => format!("{listed:?}"),
            None => format!("opcode-{opcode}"),
        }
    }

    /// Who asks; nothing if that is said by auth bytes that the service does not read.
    pub fn application(&self) -> Option<String> {
        match self.0[19] {
            0 => Some("nobody".into()),
            1 => Some(format!("\"{}\"", self.auth()?.escape_ascii())),
            other => Some(format!("auth-type-{other}")),
        }
    }

    /// The auth bytes; of an oversized request they are skipped with the body.
    fn auth(&self) -> Option<&[u8]> {
        let [size, low, high, auth] = [4, 20, 22, 24].map(|at| usize::from(self.number(at)));
        let content = high << 16 | low;
        let is_oversized = content > 4_096 || auth > 256;
        let start = 6 + size + content;
        (!is_oversized).then(|| self.0.get(start..start + auth))?
    }

    fn number(&self, at: usize) -> u16 {
        u16::from_le_bytes([self.0[at], self.0[at + 1]])
    }
}
