//! An RSA public key in its four forms.

use razidkot_tests::bill::Folder;
use std::fs;
use std::path::Path;
use std::process::{Command, Stdio};

/// An RSAPublicKey of 2,048 bits and the same in a SubjectPublicKeyInfo, as OpenSSL writes them.
pub const PEM: &str = "-----BEGIN RSA PUBLIC KEY-----
MIIBCgKCAQEAqZPCPRQl4WzBFDqJVNrrAfEfldzQJkdTbuyMbqFyAuAM9I0GYR8k
mPvYQRtc1Gq4CmeU496c2uJXBMruDMaS94cN2Csq24T4qm122fFBi17l0waFE3rT
tl3gZ3uyVJb6cpS1X9AoOOE0bTTK9hegtKQ2jR6hpL4NoIe/dDc2BztdUfYlTcmG
QzoWmsKxIQmwqqAQhhv01a2xBmG6r5bW1VpkMidFS9297tw4n8kmLQR/ZGNcl6bi
BIqeDyWHqKLF+n1gOR5hufk8lR7Q03O7uhphJSMgVcIGjU+9xFG+0wf9AguBP7oW
6Oynj5hqGTEQfqTVwmW/AcpMtL7my7W1iwIDAQAB
-----END RSA PUBLIC KEY-----
";
pub const INFO_PEM: &str = "-----BEGIN PUBLIC KEY-----
MIIBIjANBgkqhkiG9w0BAQEFAAOCAQ8AMIIBCgKCAQEAqZPCPRQl4WzBFDqJVNrr
AfEfldzQJkdTbuyMbqFyAuAM9I0GYR8kmPvYQRtc1Gq4CmeU496c2uJXBMruDMaS
94cN2Csq24T4qm122fFBi17l0waFE3rTtl3gZ3uyVJb6cpS1X9AoOOE0bTTK9heg
tKQ2jR6hpL4NoIe/dDc2BztdUfYlTcmGQzoWmsKxIQmwqqAQhhv01a2xBmG6r5bW
1VpkMidFS9297tw4n8kmLQR/ZGNcl6biBIqeDyWHqKLF+n1gOR5hufk8lR7Q03O7
uhphJSMgVcIGjU+9xFG+0wf9AguBP7oW6Oynj5hqGTEQfqTVwmW/AcpMtL7my7W1
iwIDAQAB
-----END PUBLIC KEY-----
";
/// One of 1,024 bits, which Import takes no more.
pub const SHORT_PEM: &str = "-----BEGIN RSA PUBLIC KEY-----
MIGJAoGBAPVk1OrJtX9o4iP+ZYpd8IOA91g/OFj9EFO2ejBrDfQqeFvCcXn2M8Ta
3dppDJ8F/Jerf72ehPxqualRPYOOlpXiqvzgIMUDnH/dF3WyxN+rNrTdyNn2geem
dLypjfd2KZ6eOH1qerGlEaeceE2vRecNK6dpd1yKR9Mpuc+EG5RhAgMBAAE=
-----END RSA PUBLIC KEY-----
";
/// The DER of that of 2,048 bits.
pub const DER: [u8; 270] = *b"\
\x30\x82\x01\x0A\x02\x82\x01\x01\x00\xA9\x93\xC2\x3D\x14\x25\xE1\x6C\xC1\x14\x3A\
\x89\x54\xDA\xEB\x01\xF1\x1F\x95\xDC\xD0\x26\x47\x53\x6E\xEC\x8C\x6E\xA1\x72\x02\
\xE0\x0C\xF4\x8D\x06\x61\x1F\x24\x98\xFB\xD8\x41\x1B\x5C\xD4\x6A\xB8\x0A\x67\x94\
\xE3\xDE\x9C\xDA\xE2\x57\x04\xCA\xEE\x0C\xC6\x92\xF7\x87\x0D\xD8\x2B\x2A\xDB\x84\
\xF8\xAA\x6D\x76\xD9\xF1\x41\x8B\x5E\xE5\xD3\x06\x85\x13\x7A\xD3\xB6\x5D\xE0\x67\
\x7B\xB2\x54\x96\xFA\x72\x94\xB5\x5F\xD0\x28\x38\xE1\x34\x6D\x34\xCA\xF6\x17\xA0\
\xB4\xA4\x36\x8D\x1E\xA1\xA4\xBE\x0D\xA0\x87\xBF\x74\x37\x36\x07\x3B\x5D\x51\xF6\
\x25\x4D\xC9\x86\x43\x3A\x16\x9A\xC2\xB1\x21\x09\xB0\xAA\xA0\x10\x86\x1B\xF4\xD5\
\xAD\xB1\x06\x61\xBA\xAF\x96\xD6\xD5\x5A\x64\x32\x27\x45\x4B\xDD\xBD\xEE\xDC\x38\
\x9F\xC9\x26\x2D\x04\x7F\x64\x63\x5C\x97\xA6\xE2\x04\x8A\x9E\x0F\x25\x87\xA8\xA2\
\xC5\xFA\x7D\x60\x39\x1E\x61\xB9\xF9\x3C\x95\x1E\xD0\xD3\x73\xBB\xBA\x1A\x61\x25\
\x23\x20\x55\xC2\x06\x8D\x4F\xBD\xC4\x51\xBE\xD3\x07\xFD\x02\x0B\x81\x3F\xBA\x16\
\xE8\xEC\xA7\x8F\x98\x6A\x19\x31\x10\x7E\xA4\xD5\xC2\x65\xBF\x01\xCA\x4C\xB4\xBE\
\xE6\xCB\xB5\xB5\x8B\x02\x03\x01\x00\x01";

/// A key's four files.
pub struct Forms {
    pub bits: u32,
    pub pem: Vec<u8>,
    pub info_pem: Vec<u8>,
    pub der: Vec<u8>,
    pub info_der: Vec<u8>,
}

impl Forms {
    /// The key above.
    pub fn fixed() -> Forms {
        // A SubjectPublicKeyInfo: its sequence, the algorithm, the bit string's beginning, the key.
        let algorithm = b"\x30\x0D\x06\x09\x2A\x86\x48\x86\xF7\x0D\x01\x01\x01\x05\x00";
        let info_der = [
            b"\x30\x82\x01\x22",
            &algorithm[..],
            b"\x03\x82\x01\x0F\x00",
            &DER,
        ]
        .concat();
        Forms {
            bits: 2_048,
            pem: PEM.into(),
            info_pem: INFO_PEM.into(),
            der: DER.to_vec(),
            info_der,
        }
    }

    /// A fresh key of OpenSSL's; nothing where there is no OpenSSL.
    pub fn made(folder: &Folder, bits: u32) -> Option<Forms> {
        let private = folder.path().join(format!("private-{bits}.pem"));
        openssl(&["genrsa", "-out"], &private, &[&bits.to_string()])?;
        let form = |name: &str, options: &[&str]| {
            let file = folder.path().join(name);
            let input = private.to_str().expect("text");
            openssl(&["rsa", "-in", input, "-out"], &file, options)?;
            Some(fs::read(file).expect("a key"))
        };
        Some(Forms {
            bits,
            pem: form("pem", &["-RSAPublicKey_out"])?,
            info_pem: form("info.pem", &["-pubout"])?,
            der: form("der", &["-RSAPublicKey_out", "-outform", "DER"])?,
            info_der: form("info.der", &["-pubout", "-outform", "DER"])?,
        })
    }

    /// The four files by name.
    pub fn files(&self) -> [(&'static str, &[u8]); 4] {
        [
            ("key.pem", &self.pem),
            ("info.pem", &self.info_pem),
            ("key.der", &self.der),
            ("info.der", &self.info_der),
        ]
    }
}

/// A signature by a fresh key of OpenSSL's, of the bytes `abc`.
pub struct Signed {
    pub key: Vec<u8>,
    pub signature: Vec<u8>,
}

impl Signed {
    /// Nothing where there is no OpenSSL.
    pub fn made(folder: &Folder, bits: u32) -> Option<Signed> {
        let key = Forms::made(folder, bits)?.der;
        let private = folder.path().join(format!("private-{bits}.pem"));
        let message = folder.file("message", b"abc");
        let signature = folder.path().join(format!("signature-{bits}"));
        let sign = ["dgst", "-sha256", "-sign", text(&private), "-out"];
        openssl(&sign, &signature, &[text(&message)])?;
        Some(Signed {
            key,
            signature: fs::read(signature).expect("a signature"),
        })
    }
}

fn text(path: &Path) -> &str {
    path.to_str().expect("text")
}

/// Nothing if there is no such program.
fn openssl(before: &[&str], file: &Path, behind: &[&str]) -> Option<()> {
    let mut command = Command::new("openssl");
    command.args(before).arg(file).args(behind);
    let status = command
        .stdout(Stdio::null())
        .stderr(Stdio::null())
        .status()
        .ok()?;
    assert!(status.success(), "{command:?}");
    Some(())
}
