//! OpenSSL's command against the compiled service, in both directions: what OpenSSL signs the service
//! calls good, and with a bit changed both call it bad; what others made, good or bad, both judge
//! alike. Document 02, "Checking signatures".

mod scratch;

use razidkot_tests::ask::{INVALID_SIGNATURE, SUCCESS};
use razidkot_tests::sha256::sha256;
use razidkot_tests::signatures::{statuses, Signed};
use scratch::Scratch;
use std::fs;
use std::path::{Path, PathBuf};
use std::process::{Command, Output};

/// The command, with a folder for what it reads and writes.
struct OpenSsl(Scratch);

impl OpenSsl {
    /// None where the machine has no such command, which is said.
    fn find(test: &str) -> Option<OpenSsl> {
        let version = Command::new("openssl").arg("version").output();
        if version.is_ok_and(|output| output.status.success()) {
            return Some(OpenSsl(Scratch::new(test)));
        }
        eprintln!("skipped: {test}: the command openssl is not here");
        None
    }

    fn path(&self, name: &str) -> PathBuf {
        self.0.path().join(name)
    }

    fn file(&self, name: &str, bytes: &[u8]) -> PathBuf {
        let path = self.path(name);
        fs::write(&path, bytes).expect("a scratch file");
        path
    }

    /// Runs it in the folder; what it complains of is not shown.
    fn run(&self, words: &[&str]) -> Output {
        let mut command = Command::new("openssl");
        command.current_dir(self.0.path()).args(words);
        command.output().expect("the command openssl")
    }

    fn run_well(&self, words: &[&str]) {
        let output = self.run(words);
        let complaint = String::from_utf8_lossy(&output.stderr);
        assert!(output.status.success(), "openssl {words:?}: {complaint}");
    }

    /// A private key made now.
    fn generate(&self, bits: u16, exponent: u32) -> PathBuf {
        let name = format!("{bits}-{exponent}.pem");
        let bits = format!("rsa_keygen_bits:{bits}");
        let exponent = format!("rsa_keygen_pubexp:{exponent}");
        let options = ["-pkeyopt", &bits, "-pkeyopt", &exponent, "-out", &name];
        self.run_well(&[&["genpkey", "-quiet", "-algorithm", "RSA"], &options[..]].concat());
        self.path(&name)
    }

    /// The key's RSAPublicKey, and its signature of a hash that no other key signs.
    fn sign(&self, key: &Path) -> Signed {
        let title = key.file_stem().and_then(|stem| stem.to_str());
        let title = title.expect("bits-exponent").to_string();
        let hash = sha256(title.as_bytes()).to_vec();
        self.file("hash", &hash);
        let key = key.to_str().expect("a path in UTF-8");
        let public = ["-RSAPublicKey_out", "-outform", "DER", "-out", "public"];
        self.run_well(&[&["rsa", "-in", key], &public[..]].concat());
        let files = ["-inkey", key, "-in", "hash", "-out", "signature"];
        self.run_well(&[&["pkeyutl", "-sign"], &files[..], &PADDING].concat());
        let read = |name| fs::read(self.path(name)).expect("what openssl wrote");
        let (bits, _) = title.split_once('-').expect("bits-exponent");
        Signed {
            bits: bits.parse().expect("a number"),
            data: read("public"),
            signature: read("signature"),
            hash,
            title,
        }
    }

    fn calls_good(&self, signed: &Signed) -> bool {
        self.file("public", &signed.data);
        self.file("hash", &signed.hash);
        self.file("signature", &signed.signature);
        let key = ["-pubin", "-keyform", "DER", "-inkey", "public"];
        let files = ["-in", "hash", "-sigfile", "signature"];
        let words = [&["pkeyutl", "-verify"], &key[..], &files, &PADDING].concat();
        self.run(&words).status.success()
    }

    /// Both judge each of them so, the service those of bits that Import takes.
    fn expect(&self, all: &[Signed], is_good: bool) {
        let status = if is_good { SUCCESS } else { INVALID_SIGNATURE };
        for (signed, answered) in all.iter().zip(statuses(all)) {
            let title = &signed.title;
            assert_eq!(self.calls_good(signed), is_good, "openssl, {title}");
            let status = signed.status_or_unsupported(status);
            assert_eq!(answered, status, "service, {title}");
        }
    }

    /// What the keys sign is good, and with a bit changed anywhere bad.
    fn expect_signatures_of(&self, keys: &[PathBuf]) {
        let signed: Vec<_> = keys.iter().map(|key| self.sign(key)).collect();
        self.expect(&signed, true);
        let changed: Vec<_> = signed.iter().flat_map(with_a_bit_changed).collect();
        self.expect(&changed, false);
    }
}

const PADDING: [&str; 4] = [
    "-pkeyopt",
    "rsa_padding_mode:pkcs1",
    "-pkeyopt",
    "digest:sha256",
];

/// In the signature, in the hash, and in the middle of the key, where its modulus is.
fn with_a_bit_changed(signed: &Signed) -> [Signed; 3] {
    let mut changed = [(); 3].map(|()| signed.clone());
    let place = usize::from(signed.hash[0]);
    let bit = 1 << (place % 8);
    changed[0].signature[place % signed.signature.len()] ^= bit;
    changed[1].hash[place % 32] ^= bit;
    changed[2].data[signed.data.len() / 2] ^= bit;
    changed
}

/// The private keys of tests/vectors/keys.
fn kept_keys() -> Vec<PathBuf> {
    let folder = Path::new(env!("CARGO_MANIFEST_DIR")).join("vectors/keys");
    let entries = fs::read_dir(folder).expect("the folder of keys");
    let mut keys: Vec<_> = entries
        .map(|entry| entry.expect("an entry").path())
        .collect();
    keys.sort();
    keys
}

#[test]
fn kept_keys_of_every_modulus_and_exponent_sign_alike() {
    let keys = kept_keys();
    for bits in [1_024, 1_536, 2_048, 3_072, 4_096] {
        for exponent in [3, 17, 65_537, u32::MAX] {
            let name = format!("{bits}-{exponent}.pem");
            assert!(keys.iter().any(|key| key.ends_with(&name)), "{name}");
        }
    }
    if let Some(openssl) = OpenSsl::find("kept-keys") {
        openssl.expect_signatures_of(&keys);
    }
}

#[test]
fn keys_made_now_sign_alike() {
    if let Some(openssl) = OpenSsl::find("keys-made-now") {
        let keys = [
            (2_048, 3),
            (2_048, 17),
            (2_048, 65_537),
            (2_048, u32::MAX),
            (3_072, 65_537),
            (1_024, 65_537),
        ];
        let keys = keys.map(|(bits, exponent)| openssl.generate(bits, exponent));
        openssl.expect_signatures_of(&keys);
    }
}

/// Python's numbers made them: the direction in which OpenSSL has signed nothing.
#[test]
fn signatures_that_another_program_made_are_judged_alike() {
    if let Some(openssl) = OpenSsl::find("made-elsewhere") {
        openssl.expect(Signed::good(), true);
        let of_short_keys = |signed: &&Signed| signed.bits <= 2_048;
        let bad: Vec<_> = Signed::bad()
            .iter()
            .filter(of_short_keys)
            .cloned()
            .collect();
        assert_eq!(bad.len(), 120);
        openssl.expect(&bad, false);
    }
}
