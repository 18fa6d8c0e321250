//! `ask` against the key service on a Unix socket, and against other ends that misbehave.

mod common;

use common::keys::{Forms, Signed, PEM, SHORT_PEM};
use common::{folder, free, razidkot, series, Ended};
use razidkot_client::{BodyFormat, Import, Operation, Request, Verify, LEAST_REQUEST_BUFFER};
use razidkot_tests::ask::record;
use std::ffi::OsStr;
use std::fs;
use std::io::{Read, Write};
use std::os::unix::net::{UnixListener, UnixStream};
use std::path::{Path, PathBuf};
use std::sync::mpsc;
use std::thread::{self, JoinHandle};
use std::time::Duration;
use unix_socket::{Server, Settings};

/// No test waits so long unless something hangs.
const TOO_LONG: Duration = Duration::from_secs(60);

/// A path of its own; one below target/ might be too long for a socket.
fn socket_path(test: &str) -> PathBuf {
    let path = std::env::temp_dir().join(format!("razidkot-tool-{}-{test}", std::process::id()));
    let _ = fs::remove_file(&path);
    path
}

/// The service with two applications, `scanner` and `viewer`.
struct Service {
    socket: PathBuf,
    server: Server,
}

impl Service {
    fn start(test: &str) -> Service {
        Service::start_with_list(test, b"")
    }

    fn start_with_list(test: &str, list: &[u8]) -> Service {
        let socket = socket_path(test);
        let roster = [record(1, b"scanner"), record(1, b"viewer")].concat();
        let server = Server::start(Settings {
            socket: &socket,
            roster: &roster,
            list,
            journal: None,
            capture: None,
            capture_responses: None,
            patience: TOO_LONG,
            say: |_| (),
            stop: mpsc::channel().0,
        })
        .expect("a free path");
        Service { socket, server }
    }

    fn ask(&self, words: &[&OsStr]) -> Ended {
        ask(&self.socket, words)
    }

    fn assert_refused(&self, words: &[&OsStr], said: &str) {
        let said = format!("{}: refused: {said}", self.socket.display());
        self.ask(words).assert_failed(&said);
    }

    /// Stops it; so many requests were served for `scanner`.
    fn stop(self, served: u64) {
        let totals = self.server.stop();
        assert_eq!(totals.counters.served[0], served);
        assert_eq!((totals.unfinished, totals.undelivered), (0, 0));
    }
}

fn ask(socket: &Path, words: &[&OsStr]) -> Ended {
    razidkot(&[words!["ask", socket], words].concat())
}

// ---- the service

#[test]
fn what_the_service_is_asked_of_itself() {
    let service = Service::start("core");
    assert_eq!(service.ask(words!["ping"]).text(), "1.0\n");
    let named = words![
        "ping",
        "--app",
        "scanner",
        "--session",
        "18446744073709551615"
    ];
    assert_eq!(service.ask(named).text(), "1.0\n");
    assert_eq!(
        service.ask(words!["providers"]).text(),
        "0 Core\n1 Keystore\n"
    );
    let core = "1 Ping\n8 ListProviders\n9 ListOpcodes\n";
    assert_eq!(service.ask(words!["opcodes", "0"]).text(), core);
    let keystore = "3 PsaDestroyKey\n5 PsaAsymmetricVerify\n6 PsaImportKey\n7 PsaExportPublicKey\n";
    assert_eq!(
        service.ask(words!["--app=scanner", "opcodes", "1"]).text(),
        keystore
    );
    service.assert_refused(words!["opcodes", "2"], "ProviderDoesNotExist (status 6)");
    service.assert_refused(
        words!["ping", "--app", "x"],
        "AuthenticationError (status 11)",
    );
    service.stop(2);
}

#[test]
fn a_keys_life() {
    let (service, folder) = (Service::start("life"), folder("life"));
    let file = folder.file("any", b"\x00\xFF\n");
    let app = words!["--app", "scanner"];
    let asked = |words: &[&OsStr]| service.ask(&[words, app].concat());
    let refused = |words: &[&OsStr], said| service.assert_refused(&[words, app].concat(), said);

    let import = words!["import", "k", file, "--bits", "2048", "--export"];
    assert_eq!(asked(import).printed(), b"");
    refused(import, "PsaErrorAlreadyExists (status 1139)");
    service.assert_refused(import, "NotAuthenticated (status 19)");
    assert_eq!(asked(words!["export", "k"]).printed(), b"\x00\xFF\n");
    let other = words!["export", "k", "--app", "viewer"];
    service.assert_refused(other, "PsaErrorDoesNotExist (status 1140)");
    let exported = free(&folder, "exported");
    assert_eq!(asked(words!["export", "k", "-o", exported]).printed(), b"");
    assert_eq!(fs::read(&exported).expect("data"), b"\x00\xFF\n");

    // What is refused leaves the file alone.
    assert_eq!(
        asked(words!["import", "hidden", file, "--bits=4096"]).printed(),
        b""
    );
    let hidden = words!["export", "hidden", "-o", exported];
    refused(hidden, "PsaErrorNotPermitted (status 1133)");
    assert_eq!(fs::read(&exported).expect("data"), b"\x00\xFF\n");

    assert_eq!(asked(words!["destroy", "k"]).printed(), b"");
    refused(words!["destroy", "k"], "PsaErrorDoesNotExist (status 1140)");
    for name in ["--", "b", "c", "d", "e", "f", "g"] {
        let import = words!["--bits", "2048", "--app", "scanner", "import", "--", name, file];
        assert_eq!(service.ask(import).printed(), b"");
    }
    refused(import, "PsaErrorInsufficientStorage (status 1142)");
    service.stop(12);
}

/// All operations with both bodies as tagged records, and with one of them.
#[test]
fn a_keys_life_in_either_format() {
    let (service, folder) = (Service::start("formats"), folder("formats"));
    let key = folder.file("key", series::DATA);
    let signature = folder.file("signature", series::SIGNATURE);
    let formats = [
        words!["--format", "2"],
        words!["--accept", "2"],
        words!["--format", "2", "--accept", "1"],
    ];
    for format in formats {
        let app = words!["--app", "scanner"];
        let asked = |words: &[&OsStr]| service.ask(&[words, app, format].concat());
        assert_eq!(asked(words!["ping"]).text(), "1.0\n");
        assert_eq!(asked(words!["providers"]).text(), "0 Core\n1 Keystore\n");
        let core = "1 Ping\n8 ListProviders\n9 ListOpcodes\n";
        assert_eq!(asked(words!["opcodes", "0"]).text(), core);
        let import = words!["import", "k", key, "--export", "--verify"];
        assert_eq!(asked(import).printed(), b"");
        assert_eq!(asked(words!["export", "k"]).printed(), series::DATA);
        let verify = words!["verify", "k", "--hash", ABC, "--signature", signature];
        assert_eq!(asked(verify).text(), "good signature\n");
        assert_eq!(asked(words!["destroy", "k"]).printed(), b"");
        let said = "PsaErrorDoesNotExist (status 1140)";
        service.assert_refused(&[words!["export", "k"], app, format].concat(), said);
    }
    service.stop(3 * 7);
}

/// What the tool lists, the service has for everybody, and nobody can change.
#[test]
fn the_keys_of_the_services_list() {
    let folder = folder("shipped");
    let key = folder.file("key", series::DATA);
    let other = folder.file("other", b"other");
    let list = razidkot(words!["list", "make", "release", key]).printed();
    let service = Service::start_with_list("shipped", &list);
    for app in ["scanner", "viewer"] {
        let exported = service.ask(words!["export", "release", "--app", app]);
        assert_eq!(exported.printed(), series::DATA);
    }
    let app = words!["--app", "scanner"];
    let refused = |words: &[&OsStr], said| service.assert_refused(&[words, app].concat(), said);
    let import = words!["import", "release", other, "--bits", "2048", "--export"];
    refused(import, "PsaErrorAlreadyExists (status 1139)");
    refused(
        words!["destroy", "release"],
        "PsaErrorNotPermitted (status 1133)",
    );
    service.assert_refused(words!["export", "release"], "NotAuthenticated (status 19)");
    let signature = folder.file("signature", series::SIGNATURE);
    let given = words!["verify", "release", "--hash", ABC, "--signature", signature];
    let verified = service.ask(&[given, app].concat());
    assert_eq!(verified.text(), "good signature\n");
    service.stop(2);
}

#[test]
fn the_key_of_each_form_comes_back_as_der() {
    let (service, folder) = (Service::start("forms"), folder("forms"));
    let forms = Forms::made(&folder, 2_048).unwrap_or_else(Forms::fixed);
    for (name, bytes) in forms.files() {
        let file = folder.file(name, bytes);
        let import = words!["import", name, file, "--app", "scanner", "--export"];
        assert_eq!(service.ask(import).printed(), b"");
        let export = words!["export", name, "--app", "scanner"];
        assert_eq!(service.ask(export).printed(), forms.der);
    }
    service.stop(8);
}

#[test]
fn a_data_file_that_cannot_be_written_is_named() {
    let (service, folder) = (Service::start("unwritten"), folder("unwritten"));
    let file = folder.file("any", b"\x01");
    let import = words!["import", "k", file, "--bits", "2048", "--export", "--app", "scanner"];
    assert_eq!(service.ask(import).printed(), b"");
    let out = folder.missing().join("out");
    let said = format!("{}: No such file or directory (os error 2)", out.display());
    let export = words!["export", "k", "--app", "scanner", "-o", out];
    service.ask(export).assert_failed(&said);
    service.stop(2);
}

/// The SHA-256 of `abc`, as `sha256sum` prints it.
const ABC: &str = "ba7816bf8f01cfea414140de5dae2223b00361a396177a9cb410ff61f20015ad";

#[test]
fn a_signature_is_good_or_bad_and_told_in_words() {
    let (service, folder) = (Service::start("signature"), folder("signature"));
    let (key, hash) = (
        folder.file("key", series::DATA),
        folder.file("hash", series::HASH),
    );
    let signature = folder.file("signature", series::SIGNATURE);
    let import = words!["import", "k", key, "--app", "scanner", "--verify"];
    assert_eq!(service.ask(import).printed(), b"");
    let verify = |hash: &OsStr, signature: &Path| {
        let given = words!["verify", "k", "--app", "scanner", "--hash"];
        let rest = words!["--signature", signature];
        service.ask(&[given, &[hash], rest].concat())
    };
    // A file of 32 bytes, and 64 digits in either case.
    for hash in words![hash, ABC, ABC.to_uppercase()] {
        assert_eq!(verify(hash, &signature).text(), "good signature\n");
    }
    let bad = format!(
        "{}: bad signature: PsaErrorInvalidSignature (status 1149)",
        service.socket.display()
    );
    let other = ABC.replace("ba78", "ba79");
    verify(OsStr::new(&other), &signature).assert_bad_signature(&bad);
    for wrong in [&series::SIGNATURE[1..], b"", &[0xFF; 256], &[0; 4_000]] {
        let wrong = folder.file("wrong", wrong);
        verify(OsStr::new(ABC), &wrong).assert_bad_signature(&bad);
    }
    service.stop(4);
}

#[test]
fn a_signature_that_is_not_checked_has_status_1() {
    let (service, folder) = (Service::start("unchecked"), folder("unchecked"));
    let key = folder.file("key", series::DATA);
    let other = folder.file("other", b"no key");
    let signature = folder.file("signature", series::SIGNATURE);
    let given = words!["--app", "scanner", "--hash", ABC, "--signature", signature];
    let refused = |name: &str, said| {
        service.assert_refused(&[words!["verify", name], given].concat(), said);
    };
    refused("k", "PsaErrorDoesNotExist (status 1140)");
    for (name, file, more) in [
        ("k", &key, words!["--export"]),
        ("other", &other, words!["--bits", "2048", "--verify"]),
    ] {
        let import = words!["import", name, file, "--app", "scanner"];
        assert_eq!(service.ask(&[import, more].concat()).printed(), b"");
    }
    refused("k", "PsaErrorNotPermitted (status 1133)");
    refused("other", "PsaErrorNotSupported (status 1134)");
    let by_nobody = [words!["verify", "k"], &given[2..]].concat();
    service.assert_refused(&by_nobody, "NotAuthenticated (status 19)");
    service.stop(2);
}

#[test]
fn what_openssl_signs_is_good() {
    let (service, folder) = (Service::start("openssl"), folder("openssl"));
    let mut made = 0;
    for bits in [2_048, 3_072] {
        let Some(signed) = Signed::made(&folder, bits) else {
            continue;
        };
        let name = format!("key-{bits}");
        let key = folder.file("key", &signed.key);
        let signature = folder.file("signature", &signed.signature);
        let import = words!["import", name, key, "--app", "scanner", "--verify"];
        assert_eq!(service.ask(import).printed(), b"");
        let given = words!["--app", "scanner", "--hash", ABC, "--signature", signature];
        let verify = [words!["verify", name], given].concat();
        assert_eq!(service.ask(&verify).text(), "good signature\n");
        made += 1;
    }
    service.stop(2 * made);
}

// ---- what is refused before anything is sent

#[test]
fn what_the_client_refuses_needs_no_service() {
    let (socket, folder) = (socket_path("unasked"), folder("unasked"));
    let (key, empty) = (folder.file("key", b"\x01"), folder.file("empty", b""));
    let long = folder.file("long", &[7; 601]);
    let refused = |words: &[&OsStr], said: &str| ask(&socket, words).assert_failed(said);

    let (name, longer) = ("n".repeat(33), "n".repeat(65));
    for (given, shown) in [("", ""), ("a key", "a key"), (&name, &name), ("\n", "\\n")] {
        let said = format!("NAME \"{shown}\": not 1 to 32 bytes, each 0x21 to 0x7E");
        refused(words!["export", given], &said);
        refused(words!["destroy", given], &said);
        refused(words!["import", given, key, "--bits", "2048"], &said);
    }
    let (hash, signature) = (folder.file("hash", &[0; 31]), folder.file("signature", b""));
    let verify = |more: &[&OsStr], said: &str| {
        let by = words!["verify", "k", "--app", "scanner"];
        refused(&[by, more].concat(), said);
    };
    let said = format!(
        "--hash {}: 31 bytes, not the 32 of a SHA-256",
        hash.display()
    );
    verify(words!["--hash", hash, "--signature", signature], &said);
    let endless = folder.file("endless", &[7; 4_097]);
    let said = format!(
        "{}: 4097 bytes of signature, more than a request can have",
        endless.display()
    );
    verify(words!["--hash", ABC, "--signature", endless], &said);
    for name in ["", "an application", &longer] {
        let said = format!("--app \"{name}\": not 1 to 64 bytes, each 0x21 to 0x7E");
        refused(words!["ping", "--app", name], &said);
    }
    for (file, length) in [(&empty, 0), (&long, 601)] {
        let said = format!("{}: {length} bytes of data, not 1 to 600", file.display());
        refused(words!["import", "k", file, "--bits", "2048"], &said);
    }
    for bits in ["0", "1024", "2047", "2056", "4104", "4294967295"] {
        let said = format!("{}: {}", key.display(), bits_refused(bits));
        refused(words!["import", "k", key, "--bits", bits], &said);
    }
}

/// What is said of bits that Import doesn't take.
fn bits_refused(bits: &str) -> String {
    let would = "the service would answer PsaErrorNotSupported (status 1134)";
    format!("{bits} bits, not 2048, 3072 or 4096: {would}")
}

/// The file is named, and why it is not sent.
fn assert_not_sent(file: &Path, more: &[&OsStr], reason: &str) {
    let said = format!("{}: {reason}", file.display());
    let import = [words!["import", "k", file], more].concat();
    ask(Path::new("no socket"), &import).assert_failed(&said);
}

#[test]
fn a_key_file_that_will_not_do_is_named() {
    let folder = folder("key_files");
    let missing = folder.missing();
    assert_not_sent(&missing, &[], "No such file or directory (os error 2)");
    assert_not_sent(folder.path(), &[], "Is a directory (os error 21)");
    let file = folder.file("data", b"\xAA\xBB");
    let reason = "no RSA public key whose modulus says its bits: say --bits";
    assert_not_sent(&file, &[], reason);
    let file = folder.file("private.der", b"\x30\x06\x02\x01\x00\x02\x01\x05");
    let bits = words!["--bits", "2048"];
    assert_not_sent(&file, bits, "DER that begins like a private key");
    // A modulus of nine bits says so, and the client refuses them.
    let file = folder.file("small.der", b"\x30\x07\x02\x02\x01\x0D\x02\x01\x03");
    let reason = bits_refused("9");
    assert_not_sent(&file, &[], &reason);
    assert_not_sent(&file, words!["--bits", "9"], &reason);
}

#[test]
fn a_key_of_1024_bits_is_refused_as_the_service_would() {
    let folder = folder("short_key");
    let file = folder.file("short.pem", SHORT_PEM.as_bytes());
    assert_not_sent(&file, &[], &bits_refused("1024"));
    assert_not_sent(&file, words!["--bits", "1024"], &bits_refused("1024"));
    let bits = words!["--bits", "2048"];
    assert_not_sent(&file, bits, "the modulus has 1024 bits, not 2048");
}

#[test]
fn a_hash_that_is_neither_digits_nor_a_file_is_named() {
    let folder = folder("hashes");
    let (signature, missing) = (folder.file("signature", b""), folder.missing());
    let verify = |hash: &OsStr, signature: &Path| {
        let given = words!["verify", "k", "--hash"];
        let rest = words!["--signature", signature];
        ask(Path::new("no socket"), &[given, &[hash], rest].concat())
    };
    let (short, long) = (&ABC[1..], format!("{ABC}0"));
    let other = ABC.replace('f', "g");
    for hash in [short, &long, &other, "", "0x"] {
        let reason =
            "not 64 hexadecimal digits, and as a file: No such file or directory (os error 2)";
        let said = format!("--hash {hash}: {reason}");
        verify(OsStr::new(hash), &signature).assert_failed(&said);
    }
    let said = format!(
        "{}: No such file or directory (os error 2)",
        missing.display()
    );
    verify(OsStr::new(ABC), &missing).assert_failed(&said);
}

#[test]
fn pem_that_will_not_do_is_named() {
    let folder = folder("pem_files");
    let file = folder.file("key.pem", PEM.as_bytes());
    let bits = words!["--bits", "3072"];
    assert_not_sent(&file, bits, "the modulus has 2048 bits, not 3072");
    let bits = words!["--bits", "2048"];
    for (text, reason) in [
        (
            PEM.replace("RSA PUBLIC", "PRIVATE"),
            "PEM of PRIVATE KEY, not of RSA PUBLIC KEY or PUBLIC KEY",
        ),
        (
            PEM.replace("RSA PUBLIC", "PUBLIC"),
            "PEM without a DER SubjectPublicKeyInfo of RSA",
        ),
        (PEM[..90].into(), "a PEM block that is not whole"),
        (PEM.replace("MIIB", "MII!"), "PEM that is not base64"),
        ([PEM, PEM].concat(), "more than one PEM block"),
    ] {
        let file = folder.file("other.pem", text.as_bytes());
        assert_not_sent(&file, &[], reason);
        assert_not_sent(&file, bits, reason);
    }
}

#[test]
fn a_socket_without_a_service_is_named() {
    let socket = socket_path("nobody");
    let said = |reason| format!("{}: {reason}", socket.display());
    ask(&socket, words!["ping"]).assert_failed(&said("No such file or directory (os error 2)"));
    drop(UnixListener::bind(&socket).expect("a free path"));
    ask(&socket, words!["ping"]).assert_failed(&said("Connection refused (os error 111)"));
    fs::remove_file(&socket).expect("a socket");
}

// ---- other ends

/// Takes one request, sends these chunks, one after the other, and ends the connection.
struct Other {
    socket: PathBuf,
    running: JoinHandle<Vec<u8>>,
}

impl Other {
    fn start(test: &str, chunks: Vec<Vec<u8>>) -> Other {
        let socket = socket_path(test);
        let listener = UnixListener::bind(&socket).expect("a free path");
        let running = thread::spawn(move || {
            let (mut stream, _) = listener.accept().expect("a client");
            let mut request = vec![0; 28];
            stream.read_exact(&mut request).expect("a header");
            let body = u32::from_le_bytes([20, 21, 22, 23].map(|place| request[place]));
            let auth = u16::from_le_bytes([24, 25].map(|place| request[place]));
            request.resize(28 + body as usize + usize::from(auth), 0);
            stream.read_exact(&mut request[28..]).expect("the rest");
            for chunk in chunks {
                // The program may have read enough, and be gone.
                let _ = stream.write_all(&chunk);
                thread::sleep(Duration::from_millis(2));
            }
            request
        });
        Other { socket, running }
    }

    /// What the program makes of it, and the request that it sent.
    fn asked(self, words: &[&OsStr]) -> (Ended, Vec<u8>) {
        let ended = ask(&self.socket, words);
        // A program that has not come at all must not be waited for.
        let _ = UnixStream::connect(&self.socket);
        let request = self.running.join().expect("an other end");
        fs::remove_file(&self.socket).expect("a socket");
        (ended, request)
    }
}

/// A response to a core operation.
fn response(session: u64, opcode: u8, status: u16, body: &[u8]) -> Vec<u8> {
    let head = b"\x10\xA7\xC0\x5E\x14\0\x01\0\0";
    let numbers = [&[1][..], &(body.len() as u32).to_le_bytes(), &[opcode, 0]].concat();
    [
        head,
        &session.to_le_bytes()[..],
        &numbers,
        &status.to_le_bytes(),
        body,
    ]
    .concat()
}

#[test]
fn a_response_is_read_in_whatever_chunks_it_comes() {
    let whole = response(7, 9, 0, b"\x0A\x04\x03\x80\x01\x09");
    for size in [1, 5, 26, 27, 100] {
        let chunks = whole.chunks(size).map(<[u8]>::to_vec).collect();
        let other = Other::start(&format!("chunks-{size}"), chunks);
        let (ended, _) = other.asked(words!["opcodes", "0", "--session", "7"]);
        assert_eq!(
            ended.text(),
            "3 PsaDestroyKey\n128\n9 ListOpcodes\n",
            "{size}"
        );
    }
}

/// The request that is sent for these words.
fn assert_sent(test: &str, words: &[&OsStr], request: Request) {
    let mut expected = [0; LEAST_REQUEST_BUFFER];
    let written = request.write(&mut expected).expect("a good request");
    let other = Other::start(test, Vec::new());
    let (ended, sent) = other.asked(words);
    assert_eq!(sent, expected[..written], "{words:?}");
    assert_eq!(ended.status, 1, "no response came");
}

#[test]
fn the_request_is_what_the_command_line_says() {
    let name = b"a";
    let provider = u32::MAX;
    let signature = folder("sent_signature").file("signature", b"\x00\xFF\n");
    let cases = [
        (words!["ping"], Operation::Ping),
        (words!["providers"], Operation::ListProviders),
        (
            words!["opcodes", "4294967295"],
            Operation::ListOpcodes { provider },
        ),
        (words!["destroy", "a"], Operation::DestroyKey { name }),
        (words!["export", "a"], Operation::ExportPublicKey { name }),
        (
            words!["verify", "a", "--hash", ABC, "--signature", signature],
            Operation::AsymmetricVerify(Verify::new(name, series::HASH, b"\x00\xFF\n")),
        ),
    ];
    for (words, operation) in cases {
        let nobody = Request::new(0, None, operation);
        assert_sent("sent", words, nobody);
        let named = Request::new(0x0102_0304_0506_0708, Some(b"scanner"), operation);
        let more = words!["--app", "scanner", "--session", "72623859790382856"];
        assert_sent("sent", &[words, more].concat(), named);
        let tagged = nobody.in_format(BodyFormat::Tagged);
        assert_sent("sent", &[words, words!["--format", "2"]].concat(), tagged);
        let [protobuf, accept_type] = BodyFormat::ALL;
        let other = Request {
            accept_type,
            ..nobody
        };
        assert_sent("sent", &[words, words!["--accept=2"]].concat(), other);
        let other = Request {
            accept_type: protobuf,
            ..tagged
        };
        let both = words!["--accept", "1", "--format", "2"];
        assert_sent("sent", &[words, both].concat(), other);
    }
}

#[test]
fn an_import_sends_the_key_and_what_it_may_be_used_for() {
    let (folder, forms) = (folder("sent"), Forms::fixed());
    let file = folder.file("key.pem", &forms.info_pem);
    let cases = [
        (&[][..], false, false),
        (words!["--bits=2048"], false, false),
        (words!["--export"], true, false),
        (words!["--verify"], false, true),
        (words!["--export", "--verify"], true, true),
    ];
    for (more, export_allowed, verify_allowed) in cases {
        let key = Import {
            name: b"a",
            data: &forms.der,
            bits: 2_048,
            export_allowed,
            verify_allowed,
        };
        let request = Request::new(0, None, Operation::ImportKey(key));
        let words = [words!["import", "a", file], more].concat();
        assert_sent("imported", &words, request);
    }
}

/// What is said of this response to a Ping with session 5.
fn assert_said(test: &str, response: &[u8], reason: &str) {
    let other = Other::start(test, vec![response.to_vec()]);
    let said = format!("{}: {reason}", other.socket.display());
    let (ended, _) = other.asked(words!["ping", "--session", "5"]);
    ended.assert_failed(&said);
}

#[test]
fn a_response_that_is_not_whole_is_said() {
    let pong = response(5, 1, 0, b"\x08\x01");
    for length in [0, 1, 6, 26, 27] {
        let cut = format!("the connection ended at byte {length} of the response");
        let reason = format!("{cut}; the request may have been served");
        assert_said("cut", &pong[..length], &reason);
    }
}

#[test]
fn a_response_that_is_not_read_is_said() {
    let said = |response: &[u8], reason: &str| {
        assert_said("unread", response, &format!("response not read: {reason}"));
    };
    said(b"HTTP/1.0 400 Bad Request\r\n", "no magic number");
    let other_session = response(6, 1, 0, b"\x08\x01");
    said(
        &other_session,
        "opcode, session or provider not its request's",
    );
    said(&response(5, 1, 0, b"\x08"), "an unreadable body");
}

#[test]
fn any_status_is_said() {
    let unlisted = "refused: status 77, which is not listed";
    assert_said("status", &response(5, 1, 77, b""), unlisted);
    // That a signature is bad is no answer to a Ping.
    let bad = "refused: PsaErrorInvalidSignature (status 1149)";
    assert_said("status", &response(5, 1, 1149, b""), bad);
    let broken = "refused: DeserializingBodyFailed (status 7), byte";
    let said = format!("{broken} 12 of the body");
    assert_said("status", &response(5, 1, 7, b"\x08\x0C"), &said);
    let said = format!("{broken} 0 of the body");
    assert_said("status", &response(5, 1, 7, b""), &said);
    let closed = "refused: InvalidHeader (status 17)";
    assert_said("status", &response(0, 0, 17, b""), closed);
}
