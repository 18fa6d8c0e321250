//! The help of each command.

use crate::Failure;
use std::ffi::OsStr;
use std::io::Write;

const TOP: &str = "\
razidkot: roster files, lists of keys, a key service's client, captured streams, and journals

  razidkot roster make NAME.. [-o FILE]         write a roster file
  razidkot roster show FILE                     print a roster file's names
  razidkot list make NAME FILE .. [-o FILE]     write a list of keys that every application has
  razidkot list show FILE                       print a list's keys
  razidkot ask SOCKET OPERATION ..              ask a key service on a Unix socket
  razidkot capture show FILE --roster FILE      print a captured stream request by request
  razidkot journal show FILE [--roster FILE]    print a journal record by record

Each command has a --help of its own. `--` ends the options, for names that begin with a dash.
The status is 0 if all is well, 1 if something failed or was refused, 2 if the command line is
not understood, 3 if `ask .. verify` was told that a signature is bad.
";

const ROSTER: &str = "\
razidkot roster make NAME.. [-o FILE]     write a roster file
razidkot roster show FILE                 print a roster file's names
";

const ROSTER_MAKE: &str = "\
razidkot roster make NAME.. [-o FILE]

Writes a roster file of these applications, in this order, to FILE or standard output. At most 8
names, each once and of 1 to 64 bytes from 0x21 to 0x7E; no name at all makes an empty file, the
roster of nobody. A roster that the service would refuse is not written.

  -o FILE     where to write
";

const ROSTER_SHOW: &str = "\
razidkot roster show FILE

Prints the names of a roster file, a line each, in the file's order: the words that `roster make`
takes. A file that the service refuses is refused with its R number.
";

const LIST: &str = "\
razidkot list make NAME FILE .. [-o FILE]     write a list of keys that every application has
razidkot list show FILE                       print a list's keys
";

const LIST_MAKE: &str = "\
razidkot list make NAME FILE .. [-o FILE]

Writes a list of these keys, each a name and the file of its public key, in this order, to FILE or
standard output. Every application may export a listed key and verify with it, unless it has a key
of that name itself. At most 64 keys; names differ and have 1 to 32 bytes from 0x21 to 0x7E, data
has 1 to 600 bytes; no key at all makes an empty file, the list of none. A list that the service
would refuse is not written.

  -o FILE     where to write

A key's FILE is one of these; what is listed is the DER of the RSAPublicKey (PKCS#1):
  PEM, RSA PUBLIC KEY          its content
  PEM, PUBLIC KEY              the RSAPublicKey in the SubjectPublicKeyInfo
  DER, an RSAPublicKey         as it is
  DER, SubjectPublicKeyInfo    the RSAPublicKey in it
Any other file is listed as it is: it can be exported, and `verify` with it is PsaErrorNotSupported.
So is `verify` with a key that is not of 2048, 3072 or 4096 bits. PEM with another label, and DER
that begins like a private key, are refused.
";

const LIST_SHOW: &str = "\
razidkot list show FILE

Prints the keys of a list, a line each, in the file's order: name, bytes of data, and how many bits
the modulus has where the data is an RSA public key. A file that the service refuses (C6) is refused
with the reason.
";

const ASK: &str = "\
razidkot ask SOCKET OPERATION .. [--app NAME] [--session N] [--format N] [--accept N]

Sends one request to the key service at the Unix socket SOCKET, and prints what comes back.

  ping                    the version of the protocol
  providers               the providers: number and name
  opcodes PROVIDER        the operations of the provider of this number: number and name
  import NAME FILE [--bits N] [--export] [--verify]
                          keep FILE's public key under this name
  export NAME [-o FILE]   the data of a key, to FILE or standard output
  destroy NAME            drop a key
  verify NAME --hash HEX|FILE --signature FILE
                          check a signature with a key: status 0 if it is good, 3 if it is bad

  --app NAME              the application that asks; without it nobody does
  --session N             the session that the response has to repeat, 0 if not said
  --format N              the format of the request's body: 1, Protocol Buffers, if not said, or
                          2, tagged records
  --accept N              the format of the response's body, if it shall be another

A status other than 0 is said on standard error by name and number, and the program's status is 1,
or 3 where `verify` says that the signature is bad. With status 7, a body that the service can't
read, the byte of the body is said at which the first unreadable field begins.
";

const ASK_PING: &str = "\
razidkot ask SOCKET ping [--app NAME] [--session N]

Prints the version of the protocol that the service speaks, as 1.0.
";

const ASK_PROVIDERS: &str = "\
razidkot ask SOCKET providers [--app NAME] [--session N]

Prints the providers, a line each: number and name.
";

const ASK_OPCODES: &str = "\
razidkot ask SOCKET opcodes PROVIDER [--app NAME] [--session N]

Prints the operations of the provider of this number, a line each: number and name.
";

const ASK_IMPORT: &str = "\
razidkot ask SOCKET import NAME FILE --app NAME [--bits N] [--export] [--verify] [--session N]

Keeps the public key of FILE under this name, for the application.

  --bits N     the key's length: 2048, 3072 or 4096; may be left out where FILE has an RSA public
               key, whose modulus says it, and must not say otherwise there
  --export     it may be exported
  --verify     it may be used to verify

FILE is one of these; what is sent is the DER of the RSAPublicKey (PKCS#1):
  PEM, RSA PUBLIC KEY          its content
  PEM, PUBLIC KEY              the RSAPublicKey in the SubjectPublicKeyInfo
  DER, an RSAPublicKey         as it is
  DER, SubjectPublicKeyInfo    the RSAPublicKey in it
Any other file is sent as it is, and needs --bits. PEM with another label, and DER that begins like
a private key, are refused.
";

const ASK_EXPORT: &str = "\
razidkot ask SOCKET export NAME --app NAME [-o FILE] [--session N]

Writes the data of the application's key, or of the key of that name on the service's list, to FILE
or standard output, as it is: of a key that `import` or `list make` took from PEM or DER it is the
DER of its RSAPublicKey. FILE is written only if the service hands the key out.

  -o FILE     where to write
";

const ASK_DESTROY: &str = "\
razidkot ask SOCKET destroy NAME --app NAME [--session N]

Drops the application's key. One that is only on the service's list stays: PsaErrorNotPermitted.
";

const ASK_VERIFY: &str = "\
razidkot ask SOCKET verify NAME --hash HEX|FILE --signature FILE --app NAME [--session N]

Asks the service whether a signature is that of the application's key: RSASSA-PKCS1-v1_5 with
SHA-256 (RFC 8017). The key was imported with --verify, or is on the service's list.

  --hash HEX|FILE     the SHA-256 of what was signed: 64 hexadecimal digits, as `sha256sum` prints
                      them, or a file of its 32 bytes, as `openssl dgst -sha256 -binary` writes it
  --signature FILE    the signature's bytes, as `openssl dgst -sha256 -sign KEY` writes them

Prints `good signature`, with status 0, only if the service has checked it and it is good. The
status is 3 if it is bad (PsaErrorInvalidSignature), and 1 if it was not checked: no such key, one
that may not verify, one that is no RSA public key of its bits, or not of 2048, 3072 or 4096 bits
(PsaErrorNotSupported), no service.
";

const CAPTURE: &str = "\
razidkot capture show FILE --roster FILE [--list FILE] [--responses FILE]
                                             print a captured stream request by request
";

const CAPTURE_SHOW: &str = "\
razidkot capture show FILE --roster FILE [--list FILE] [--responses FILE]

Hands the stream in FILE to the compiled service, which starts with the roster's applications and
no keys but the list's, and prints a line for each request:

  offset, length, status (number and name), operation, application

The operation is `opcode-N` where no operation has that number. The application is the name in
quotes, `nobody` for auth type 0, `auth-type-N` for one that does not exist. `unread` is what the
service did not read: all of a request with a wrong start, and the auth bytes of an oversized one.
Where the body can't be read (status 7) the line ends with the byte of the body at which the first
unreadable field begins. Behind the last request, `held` says what is there of one that is not
finished, and `dropped` how many bytes came behind a close. Refused requests do not change the
program's status.

  --roster FILE     the roster file
  --list FILE       the list of keys that the service had; none if not said
  --responses FILE  the captured responses: the first one that the rules do not give is marked, by
                    the proved auditor, and the last line is its verdict, `accepted` or `wrong
                    K B`, which fails. The stream is then read twice
";

const JOURNAL: &str = "\
razidkot journal show FILE [--roster FILE]     print a journal record by record
";

const JOURNAL_SHOW: &str = "\
razidkot journal show FILE [--roster FILE]

Prints a line for each record of the journal in FILE, which a key service writes for each import
and destroy that it serves:

  offset, length, CRC (good or bad), operation, application, the key's name in quotes; of an import
  also bytes of data, bits, and whether the key may be exported and used to verify

The operation is `tag-N` where no operation has that tag. The application is the name in quotes, or
`line-N` where no roster says it. `unread` is what a record is too short for. Behind a record with a
bad CRC the next one is shown from where its length says, which may be bad too. `cut` is a record at
the end that is not whole: a power cut leaves one, and the service drops it.

With a roster, a last line says what the service would restore, and the first record that it would
refuse: J1 for a bad CRC, J2 for what is no import or destroy, J3 for a line that is not in use or
what Import or Destroy would refuse. The program's status is 0 whatever the records are.

  --roster FILE     the roster file that the service had
";

/// The words of each command, and its help.
const TEXTS: [(&str, &str); 19] = [
    ("", TOP),
    ("roster", ROSTER),
    ("roster make", ROSTER_MAKE),
    ("roster show", ROSTER_SHOW),
    ("list", LIST),
    ("list make", LIST_MAKE),
    ("list show", LIST_SHOW),
    ("ask", ASK),
    ("ask ping", ASK_PING),
    ("ask providers", ASK_PROVIDERS),
    ("ask opcodes", ASK_OPCODES),
    ("ask import", ASK_IMPORT),
    ("ask export", ASK_EXPORT),
    ("ask destroy", ASK_DESTROY),
    ("ask verify", ASK_VERIFY),
    ("capture", CAPTURE),
    ("capture show", CAPTURE_SHOW),
    ("journal", JOURNAL),
    ("journal show", JOURNAL_SHOW),
];

/// Prints the help of the command that these words begin.
pub fn print<'a>(
    words: impl Iterator<Item = &'a OsStr>,
    out: &mut dyn Write,
) -> Result<(), Failure> {
    let words: Vec<_> = words.map(OsStr::to_string_lossy).collect();
    let text = match &words[..] {
        [] => Some(TOP),
        // `ask SOCKET ping`, and `ask ping`, where only help is wanted.
        [ask, rest @ ..] if ask == "ask" => {
            let mut operations = rest.iter().take(2).rev();
            operations
                .find_map(|word| text(&format!("ask {word}")))
                .or(Some(ASK))
        }
        [one] => text(one),
        [one, other, ..] => text(&format!("{one} {other}")),
    };
    let unknown = || Failure::usage("", format!("unknown command {}", words.join(" ")));
    let text = text.ok_or_else(unknown)?;
    out.write_all(text.as_bytes()).map_err(Failure::output)
}

fn text(command: &str) -> Option<&'static str> {
    let found = TEXTS.iter().find(|(words, _)| *words == command);
    found.map(|(_, text)| *text)
}
