//! Embeds the key service in a Rust program: loads a roster, opens a connection, sends a Ping, an
//! Import and two Exports in chunks, one of a key that was imported and one of a key in the list, and
//! prints what came back. Then it starts again from its journal, and exports the imported key once
//! more.
//!
//!     ./prove abi && cargo run --quiet -p razidkot-example

use razidkot::{raw, Buffers, Connection, Journal, JournalReader, List, Registry, Service};
use razidkot::{LEAST_JOURNAL_BUFFER, LEAST_RESPONSE_BUFFER};
use std::convert::Infallible;
use std::error::Error;

const PING: u16 = 1;
const IMPORT: u16 = 6;
const EXPORT: u16 = 7;

const SCANNER: &[u8] = b"scanner";
/// One record: tag 1, the length in two bytes, the name.
const ROSTER: &[u8] = b"\x01\x07\x00scanner";

/// Stands for a file on disk. A real host syncs the file too, and comes back when the record is on
/// disk.
struct Disk(Vec<u8>);

impl Journal for Disk {
    type Error = Infallible;

    fn append(&mut self, record: &[u8]) -> Result<(), Infallible> {
        self.0.extend(record);
        Ok(())
    }
}

fn main() -> Result<(), Box<dyn Error>> {
    let mut service = start(Disk(Vec::new()))?;

    // The key "a", data AA BB, 2,048 bits, export allowed; then its name alone, and that of a key
    // which the scanner has not imported.
    let import = b"\x0A\x01a\x12\x02\xAA\xBB\x18\x80\x10\x20\x01";
    let export = keystore_request(EXPORT, b"\x0A\x01a", SCANNER);
    let stream = [
        core_request(PING),
        keystore_request(IMPORT, import, SCANNER),
        export.clone(),
        keystore_request(EXPORT, b"\x0A\x07release", SCANNER),
    ]
    .concat();

    let connection = send(&mut service, &stream)?;
    let counters = service.counters();
    println!("taken {} answered {}", counters.taken, counters.answered);
    println!(
        "served scanner {} unauthenticated {}",
        counters.served[0], counters.unauthenticated
    );
    print_refusals(&service, &connection, &stream);

    // The lights go out: all memory is lost, and within the next record's bytes the file ends.
    let mut file = service.journal().0.clone();
    file.extend([0; 3]);
    drop(service);
    send(&mut start(Disk(file))?, &export)?;
    Ok(())
}

/// A service with the roster's registry and the keys of the file.
fn start(mut disk: Disk) -> Result<Service<Disk>, Box<dyn Error>> {
    let mut reader = JournalReader::begin(Registry::load(ROSTER)?);
    reader.read(&disk.0)?;
    let restored = reader.finish()?;
    println!("restored from {} bytes of {}", restored.kept, disk.0.len());
    // A record that was cut would make all behind it unreadable.
    disk.0.truncate(restored.kept as usize);
    // The keys that every application has.
    let mut list = List::new();
    list.push(b"release", b"\xCC\xDD")?;
    Ok(Service::new(restored.registry, list, disk))
}

/// Sends a stream on a fresh connection, and prints each response.
fn send(service: &mut Service<Disk>, stream: &[u8]) -> Result<Connection, Box<dyn Error>> {
    let mut connection = Connection::open();
    let mut buffers = Buffers::new();
    // A transport cuts where it likes: chunks of 40 bytes, so that requests lie across them.
    for chunk in stream.chunks(40) {
        let mut rest = chunk;
        while !rest.is_empty() {
            let answer = service.call(&mut connection, rest, &mut buffers)?;
            if let Some(response) = answer.response {
                print_response(response);
            }
            rest = &rest[answer.taken..];
        }
    }
    Ok(connection)
}

/// What the types rule out, and a program can do that keeps the memory itself: a buffer that is too
/// small, and a list without its last byte. Nothing is taken.
fn print_refusals(service: &Service<Disk>, connection: &Connection, stream: &[u8]) {
    let mut registry = service.registry().memory().to_vec();
    let mut connection = connection.memory().to_vec();
    let mut counters = service.counters().clone();
    let list = service.list().bytes();
    let mut refused = |list: &[u8], response: &mut [u8]| {
        let answer = raw::call(
            stream,
            &mut connection,
            &mut registry,
            list,
            &mut counters,
            response,
            &mut [0; LEAST_JOURNAL_BUFFER],
        );
        format!("C{} taken {}", answer.code, answer.taken)
    };
    println!("without a buffer {}", refused(list, &mut []));
    let cut = &list[..list.len() - 1];
    let response = &mut [0; LEAST_RESPONSE_BUFFER];
    println!("with a cut list {}", refused(cut, response));
}

/// A request of provider 0 with auth type 0 and no body.
fn core_request(opcode: u16) -> Vec<u8> {
    request(0, 0, opcode, b"", b"")
}

/// A request of provider 1 from an application.
fn keystore_request(opcode: u16, body: &[u8], application: &[u8]) -> Vec<u8> {
    request(1, 1, opcode, body, application)
}

/// Magic, H, version and provider, session, types, content length, auth length, opcode, body, auth.
fn request(provider: u8, auth_type: u8, opcode: u16, body: &[u8], auth: &[u8]) -> Vec<u8> {
    let session = 0_u64;
    [
        &0x5EC0_A710_u32.to_le_bytes()[..],
        &22_u16.to_le_bytes(),
        &[1, 0, provider],
        &session.to_le_bytes(),
        &[1, 1, auth_type],
        &(body.len() as u32).to_le_bytes(),
        &(auth.len() as u16).to_le_bytes(),
        &opcode.to_le_bytes(),
        body,
        auth,
    ]
    .concat()
}

fn print_response(response: &[u8]) {
    let opcode = u16::from_le_bytes([response[22], response[23]]);
    let status = u16::from_le_bytes([response[24], response[25]]);
    print!("opcode {opcode} status {status} body");
    for byte in &response[26..] {
        print!(" {byte:02X}");
    }
    println!();
}
