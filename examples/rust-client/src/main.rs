//! A client of the key service in Rust: lists the providers, imports a key, exports it in both body
//! formats, asks for one that is not there and destroys the first; then it has signatures checked
//! with another. It prints what came back. It reads from any stream; here the service is in the same
//! program (`stream.rs`) and stands for a socket.
//!
//!     ./prove abi client_abi && cargo run --quiet -p razidkot-client-example

mod client;
mod series;
mod stream;

use client::Client;
use razidkot_client::{BodyFormat, Import, Operation, Output, Reader, Reading, Request, Verify};
use std::error::Error;
use stream::Stream;

/// The application whose keys these are.
const SCANNER: Option<&[u8]> = Some(b"scanner");

const IMPORT: Import = Import {
    name: b"a",
    data: b"\xAA\xBB",
    bits: 2_048,
    export_allowed: true,
    verify_allowed: false,
};

const SERIES: Import = Import {
    name: b"series",
    data: series::DATA,
    bits: 2_048,
    export_allowed: false,
    verify_allowed: true,
};

fn main() -> Result<(), Box<dyn Error>> {
    // One record: tag 1, the length in two bytes, the name.
    let mut client = Client::new(Stream::open(b"\x01\x07\x00scanner")?);

    // A session of its own for each request, so that no response is taken for another's.
    let list = Request::new(1, None, Operation::ListProviders);
    print("list providers", &client.ask(&list)?)?;

    // What is outside the bounds is refused before a byte is sent.
    let odd = Import {
        bits: 2_050,
        ..IMPORT
    };
    let odd = Request::new(2, SCANNER, Operation::ImportKey(odd));
    if let Err(refusal) = client.ask(&odd) {
        println!("import of 2050 bits: {refusal}");
    }
    let import = Request::new(3, SCANNER, Operation::ImportKey(IMPORT));
    print("import a", &client.ask(&import)?)?;
    let export = Request::new(4, SCANNER, Operation::ExportPublicKey { name: b"a" });
    print("export a", &client.ask(&export)?)?;
    // The same in the other format: the request's body has it, and the response's.
    let export = Request::new(11, SCANNER, export.operation).in_format(BodyFormat::Tagged);
    print("export a in format 2", &client.ask(&export)?)?;

    // Two requests sent before a response is read: a reader for each, in the same order.
    let export = Request::new(5, SCANNER, Operation::ExportPublicKey { name: b"b" });
    let destroy = Request::new(6, SCANNER, Operation::DestroyKey { name: b"a" });
    let mut exported = client.send(&export)?;
    let mut destroyed = client.send(&destroy)?;
    client.receive(&mut exported)?;
    client.receive(&mut destroyed)?;
    print("export b", &exported)?;
    print("destroy a", &destroyed)?;

    // The status says what a signature is worth: 0 good, 1149 bad, and any other that it was not
    // checked.
    let import = Request::new(7, SCANNER, Operation::ImportKey(SERIES));
    print("import series", &client.ask(&import)?)?;
    let verify = |session, name, hash| {
        let verify = Verify::new(name, hash, series::SIGNATURE);
        Request::new(session, SCANNER, Operation::AsymmetricVerify(verify))
    };
    let good = verify(8, SERIES.name, series::HASH);
    print("verify abc", &client.ask(&good)?)?;
    let bad = verify(9, SERIES.name, &[0; 32]);
    print("verify something else", &client.ask(&bad)?)?;
    let without_key = verify(10, b"b", series::HASH);
    print("verify with b", &client.ask(&without_key)?)
}

/// A response: its status, and what it carries.
fn print(what: &str, reader: &Reader) -> Result<(), Box<dyn Error>> {
    let Reading::Response(response) = reader.said()? else {
        return Err("no response yet".into());
    };
    print!("{what}: status {}", response.status);
    match response.output {
        Output::Nothing => {}
        Output::Version { major, minor } => print!(", version {major}.{minor}"),
        Output::Providers(entries) => {
            print!(", providers");
            entries.for_each(|provider| print!(" {provider}"));
        }
        Output::Opcodes(entries) => {
            print!(", opcodes");
            entries.for_each(|opcode| print!(" {opcode}"));
        }
        Output::Data(data) => {
            print!(", data");
            data.iter().for_each(|byte| print!(" {byte:02X}"));
        }
        Output::Offset(at) => print!(", byte {at} of the body"),
    }
    println!();
    Ok(())
}
