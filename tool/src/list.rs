//! `list make` and `list show`: the keys that every application has. The compiled service judges the
//! files.

use crate::arguments::Arguments;
use crate::{key, output, rsa, Failure};
use razidkot::List;
use std::ffi::OsString;
use std::fs;
use std::io::Write;
use std::os::unix::ffi::OsStrExt;
use std::path::{Path, PathBuf};

const MAKE: &str = "list make";
const SHOW: &str = "list show";

/// Does `list ..`.
pub fn run(mut arguments: Arguments, out: &mut dyn Write) -> Result<(), Failure> {
    let command = arguments.word("list", "a command")?;
    match command.to_str() {
        Some("make") => make(arguments, out),
        Some("show") => show(arguments, out),
        _ => Err(Failure::unknown("list", "command", &command)),
    }
}

fn make(mut arguments: Arguments, out: &mut dyn Write) -> Result<(), Failure> {
    let destination = arguments.path("-o");
    let words = arguments.rest();
    arguments.end(MAKE)?;
    if !words.len().is_multiple_of(2) {
        let name = words[words.len() - 1].display();
        let reason = format!("the FILE of NAME {name} is missing");
        return Err(Failure::usage(MAKE, reason));
    }
    output::write(list_of(&words)?.bytes(), destination.as_deref(), out)
}

/// The list of these names and files, in pairs; each is judged behind those before it, so that the
/// first that is at fault is said.
fn list_of(words: &[OsString]) -> Result<List, Failure> {
    let mut list = List::new();
    for pair in words.chunks_exact(2) {
        let (name, file) = (pair[0].as_bytes(), Path::new(&pair[1]));
        let bytes = fs::read(file).map_err(|error| Failure::at(file, error))?;
        let key = key::read(&bytes).map_err(|fault| Failure::at(file, fault))?;
        list.push(name, &key.data).map_err(|fault| {
            let (name, file) = (name.escape_ascii(), file.display());
            Failure::Failed(format!("\"{name}\" {file}: {fault}"))
        })?;
    }
    Ok(list)
}

fn show(mut arguments: Arguments, out: &mut dyn Write) -> Result<(), Failure> {
    let file = PathBuf::from(arguments.word(SHOW, "FILE")?);
    arguments.end(SHOW)?;
    for key in load(&file)?.keys() {
        let what = match rsa::modulus_bits(key.data) {
            Some(bits) => format!("RSA public key of {bits} bits"),
            None => "no RSA public key".into(),
        };
        let (name, length) = (String::from_utf8_lossy(key.name), key.data.len());
        writeln!(out, "{name} {length} bytes, {what}").map_err(Failure::output)?;
    }
    Ok(())
}

/// The list of a file.
pub fn load(file: &Path) -> Result<List, Failure> {
    let bytes = fs::read(file).map_err(|error| Failure::at(file, error))?;
    List::from_bytes(&bytes).map_err(|fault| Failure::at(file, fault))
}
