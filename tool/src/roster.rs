//! `roster make` and `roster show`. The compiled service judges the files.

use crate::arguments::Arguments;
use crate::output;
use crate::Failure;
use razidkot::{Registry, RosterFault};
use std::fs;
use std::io::Write;
use std::path::{Path, PathBuf};

const MAKE: &str = "roster make";
const SHOW: &str = "roster show";

/// Does `roster ..`.
pub fn run(mut arguments: Arguments, out: &mut dyn Write) -> Result<(), Failure> {
    let command = arguments.word("roster", "a command")?;
    match command.to_str() {
        Some("make") => make(arguments, out),
        Some("show") => show(arguments, out),
        _ => Err(Failure::unknown("roster", "command", &command)),
    }
}

fn make(mut arguments: Arguments, out: &mut dyn Write) -> Result<(), Failure> {
    let destination = arguments.path("-o");
    let names = arguments.names();
    arguments.end(MAKE)?;
    output::write(&file_of(&names)?, destination.as_deref(), out)
}

/// A roster file of these names; each is judged behind those before it, so that the first that is
/// at fault is said.
fn file_of(names: &[Vec<u8>]) -> Result<Vec<u8>, Failure> {
    let mut file = Vec::new();
    for name in names {
        let refused = |fault| {
            let reason = format!("\"{}\": {}", name.escape_ascii(), said(fault));
            Failure::Failed(reason)
        };
        // A name whose length doesn't fit into a record is no name either.
        let length = u16::try_from(name.len()).map_err(|_| refused(RosterFault::BadName))?;
        file.push(1);
        file.extend(length.to_le_bytes());
        file.extend(name);
        Registry::load(&file).map_err(refused)?;
    }
    Ok(file)
}

fn show(mut arguments: Arguments, out: &mut dyn Write) -> Result<(), Failure> {
    let file = PathBuf::from(arguments.word(SHOW, "FILE")?);
    arguments.end(SHOW)?;
    for application in load(&file)?.applications() {
        let line = [application.name, b"\n"].concat();
        out.write_all(&line).map_err(Failure::output)?;
    }
    Ok(())
}

/// A registry of a roster file's names and no keys.
pub fn load(file: &Path) -> Result<Registry, Failure> {
    let roster = fs::read(file).map_err(|error| Failure::at(file, error))?;
    Registry::load(&roster).map_err(|fault| Failure::at(file, said(fault)))
}

/// The fault by its number, and in words.
fn said(fault: RosterFault) -> String {
    let why = match fault {
        RosterFault::WrongMemorySize => "registry memory of another size",
        RosterFault::CutRecord => "a record is cut",
        RosterFault::UnknownTag => "a tag other than 1",
        RosterFault::BadName => "a name not of 1 to 64 bytes, each 0x21 to 0x7E",
        RosterFault::NinthName => "a ninth name",
        RosterFault::RepeatedName => "a name seen before",
    };
    format!("{fault}: {why}")
}
