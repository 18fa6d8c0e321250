//! Where data goes.

use crate::Failure;
use std::fs;
use std::io::Write;
use std::path::Path;

/// Writes data as it is, to a file or to standard output.
pub fn write(data: &[u8], file: Option<&Path>, out: &mut dyn Write) -> Result<(), Failure> {
    match file {
        Some(file) => fs::write(file, data).map_err(|error| Failure::at(file, error)),
        None => out.write_all(data).map_err(Failure::output),
    }
}
