//! The program `razidkot`: roster files and lists of keys made and shown, a key service asked over a
//! Unix socket by the proved client, and captured streams and journals shown by the proved service. What is here reads files and the command line, and prints; nothing of it is proved.

mod arguments;
mod ask;
mod capture;
mod failure;
mod hash;
mod help;
mod input;
mod journal;
pub mod key;
mod list;
mod output;
mod pem;
mod request;
mod response;
mod roster;
mod rsa;

pub use failure::Failure;

use arguments::Arguments;
use std::ffi::OsString;
use std::io::Write;

/// Does what the command line says, and prints to `out`.
pub fn run(words: impl IntoIterator<Item = OsString>, out: &mut dyn Write) -> Result<(), Failure> {
    let mut arguments = Arguments::parse(words)?;
    if arguments.help() {
        return help::print(arguments.words(), out);
    }
    let command = arguments.word("", "a command")?;
    match command.to_str() {
        Some("roster") => roster::run(arguments, out),
        Some("list") => list::run(arguments, out),
        Some("ask") => ask::run(arguments, out),
        Some("capture") => capture::run(arguments, out),
        Some("journal") => journal::run(arguments, out),
        _ => Err(Failure::unknown("", "command", &command)),
    }
}
