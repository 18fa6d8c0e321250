//! Messages. The program says them on standard error: standard output has the bill alone.

use std::fmt::Display;
use std::io::{self, Write};

/// Says a message, from any thread.
pub type Say = fn(&dyn Display);

/// Says a line on standard error. `eprintln!` would panic where nobody reads it any more, and a
/// server goes on without its messages.
pub fn say_on_stderr(message: &dyn Display) {
    let _ = writeln!(io::stderr().lock(), "unix-socket: {message}");
}
