//! The program `razidkot`. Its status is 0, 1 for what failed or was refused, 2 for a command line
//! that is not understood, 3 for a signature that is not the key's.

use razidkot_tool::Failure;
use std::env;
use std::io::{self, BufWriter, Write};
use std::process::ExitCode;

fn main() -> ExitCode {
    let mut out = BufWriter::new(io::stdout().lock());
    let done = razidkot_tool::run(env::args_os().skip(1), &mut out);
    // What was printed before a failure is printed all the same.
    let flushed = out.flush().map_err(Failure::output);
    match done.and(flushed) {
        Ok(()) => ExitCode::SUCCESS,
        Err(failure) => {
            // Where nobody reads standard error, the status still tells.
            let _ = writeln!(io::stderr(), "razidkot: {failure}");
            ExitCode::from(failure.status())
        }
    }
}
