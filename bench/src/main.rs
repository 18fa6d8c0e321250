//! Times the compiled, proved code against the reference in one run: cargo run --release -p
//! razidkot-bench. The other commands are for the scripts beside this folder.

mod bills;
mod calls;
mod check;
#[cfg(feature = "client")]
mod client;
mod journals;
mod lists;
#[cfg(all(openssl, feature = "signatures"))]
#[allow(unsafe_code)]
mod openssl;
mod registries;
mod rows;
mod searches;
#[cfg(feature = "signatures")]
mod signatures;
mod table;
mod turns;

use registries::Registry;
use std::env::args;
use std::process::ExitCode;

const USAGE: &str = "usage: razidkot-bench
       razidkot-bench rows BEGINNING              the rows whose names begin so
       razidkot-bench registries                  their titles
       razidkot-bench pings REGISTRY COUNT        makes so many Pings
       razidkot-bench checks REGISTRY COUNT       checks registry and connection so many times
       razidkot-bench turns                       one turn of each row whose name it reads";

fn main() -> ExitCode {
    match run(&args().skip(1).collect::<Vec<_>>()) {
        Some(()) => ExitCode::SUCCESS,
        None => {
            eprintln!("{USAGE}");
            ExitCode::from(2)
        }
    }
}

/// `None` for words that it does not know.
fn run(words: &[String]) -> Option<()> {
    let words: Vec<_> = words.iter().map(String::as_str).collect();
    match words[..] {
        [] => table::print(""),
        ["rows", beginning] => table::print(beginning),
        ["registries"] => registries::ALL
            .iter()
            .for_each(|registry| println!("{}", registry.title)),
        ["pings", title, count] => calls::make_pings(Registry::titled(title)?, count.parse().ok()?),
        ["checks", title, count] => check::make(Registry::titled(title)?, count.parse().ok()?),
        ["turns"] => turns::serve().expect("a reader of the seconds"),
        _ => return None,
    }
    Some(())
}
