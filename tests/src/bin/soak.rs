//! Makes generated calls to the compiled service and to the reference until there were so many:
//! cargo run --release -p razidkot-tests --bin soak -- CALLS [SEED]
//! Where they differ it prints the seed and its case made short; CALLS = 1 runs one seed again.

use razidkot_tests::differential::run_seed;
use razidkot_tests::reached::Reached;
use std::process::ExitCode;
use std::time::{Duration, Instant};

fn main() -> ExitCode {
    let mut words = std::env::args().skip(1).map(|word| word.parse());
    let (calls, seed) = match (words.next(), words.next()) {
        (Some(Ok(calls)), None) => (calls, 0),
        (Some(Ok(calls)), Some(Ok(seed))) => (calls, seed),
        _ => {
            eprintln!("soak CALLS [SEED]");
            return ExitCode::FAILURE;
        }
    };
    match soak(calls, seed) {
        Ok(()) => ExitCode::SUCCESS,
        Err(difference) => {
            println!("{difference}");
            ExitCode::FAILURE
        }
    }
}

/// A line of progress every ten seconds, and one at the end.
fn soak(calls: u64, first_seed: u64) -> Result<(), String> {
    let start = Instant::now();
    let mut shown = Duration::ZERO;
    let mut reached = Reached::default();
    for seed in first_seed.. {
        let elapsed = start.elapsed();
        if elapsed - shown > Duration::from_secs(10) {
            println!(
                "{} calls, seed {seed}, {} s",
                reached.calls,
                elapsed.as_secs()
            );
            shown = elapsed;
        }
        run_seed(seed, &mut reached)?;
        if reached.calls >= calls {
            println!(
                "{} calls equal, seeds {first_seed} to {seed}, {} s",
                reached.calls,
                elapsed.as_secs()
            );
            break;
        }
    }
    Ok(())
}
