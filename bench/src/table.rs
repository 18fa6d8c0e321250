//! Every row, the proved code against the other programs, in one run.

use crate::rows::{all, Row};
use std::time::Duration;

const TURNS: usize = 20;

/// The rows whose names begin so.
pub fn print(beginning: &str) {
    println!("nanoseconds each, of the median of {TURNS} turns; in brackets proved / other");
    if !cfg!(openssl) {
        println!("OpenSSL's times are left out: its libcrypto (Debian's libssl-dev) is not here");
    }
    for row in all()
        .into_iter()
        .filter(|row| row.name.starts_with(beginning))
    {
        println!("{}", line(row));
    }
}

fn line(mut row: Row) -> String {
    let medians = medians(&mut row);
    let each_turn = row.each_turn as f64;
    let nanoseconds = medians.map(|time| time.as_secs_f64() * 1e9 / each_turn);
    let mut line = format!("{:24}", row.name);
    let mut proved = None;
    for ((program, _), each) in row.programs.iter().zip(nanoseconds) {
        line += &format!("  {program} {each:4.0}");
        match proved {
            None => proved = Some(each),
            Some(proved) => line += &format!(" ({:.2})", proved / each),
        }
    }
    line
}

/// Of each program. In each turn another comes first: whoever comes later finds the row in the cache.
fn medians(row: &mut Row) -> impl Iterator<Item = Duration> {
    let programs = row.programs.len();
    let mut times = vec![Vec::new(); programs];
    for turn in 0..TURNS {
        for place in 0..programs {
            let program = (turn + place) % programs;
            times[program].push(row.programs[program].1());
        }
    }
    times.into_iter().map(|mut times| {
        times.sort();
        times[TURNS / 2]
    })
}
