//! One turn of one row at a time, of the proved code, for `bench/against`: prints each row's digest
//! and name, then an empty line; then for each name that it reads the seconds of a turn.

use crate::rows::{all, Row};
use std::io::{stdin, stdout, Result, Write};

pub fn serve() -> Result<()> {
    let mut rows = all();
    for row in &rows {
        println!("{:016x} {}", row.digest, row.name);
    }
    println!();
    for line in stdin().lines() {
        let name = line?;
        let row = rows.iter_mut().find(|row| row.name == name);
        println!("{}", seconds(row.expect("the name of a row")));
        stdout().flush()?;
    }
    Ok(())
}

fn seconds(row: &mut Row) -> f64 {
    row.programs[0].1().as_secs_f64()
}
