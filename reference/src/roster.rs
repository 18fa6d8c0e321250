//! Reading a roster file into registry memory.
//! Document 01, "Roster, registry, connection, tally", the first paragraph.

use crate::records::{split_record, Record};
use crate::registry::{application_name_is_legal, write_fresh, LINES, REGISTRY_SIZE};

const APPLICATION_NAME_TAG: u8 = 1;

/// Why a roster is refused; `number` gives the digit of R0 to R5.
#[derive(Clone, Copy, Debug, PartialEq, Eq)]
#[repr(u8)]
pub enum RosterFault {
    WrongMemorySize = 0,
    CutRecord = 1,
    UnknownTag = 2,
    BadName = 3,
    NinthName = 4,
    RepeatedName = 5,
}

impl RosterFault {
    pub fn number(self) -> u8 {
        self as u8
    }
}

/// Makes `registry` a registry of the file's names and no keys; a refused file leaves it alone.
pub fn load_roster(file: &[u8], registry: &mut [u8]) -> Result<(), RosterFault> {
    // R0 comes before any record.
    if registry.len() != REGISTRY_SIZE {
        return Err(RosterFault::WrongMemorySize);
    }
    let names = read_names(file)?;
    write_fresh(registry, &names);
    Ok(())
}

fn read_names(file: &[u8]) -> Result<Vec<&[u8]>, RosterFault> {
    let mut names = Vec::new();
    let mut rest = file;
    while !rest.is_empty() {
        // A cut record is R1 whatever its tag, and so is one cut within tag and length.
        let (record, behind) = split_record(rest).ok_or(RosterFault::CutRecord)?;
        judge_record(&record, &names)?;
        names.push(record.value);
        rest = behind;
    }
    Ok(names)
}

/// R2 to R5, in this order: a ninth name that repeats an earlier one is R4.
fn judge_record(record: &Record, names: &[&[u8]]) -> Result<(), RosterFault> {
    if record.tag != APPLICATION_NAME_TAG {
        Err(RosterFault::UnknownTag)
    } else if !application_name_is_legal(record.value) {
        Err(RosterFault::BadName)
    } else if names.len() == LINES {
        Err(RosterFault::NinthName)
    } else if names.contains(&record.value) {
        Err(RosterFault::RepeatedName)
    } else {
        Ok(())
    }
}
