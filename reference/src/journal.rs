//! The journal of served imports and destroys: its records written, and read back.
//! Document 02, "Surviving a power cut"; the layout is the one set down in docs/.

mod memory;
mod read;
mod record;

pub use memory::{
    journal_begin, journal_read, journal_state_is_well_formed, JournalRefusal, JOURNAL_STATE_SIZE,
};
pub use read::{read_journal, JournalAnswer, Restored, LONGEST_JOURNAL};
pub use record::{write_record, JournalFault, LONGEST_RECORD};
