//! The counters that the caller keeps and lends to each call, document 01's tally.
//! Document 01, "Roster, registry, connection, tally" and "When a call is not taken".

use crate::registry::LINES;
use crate::status::Status;

#[derive(Clone, Debug, Default, PartialEq, Eq)]
pub struct Counters {
    /// Bytes taken.
    pub taken: u64,
    /// Bytes of answered requests.
    pub answered: u64,
    /// Bytes dropped behind a status 17.
    pub dropped: u64,
    /// Requests served, one counter for each roster line.
    pub served: [u64; LINES],
    /// Requests served with auth type 0.
    pub unauthenticated: u64,
    /// Requests refused, one counter for each status of `Status::REFUSED`.
    pub refused: [u64; Status::REFUSED.len()],
}

impl Counters {
    /// The highest of all the counters.
    pub(crate) fn highest(&self) -> u64 {
        let Counters {
            taken,
            answered,
            dropped,
            served,
            unauthenticated,
            refused,
        } = self;
        [taken, answered, dropped, unauthenticated]
            .into_iter()
            .chain(served)
            .chain(refused)
            .copied()
            .fold(0, u64::max)
    }

    /// The counter of requests refused with this status; `Success` has none.
    pub(crate) fn refused_with(&mut self, status: Status) -> Option<&mut u64> {
        let place = Status::REFUSED.iter().position(|&other| other == status)?;
        Some(&mut self.refused[place])
    }
}
