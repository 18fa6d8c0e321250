//! The counters that the caller keeps: document 01's tally.

use crate::{foreign, Status, LINES, REFUSED_STATUSES};

/// What calls have come to. A call changes them in place; the fields may be set to anything, and a
/// call with one above [`HIGHEST_COUNTER`](crate::HIGHEST_COUNTER) is refused.
///
/// `Counters::default()` has all of them 0.
#[derive(Clone, Debug, Default, PartialEq, Eq)]
#[repr(C)]
pub struct Counters {
    /// Bytes taken.
    pub taken: u64,
    /// Bytes of answered requests.
    pub answered: u64,
    /// Bytes dropped on a closed connection.
    pub dropped: u64,
    /// Requests served, for each roster line.
    pub served: [u64; LINES],
    /// Requests served with auth type 0.
    pub unauthenticated: u64,
    /// Requests refused, for each status of [`Status::REFUSED`].
    pub refused: [u64; REFUSED_STATUSES],
}

impl Counters {
    /// Sets every counter to 0.
    ///
    /// ```
    /// use razidkot::Counters;
    ///
    /// let mut counters = Counters { taken: 28, ..Counters::default() };
    /// counters.clear();
    /// assert_eq!(counters, Counters::default());
    /// ```
    pub fn clear(&mut self) {
        foreign::clear_counters(self);
    }

    /// How many requests were refused with this status; 0 for `Success`.
    pub fn refused_with(&self, status: Status) -> u64 {
        let place = Status::REFUSED.iter().position(|&other| other == status);
        place.map_or(0, |place| self.refused[place])
    }
}
