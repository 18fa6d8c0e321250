//! An example, and no part of what is proved: the glue between the key service and a Unix socket.
//! The service does no transport; document 01 leaves that to others, and they can begin from here.
//!
//! Many connections share one [`razidkot::Service`], behind a lock that each call holds for its own
//! length ([`Shared`]). A thread accepts ([`Server`]), and a thread for each connection
//! reads, calls and writes ([`serve`]). With a journal, keys are there again after a power cut
//! ([`JournalFile`]). Nothing is swallowed: what an error of the socket cost is
//! said ([`Say`]), and [`Totals`] adds up.
#![forbid(unsafe_code)]

mod address;
mod capture;
mod ended;
mod journal;
mod listener;
mod peer;
mod say;
mod server;
mod shared;

pub use address::SocketError;
pub use capture::{Capture, CaptureError, Captured, CapturedResponses, Rest};
pub use ended::{Ended, Fault, Undelivered};
pub use journal::{keys_of, JournalError, JournalFile, Records};
pub use peer::serve;
pub use say::{say_on_stderr, Say};
pub use server::{Server, Settings, StartError, Totals};
pub use shared::Shared;
