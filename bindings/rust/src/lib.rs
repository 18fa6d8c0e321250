//! The compiled, proved key service, for Rust. It reads requests on a connection, keeps a registry
//! of public keys for a roster of applications, writes responses and counts.
//!
//! Make a [`Service`] of a [`Registry`], which is loaded from a roster file, of a [`List`] of keys
//! that are every application's, and of a [`Journal`] that keeps the keys over a restart. Open a
//! [`Connection`] for each client, and hand its bytes over with [`Service::call`]. Each call writes one
//! response at most. Any number of connections share a service. At the next start, a
//! [`JournalReader`] gives the registry back. An [`Audit`] compares captured responses with those that
//! the rules give.
//!
//! ```
//! use razidkot::{Buffers, CallError, Connection, Journal, List, NoJournal, Registry, Service};
//! use razidkot::{Status, LONGEST_CHUNK};
//!
//! /// Hands over all of the bytes, and gives the responses.
//! fn send<J: Journal>(
//!     service: &mut Service<J>,
//!     connection: &mut Connection,
//!     bytes: &[u8],
//! ) -> Result<Vec<Vec<u8>>, CallError<J::Error>> {
//!     let (mut responses, mut buffers) = (Vec::new(), Buffers::new());
//!     for chunk in bytes.chunks(LONGEST_CHUNK) {
//!         let mut rest = chunk;
//!         while !rest.is_empty() {
//!             let answer = service.call(connection, rest, &mut buffers)?;
//!             responses.extend(answer.response.map(<[u8]>::to_vec));
//!             rest = &rest[answer.taken..];
//!         }
//!     }
//!     Ok(responses)
//! }
//!
//! let mut list = List::new();
//! list.push(b"release-2027", b"\xAA\xBB")?;
//! // Without a journal, keys are lost when the program ends.
//! let mut service = Service::new(Registry::load(b"\x01\x07\x00scanner")?, list, NoJournal);
//! let mut connection = Connection::open();
//! // No request begins like this: one response with status 17, and the connection is closed.
//! let responses = send(&mut service, &mut connection, b"GET / HTTP/1.0")?;
//! assert_eq!(responses.len(), 1);
//! assert_eq!(responses[0][24..26], [17, 0]);
//! assert!(connection.is_closed());
//! let counters = service.counters();
//! assert_eq!(counters.refused_with(Status::InvalidHeader), 1);
//! assert_eq!((counters.answered, counters.dropped), (6, 8));
//! # Ok::<(), Box<dyn std::error::Error>>(())
//! ```

mod application;
mod audit;
mod connection;
mod counters;
#[allow(unsafe_code)]
mod foreign;
mod held;
mod journal;
mod list;
pub mod raw;
mod refusal;
mod registry;
mod restore;
mod service;

pub use application::{Application, Key, SLOTS};
pub use audit::{Audit, Audited, Taken, Verdict};
pub use connection::Connection;
pub use counters::Counters;
pub use held::Held;
pub use journal::{Journal, JournalFault, NoJournal};
pub use list::{List, ListFault, ListedKey, LONGEST_LIST, MOST_LISTED_KEYS};
pub use razidkot_status::{Status, REFUSED_STATUSES};
pub use refusal::Refusal;
pub use registry::{IllFormed, Registry, RosterFault};
pub use restore::{JournalReader, RefusedJournal, Restored};
pub use service::{Answer, Buffers, CallError, Service};

/// The one size of registry memory.
pub const REGISTRY_SIZE: usize = 41_672;
/// The one size of connection memory.
pub const CONNECTION_SIZE: usize = 4_431;
/// A shorter response buffer is refused.
pub const LEAST_RESPONSE_BUFFER: usize = 1_024;
/// A shorter journal buffer is refused.
pub const LEAST_JOURNAL_BUFFER: usize = 1_024;
/// A longer chunk is refused.
pub const LONGEST_CHUNK: usize = 65_536;
/// No response is longer.
pub const LONGEST_RESPONSE: usize = 629;
/// No record of the journal is longer.
pub const LONGEST_RECORD: usize = 645;
/// The one size of the memory of a journal's reader.
pub const JOURNAL_STATE_SIZE: usize = 662;
/// A shorter buffer gets no bill; no bill is longer.
pub const LEAST_BILL_BUFFER: usize = 6_336;
/// A call is refused if any counter is above it.
pub const HIGHEST_COUNTER: u64 = 1 << 62;
/// How many applications a roster may have.
pub const LINES: usize = 8;
