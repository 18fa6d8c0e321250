//! What the tests under tests/ share: the compiled leaves, oracles for those that the reference
//! has no public function for, generated inputs, and calls made to the compiled service or client and
//! to the reference alike. The Rust of README.md and docs/INTEGRATOR.md is tested here too.
#![doc(test(attr(deny(warnings), allow(dead_code))))]

pub mod ask;
pub mod audits;
pub mod bill;
pub mod bodies;
pub mod case;
pub mod client_asked;
pub mod client_conversation;
pub mod client_program;
pub mod client_reached;
pub mod client_responses;
pub mod client_states;
pub mod client_written;
pub mod connections;
pub mod differential;
#[allow(unsafe_code)]
pub mod foreign;
pub mod generate;
pub mod histories;
pub mod isolation;
pub mod isolation_reached;
pub mod journals;
pub mod layout;
pub mod lent;
pub mod listed;
pub mod lists;
pub mod oracle;
pub mod reached;
pub mod requests;
pub mod run;
pub mod senders;
pub mod service;
pub mod sha256;
pub mod shipped;
pub mod signatures;
pub mod tagged;
pub mod unlisted;
pub mod vectors;
pub mod wrong_services;

// Each block stands by itself, and compiles without a warning.
#[cfg(doctest)]
#[doc = include_str!("../../README.md")]
pub struct Readme;

#[cfg(doctest)]
#[doc = include_str!("../../docs/INTEGRATOR.md")]
pub struct Integrator;
