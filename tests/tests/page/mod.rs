//! docs/PROTOCOL.md taken apart: its tables, and its worked examples, which are played; and what its
//! order of judgement is tried on.

pub mod digits;
pub mod drafts;
pub mod labels;
pub mod play;
pub mod text;
pub mod wanted;

/// What is wrong with the page.
pub type Fault = String;
