//! Where things lie in registry memory, by docs/LAYOUT.md.

use crate::oracle::slot_of;
use std::ops::Range;

pub const LINES: usize = 8;
pub const SLOTS: usize = 8;
pub const LINE_SIZE: usize = 5_209;
pub const SLOT_SIZE: usize = 643;

// Offsets in a slot.
pub const DATA_LENGTH_AT: usize = 33;
pub const DATA_AT: usize = 35;
pub const BITS_AT: usize = 635;
pub const EXPORT_ALLOWED_AT: usize = 637;
pub const VERIFY_ALLOWED_AT: usize = 638;
pub const USES_AT: usize = 639;

pub const LONGEST_APPLICATION_NAME: usize = 64;
pub const LONGEST_KEY_NAME: usize = 32;
pub const LONGEST_DATA: usize = 600;

/// A slot of a line.
#[derive(Clone, Copy, Debug, PartialEq, Eq)]
pub struct Place {
    pub line: usize,
    pub slot: usize,
}

impl Place {
    pub fn all() -> impl Iterator<Item = Place> {
        (0..LINES).flat_map(|line| (0..SLOTS).map(move |slot| Place { line, slot }))
    }
}

/// What Import takes: document 02, "No more odd key lengths".
pub const IMPORT_BITS: [u16; 3] = [2_048, 3_072, 4_096];

/// What a slot and a journal's record may have: 01's earlier rule.
pub fn bits_are_legal(bits: u64) -> bool {
    (1_024..=4_096).contains(&bits) && bits.is_multiple_of(8)
}

/// What Import brings to a slot.
#[derive(Clone, Debug, PartialEq, Eq)]
pub struct Key {
    pub name: Vec<u8>,
    pub data: Vec<u8>,
    pub bits: u16,
    pub export_allowed: bool,
    pub verify_allowed: bool,
}

pub fn line_at(line: usize) -> usize {
    line * LINE_SIZE
}

pub fn slot_at(place: Place) -> usize {
    line_at(place.line) + 65 + place.slot * SLOT_SIZE
}

/// All slots of a line.
pub fn slots_of(line: usize) -> Range<usize> {
    slot_at(Place { line, slot: 0 })..line_at(line + 1)
}

pub fn slot_bytes(registry: &[u8], place: Place) -> &[u8] {
    &registry[slot_at(place)..][..SLOT_SIZE]
}

/// The count of uses in a slot.
pub fn uses_at(registry: &[u8], place: Place) -> u32 {
    let uses = slot_bytes(registry, place)[USES_AT..].iter();
    uses.rfold(0, |number, &byte| number << 8 | u32::from(byte))
}

/// Puts the key into a slot as it would lie there, not used yet: Import need not take it.
pub fn hold(registry: &mut [u8], place: Place, key: &Key) {
    registry[slot_at(place)..][..SLOT_SIZE].copy_from_slice(&slot_of(key));
}

pub fn set_uses(registry: &mut [u8], place: Place, uses: u32) {
    registry[slot_at(place) + USES_AT..][..4].copy_from_slice(&uses.to_le_bytes());
}

/// The slots that hold a key, ascending by line, then slot.
pub fn used_places(registry: &[u8]) -> Vec<Place> {
    let is_used = |place: &Place| registry[slot_at(*place)] != 0;
    Place::all().filter(is_used).collect()
}

/// The name at the beginning of a line or a slot: a length, then so many bytes.
pub fn name_at(registry: &[u8], at: usize) -> &[u8] {
    &registry[at + 1..][..usize::from(registry[at])]
}
