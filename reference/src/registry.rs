//! The registry in its lent memory: layout, well-formedness, finding, filling, freeing and counting.
//! Document 01, "Roster, registry, connection, tally"; document 02, "Use per key", for the count of a
//! slot, and "No more odd key lengths", for the two rules of bits; the layout is the one set down in
//! docs/.

use crate::bytes::{is_zero, read_u16, read_u32, write_at};

pub const REGISTRY_SIZE: usize = LINES * LINE_SIZE;
pub const LINES: usize = 8;
pub const LONGEST_APPLICATION_NAME: usize = 64;
pub const LONGEST_KEY_NAME: usize = 32;
pub const LONGEST_DATA: usize = 600;

const SLOTS: usize = 8;

// A line: its name field, then its slots. A name field is a length byte, the name, then zeros.
const LINE_SIZE: usize = SLOTS_AT + SLOTS * SLOT_SIZE;
const SLOTS_AT: usize = 1 + LONGEST_APPLICATION_NAME;

// A slot, offsets from its start.
const DATA_LENGTH_AT: usize = 1 + LONGEST_KEY_NAME;
const DATA_AT: usize = DATA_LENGTH_AT + 2;
const BITS_AT: usize = DATA_AT + LONGEST_DATA;
const EXPORT_ALLOWED_AT: usize = BITS_AT + 2;
const VERIFY_ALLOWED_AT: usize = EXPORT_ALLOWED_AT + 1;
const USES_AT: usize = VERIFY_ALLOWED_AT + 1;
const SLOT_SIZE: usize = USES_AT + 4;

/// The number of a roster line, from 0.
#[derive(Clone, Copy, Debug, PartialEq, Eq)]
pub struct Line(usize);

impl Line {
    pub fn all() -> impl Iterator<Item = Line> {
        (0..LINES).map(Line)
    }

    pub fn number(self) -> usize {
        self.0
    }
}

/// The number of a slot within its line, from 0.
#[derive(Clone, Copy, Debug, PartialEq, Eq)]
pub struct Slot(usize);

impl Slot {
    fn all() -> impl Iterator<Item = Slot> {
        (0..SLOTS).map(Slot)
    }

    pub fn number(self) -> usize {
        self.0
    }
}

/// A key as Import reads it from a body and as a used slot holds it.
#[derive(Clone, Copy, Debug, Default, PartialEq, Eq)]
pub struct Key<'a> {
    pub name: &'a [u8],
    pub data: &'a [u8],
    pub bits: u32,
    pub export_allowed: bool,
    pub verify_allowed: bool,
}

impl Key<'_> {
    /// Are name, data and bits within the bounds of what a slot may hold?
    pub fn is_legal(&self) -> bool {
        key_name_is_legal(self.name) && data_is_legal(self.data) && bits_are_legal(self.bits)
    }
}

pub fn data_is_legal(data: &[u8]) -> bool {
    (1..=LONGEST_DATA).contains(&data.len())
}

/// What a slot and a record of the journal may have: Import once took all of these.
pub fn bits_are_legal(bits: u32) -> bool {
    (1_024..=4_096).contains(&bits) && bits.is_multiple_of(8)
}

/// What Import takes, and what verify supports.
pub fn bits_are_importable(bits: u32) -> bool {
    matches!(bits, 2_048 | 3_072 | 4_096)
}

pub fn application_name_is_legal(name: &[u8]) -> bool {
    name_is_legal(name, LONGEST_APPLICATION_NAME)
}

pub fn key_name_is_legal(name: &[u8]) -> bool {
    name_is_legal(name, LONGEST_KEY_NAME)
}

fn name_is_legal(name: &[u8], longest: usize) -> bool {
    (1..=longest).contains(&name.len()) && is_visible(name)
}

/// Goes over all bytes and doesn't stop at a bad one: every call tests all names of a registry,
/// and such a loop is compiled to take many bytes at a time.
fn is_visible(name: &[u8]) -> bool {
    name.iter()
        .fold(true, |good, byte| good & (0x21..=0x7E).contains(byte))
}

pub fn registry_is_well_formed(registry: &[u8]) -> bool {
    registry.len() == REGISTRY_SIZE
        && Line::all().all(|line| line_is_well_formed(line_bytes(registry, line)))
        && used_lines_come_first(registry)
        && application_names_are_distinct(registry)
}

fn line_is_well_formed(line: &[u8]) -> bool {
    if line[0] == 0 {
        return is_zero(line);
    }
    name_field_is_padded(&line[..SLOTS_AT])
        && application_name_is_legal(name_in(line))
        && Slot::all().all(|slot| slot_is_well_formed(slot_in(line, slot)))
        && key_names_are_distinct(line)
}

fn used_lines_come_first(registry: &[u8]) -> bool {
    let is_used = |line: &Line| !application_name(registry, *line).is_empty();
    !Line::all().skip_while(is_used).any(|line| is_used(&line))
}

fn application_names_are_distinct(registry: &[u8]) -> bool {
    let names: [&[u8]; LINES] = std::array::from_fn(|line| application_name(registry, Line(line)));
    names_are_distinct(&names)
}

fn key_names_are_distinct(line: &[u8]) -> bool {
    let names: [&[u8]; SLOTS] = std::array::from_fn(|slot| name_in(slot_in(line, Slot(slot))));
    names_are_distinct(&names)
}

/// Empty names are those of unused lines and free slots, and may repeat.
fn names_are_distinct(names: &[&[u8]]) -> bool {
    names
        .iter()
        .enumerate()
        .all(|(place, name)| name.is_empty() || !names[..place].contains(name))
}

/// A free slot is all zero; in a used one any count of uses is good.
fn slot_is_well_formed(slot: &[u8]) -> bool {
    if slot[0] == 0 {
        return is_zero(slot);
    }
    let data_length = usize::from(read_u16(slot, DATA_LENGTH_AT));
    name_field_is_padded(&slot[..DATA_LENGTH_AT])
        && data_length <= LONGEST_DATA
        && is_zero(&slot[DATA_AT + data_length..BITS_AT])
        && slot[EXPORT_ALLOWED_AT] <= 1
        && slot[VERIFY_ALLOWED_AT] <= 1
        && key_in(slot).is_legal()
}

/// Does the length fit the field, and are the bytes behind the name zero?
fn name_field_is_padded(field: &[u8]) -> bool {
    let end = 1 + usize::from(field[0]);
    end <= field.len() && is_zero(&field[end..])
}

/// The name of a line or slot, empty for one not in use.
fn name_in(line_or_slot: &[u8]) -> &[u8] {
    &line_or_slot[1..1 + usize::from(line_or_slot[0])]
}

fn key_in(slot: &[u8]) -> Key<'_> {
    let data_length = usize::from(read_u16(slot, DATA_LENGTH_AT));
    Key {
        name: name_in(slot),
        data: &slot[DATA_AT..DATA_AT + data_length],
        bits: u32::from(read_u16(slot, BITS_AT)),
        export_allowed: slot[EXPORT_ALLOWED_AT] == 1,
        verify_allowed: slot[VERIFY_ALLOWED_AT] == 1,
    }
}

fn line_bytes(registry: &[u8], line: Line) -> &[u8] {
    &registry[line.0 * LINE_SIZE..][..LINE_SIZE]
}

fn slot_in(line: &[u8], slot: Slot) -> &[u8] {
    &line[SLOTS_AT + slot.0 * SLOT_SIZE..][..SLOT_SIZE]
}

fn slot_bytes(registry: &[u8], line: Line, slot: Slot) -> &[u8] {
    slot_in(line_bytes(registry, line), slot)
}

fn slot_bytes_mut(registry: &mut [u8], line: Line, slot: Slot) -> &mut [u8] {
    &mut registry[line.0 * LINE_SIZE + SLOTS_AT + slot.0 * SLOT_SIZE..][..SLOT_SIZE]
}

/// The name of an application, empty for an unused line.
pub fn application_name(registry: &[u8], line: Line) -> &[u8] {
    name_in(line_bytes(registry, line))
}

/// The used line of this name. An empty name is on no roster, though unused lines hold one.
pub fn find_application(registry: &[u8], name: &[u8]) -> Option<Line> {
    if name.is_empty() {
        return None;
    }
    Line::all().find(|&line| application_name(registry, line) == name)
}

/// The line of this number, if it is in use.
pub fn find_used_line(registry: &[u8], number: u8) -> Option<Line> {
    Line::all()
        .nth(number.into())
        .filter(|&line| !application_name(registry, line).is_empty())
}

/// The slot of this application that holds a key of this legal name, wherever free slots lie.
pub fn find_key(registry: &[u8], line: Line, name: &[u8]) -> Option<Slot> {
    Slot::all().find(|&slot| name_in(slot_bytes(registry, line, slot)) == name)
}

/// The lowest-numbered free slot of this application.
pub fn find_free_slot(registry: &[u8], line: Line) -> Option<Slot> {
    Slot::all().find(|&slot| is_free(registry, line, slot))
}

/// The used slots of this application, ascending.
pub fn used_slots(registry: &[u8], line: Line) -> impl Iterator<Item = Slot> + '_ {
    Slot::all().filter(move |&slot| !is_free(registry, line, slot))
}

fn is_free(registry: &[u8], line: Line, slot: Slot) -> bool {
    slot_bytes(registry, line, slot)[0] == 0
}

/// The key in a used slot.
pub fn read_key(registry: &[u8], line: Line, slot: Slot) -> Key<'_> {
    key_in(slot_bytes(registry, line, slot))
}

/// How often the key in a used slot was exported or verified with.
pub fn read_uses(registry: &[u8], line: Line, slot: Slot) -> u32 {
    read_u32(slot_bytes(registry, line, slot), USES_AT)
}

/// Counts one use more of the key in a used slot; the highest count stays.
pub fn add_use(registry: &mut [u8], line: Line, slot: Slot) {
    let uses = read_uses(registry, line, slot).saturating_add(1);
    let slot = slot_bytes_mut(registry, line, slot);
    write_at(slot, USES_AT, &uses.to_le_bytes());
}

/// Fills a free slot with a legal key, its uses 0, and leaves all else alone.
pub fn write_key(registry: &mut [u8], line: Line, slot: Slot, key: &Key) {
    let slot = slot_bytes_mut(registry, line, slot);
    slot[0] = key.name.len() as u8;
    write_at(slot, 1, key.name);
    write_at(slot, DATA_LENGTH_AT, &(key.data.len() as u16).to_le_bytes());
    write_at(slot, DATA_AT, key.data);
    write_at(slot, BITS_AT, &(key.bits as u16).to_le_bytes());
    slot[EXPORT_ALLOWED_AT] = u8::from(key.export_allowed);
    slot[VERIFY_ALLOWED_AT] = u8::from(key.verify_allowed);
}

/// Makes a slot free, all zero, and leaves all else alone.
pub fn free_slot(registry: &mut [u8], line: Line, slot: Slot) {
    slot_bytes_mut(registry, line, slot).fill(0);
}

/// Makes a registry of these names, at most eight and legal, and no keys.
pub fn write_fresh(registry: &mut [u8], names: &[&[u8]]) {
    registry.fill(0);
    for (line, name) in registry.chunks_exact_mut(LINE_SIZE).zip(names) {
        line[0] = name.len() as u8;
        write_at(line, 1, name);
    }
}
