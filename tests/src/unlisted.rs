//! Fields that a reader skips, groups to any depth, and damage among them, from a seed: document 02,
//! "Unlisted fields".

use crate::generate::{long_varint, some_varint, Random};
use crate::oracle::varint;
use std::fmt;

/// "groups (3 and 4) that may stand inside each other to a depth of 16"
pub const DEEPEST_GROUP: usize = 16;
/// Some depths are tried that are not read.
pub const DEPTHS: std::ops::RangeInclusive<usize> = 0..=18;
/// Where damage is tried: outside of groups, in an outermost one, and either side of the bound.
pub const DAMAGED_DEPTHS: [usize; 4] = [0, 1, 15, 16];

pub const VARINT: u64 = 0;
pub const FIXED64: u64 = 1;
pub const BYTES: u64 = 2;
pub const START_GROUP: u64 = 3;
pub const END_GROUP: u64 = 4;
pub const FIXED32: u64 = 5;
/// Of whole fields; a group begins with `START_GROUP`.
pub const WIRE_TYPES: [u64; 5] = [VARINT, FIXED64, BYTES, FIXED32, START_GROUP];

/// Of fields that are no groups.
const PLAIN_WIRE_TYPES: [u64; 4] = [VARINT, FIXED64, BYTES, FIXED32];

const HIGHEST_NUMBER: u64 = 0x1FFF_FFFF;

// ---- whole fields

/// Of a field in a group, or of a group: listed ones too, and those at the ends of a tag's lengths.
fn some_number(random: &mut Random) -> u64 {
    random.pick(&[1, 2, 3, 4, 5, 6, 7, 15, 16, 2_047, 2_048, HIGHEST_NUMBER])
}

fn tag(random: &mut Random, number: u64, wire_type: u64) -> Vec<u8> {
    some_varint(random, number << 3 | wire_type)
}

/// What stands behind a tag; of a group nothing.
fn content(random: &mut Random, wire_type: u64) -> Vec<u8> {
    match wire_type {
        VARINT => {
            let value = random.number();
            some_varint(random, value)
        }
        FIXED64 => random.bytes(8),
        FIXED32 => random.bytes(4),
        BYTES => {
            let length = random.pick(&[0, 1, 2, 9]);
            [some_varint(random, length as u64), random.bytes(length)].concat()
        }
        _ => Vec::new(),
    }
}

/// A whole field; a group has some fields, and groups inside it now and then.
pub fn whole_field(random: &mut Random, number: u64, wire_type: u64) -> Vec<u8> {
    if wire_type == START_GROUP {
        let depth = random.pick(&[1, 1, 2, 3]);
        let mut numbers = some_numbers(random, depth);
        numbers[0] = number;
        return Groups::around(random, numbers, 0).with(&[]);
    }
    [tag(random, number, wire_type), content(random, wire_type)].concat()
}

/// A field that is no group.
fn plain_field(random: &mut Random) -> Vec<u8> {
    let number = some_number(random);
    let wire_type = random.pick(&PLAIN_WIRE_TYPES);
    whole_field(random, number, wire_type)
}

/// A field that is no group, of a number that no message lists.
fn unlisted_field(random: &mut Random) -> Vec<u8> {
    let number = random.pick(&[6, 7, 15, 16, 2_047, 2_048, HIGHEST_NUMBER]);
    let wire_type = random.pick(&PLAIN_WIRE_TYPES);
    whole_field(random, number, wire_type)
}

// ---- groups

fn some_numbers(random: &mut Random, depth: usize) -> Vec<u64> {
    (0..depth).map(|_| some_number(random)).collect()
}

/// Groups around a place, and what stands in them before it and behind it.
#[derive(Clone, Debug, Default)]
pub struct Groups {
    /// The outermost one's first.
    numbers: Vec<u64>,
    before: Vec<u8>,
    behind: Vec<u8>,
}

impl Groups {
    pub fn some(random: &mut Random, depth: usize) -> Groups {
        Groups::inside(random, depth, 0)
    }

    /// So many inside so many others.
    fn inside(random: &mut Random, depth: usize, outer: usize) -> Groups {
        let numbers = some_numbers(random, depth);
        Groups::around(random, numbers, outer)
    }

    fn around(random: &mut Random, numbers: Vec<u64>, outer: usize) -> Groups {
        let mut groups = Groups::default();
        let deepest = (outer + numbers.len()).min(DEEPEST_GROUP);
        for (depth, &number) in (outer + 1..).zip(&numbers) {
            let with_groups = depth < deepest;
            groups.before.extend(tag(random, number, START_GROUP));
            groups.before.extend(beside(random, with_groups));
            let behind = beside(random, with_groups);
            let end = tag(random, number, END_GROUP);
            groups.behind.splice(..0, [behind, end].concat());
        }
        groups.numbers = numbers;
        groups
    }

    pub fn with(&self, content: &[u8]) -> Vec<u8> {
        [&self.before, content, &self.behind].concat()
    }
}

/// Up to two fields, groups among them where these get no deeper by it.
fn beside(random: &mut Random, with_groups: bool) -> Vec<u8> {
    let mut fields = Vec::new();
    for _ in 0..random.pick(&[0, 0, 0, 0, 1, 1, 2]) {
        let field = plain_field(random);
        if with_groups && random.once_in(3) {
            let number = some_number(random);
            fields.extend(tag(random, number, START_GROUP));
            fields.extend(field);
            fields.extend(tag(random, number, END_GROUP));
        } else {
            fields.extend(field);
        }
    }
    fields
}

// ---- damage

/// What makes a body unreadable wherever a field may stand.
#[derive(Clone, Copy, Debug, PartialEq, Eq)]
pub enum Damage {
    TagAbove32Bits,
    Number0,
    WireType6,
    WireType7,
    TenthByteAbove1,
    Cut,
    EndOfAnotherNumber,
    StrayEnd,
    SeventeenthDepth,
}

impl Damage {
    const ALL: [Damage; 9] = [
        Damage::TagAbove32Bits,
        Damage::Number0,
        Damage::WireType6,
        Damage::WireType7,
        Damage::TenthByteAbove1,
        Damage::Cut,
        Damage::EndOfAnotherNumber,
        Damage::StrayEnd,
        Damage::SeventeenthDepth,
    ];

    /// Outside of groups every end is a stray one.
    fn is_at(self, depth: usize) -> bool {
        depth > 0 || self != Damage::EndOfAnotherNumber
    }
}

/// What is put between the fields of a message.
#[derive(Clone, Copy, Debug, PartialEq, Eq)]
pub enum Class {
    /// A field that no group is in, or groups inside each other, so many in all.
    Depth(usize),
    /// The damage stands inside so many groups.
    Damaged(Damage, usize),
}

impl fmt::Display for Class {
    fn fmt(&self, to: &mut fmt::Formatter) -> fmt::Result {
        match self {
            Class::Depth(depth) => write!(to, "groups {depth} deep"),
            Class::Damaged(damage, depth) => write!(to, "{damage:?} at depth {depth}"),
        }
    }
}

impl Class {
    pub fn all() -> Vec<Class> {
        let damaged = Damage::ALL.into_iter().flat_map(|damage| {
            let depths = DAMAGED_DEPTHS
                .into_iter()
                .filter(move |&depth| damage.is_at(depth));
            depths.map(move |depth| Class::Damaged(damage, depth))
        });
        DEPTHS.map(Class::Depth).chain(damaged).collect()
    }

    pub fn is_skipped(self) -> bool {
        matches!(self, Class::Depth(0..=DEEPEST_GROUP))
    }
}

/// Bytes that may stand between the fields of a message.
#[derive(Clone, Debug)]
pub struct Sample {
    pub bytes: Vec<u8>,
    /// Where in them the tag of the message's own field that is unreadable starts.
    pub unreadable_at: Option<usize>,
    /// They end in the middle of a field, so that nothing may stand behind them.
    pub is_cut: bool,
    /// The same bytes without the damage: they are skipped.
    pub undamaged: Vec<u8>,
}

impl Sample {
    pub fn of(random: &mut Random, class: Class) -> Sample {
        match class {
            Class::Depth(0) => Sample::skipped(unlisted_field(random)),
            Class::Depth(depth) if class.is_skipped() => {
                let field = plain_field(random);
                Sample::skipped(Groups::some(random, depth).with(&field))
            }
            Class::Depth(depth) => {
                let groups = Groups::some(random, DEEPEST_GROUP);
                let deeper = Groups::inside(random, depth - DEEPEST_GROUP, DEEPEST_GROUP).with(&[]);
                Sample::damaged(&groups, &deeper)
            }
            Class::Damaged(damage, depth) => damaged(random, damage, depth),
        }
    }

    fn skipped(bytes: Vec<u8>) -> Sample {
        Sample {
            undamaged: bytes.clone(),
            bytes,
            unreadable_at: None,
            is_cut: false,
        }
    }

    fn damaged(groups: &Groups, damage: &[u8]) -> Sample {
        Sample {
            bytes: groups.with(damage),
            unreadable_at: Some(0),
            is_cut: false,
            undamaged: groups.with(&[]),
        }
    }
}

fn damaged(random: &mut Random, damage: Damage, depth: usize) -> Sample {
    let groups = Groups::some(random, depth);
    match damage {
        Damage::Cut => cut(random, &groups),
        Damage::StrayEnd => stray_end(random, depth),
        _ => {
            let field = damaged_field(random, damage, &groups.numbers);
            Sample::damaged(&groups, &field)
        }
    }
}

/// A whole group may be lacking its end alone; of a field outside of groups there is a byte at least.
fn cut(random: &mut Random, groups: &Groups) -> Sample {
    let field = unlisted_field(random);
    let least = usize::from(groups.numbers.is_empty());
    let length = least + random.below(field.len() - least);
    Sample {
        bytes: [&groups.before, &field[..length]].concat(),
        unreadable_at: Some(0),
        is_cut: true,
        undamaged: groups.with(&field),
    }
}

/// One end more than groups, all of one number: the last is the stray one, and a field of its own.
fn stray_end(random: &mut Random, depth: usize) -> Sample {
    let number = some_number(random);
    let groups = Groups::around(random, vec![number; depth], 0);
    let undamaged = groups.with(&[]);
    let end = tag(random, number, END_GROUP);
    Sample {
        bytes: [&undamaged[..], &end].concat(),
        unreadable_at: Some(undamaged.len()),
        is_cut: false,
        undamaged,
    }
}

/// Inside groups of these numbers. A reader that overlooks the damage would go on behind it.
fn damaged_field(random: &mut Random, damage: Damage, numbers: &[u64]) -> Vec<u8> {
    let number = some_number(random);
    match damage {
        Damage::TagAbove32Bits => {
            let above = 1 << (32 + random.below(32));
            with_tag(random, numbers, |tag| varint(tag | above))
        }
        Damage::Number0 => {
            let wire_type = random.pick(&WIRE_TYPES);
            whole_field(random, 0, wire_type)
        }
        Damage::WireType6 => tag(random, number, 6),
        Damage::WireType7 => tag(random, number, 7),
        Damage::TenthByteAbove1 => tenth_byte_above_1(random, numbers),
        Damage::EndOfAnotherNumber => {
            let other = another_number(random, numbers);
            tag(random, other, END_GROUP)
        }
        Damage::SeventeenthDepth => {
            let outer = numbers.len();
            Groups::inside(random, DEEPEST_GROUP + 1 - outer, outer).with(&[])
        }
        Damage::Cut | Damage::StrayEnd => unreachable!("made of whole groups"),
    }
}

/// A field of any wire type, or the end of the innermost group, with a tag that is written so.
fn with_tag(random: &mut Random, numbers: &[u64], write: impl Fn(u64) -> Vec<u8>) -> Vec<u8> {
    let number = some_number(random);
    if let Some(&innermost) = numbers.last().filter(|_| random.once_in(4)) {
        return write(innermost << 3 | END_GROUP);
    }
    let wire_type = random.pick(&WIRE_TYPES);
    let mut field = write(number << 3 | wire_type);
    field.extend(content(random, wire_type));
    if wire_type == START_GROUP {
        field.extend(tag(random, number, END_GROUP));
    }
    field
}

/// In a tag, a value or a length.
fn tenth_byte_above_1(random: &mut Random, numbers: &[u64]) -> Vec<u8> {
    let tenth = random.pick(&[2, 3, 0x7F, 0x80, 0x81, 0xFF]);
    let ten_bytes = |value: u64| {
        let mut bytes = long_varint(value, 10);
        bytes[9] = tenth;
        bytes.extend(vec![0; usize::from(tenth >= 0x80)]);
        bytes
    };
    let number = some_number(random);
    match random.below(3) {
        0 => with_tag(random, numbers, ten_bytes),
        1 => [tag(random, number, VARINT), ten_bytes(random.number())].concat(),
        _ => [tag(random, number, BYTES), ten_bytes(2), random.bytes(2)].concat(),
    }
}

/// Not the innermost group's: another group's that is open, or one that is near in bits.
fn another_number(random: &mut Random, numbers: &[u64]) -> u64 {
    let own = *numbers.last().expect("a group");
    let near = [own ^ 1, own + 1, own ^ 0x10, own ^ 0x800, own ^ 0x1000_0000];
    let others: Vec<_> = near
        .into_iter()
        .chain(numbers.iter().copied())
        .filter(|&other| other != own && (1..=HIGHEST_NUMBER).contains(&other))
        .collect();
    random.pick(&others)
}
