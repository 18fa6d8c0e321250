//! Inputs from a seed, the same on every run.

use crate::ask::{record, registry_of};
use crate::journals::{destroy_record, import_record};
use crate::layout::*;
use crate::listed::MOST_USES;
use crate::oracle::{bytes_field, varint};
use crate::signatures::with_signed_data;
use crate::unlisted::{whole_field, START_GROUP};
use reference::{read_journal, REGISTRY_SIZE};

/// The names that many keys have, one byte each: two more than an application may hold.
pub const KEY_NAMES: &[u8] = b"abcdefghij";

/// A xorshift generator of 64 bits.
pub struct Random(u64);

impl Random {
    /// Neighbouring seeds are spread first, since xorshift keeps them alike for some steps.
    pub fn new(seed: u64) -> Random {
        Random((seed + 1).wrapping_mul(0x9E37_79B9_7F4A_7C15) | 1)
    }

    pub fn word(&mut self) -> u64 {
        self.0 ^= self.0 << 13;
        self.0 ^= self.0 >> 7;
        self.0 ^= self.0 << 17;
        self.0.wrapping_mul(0x2545_F491_4F6C_DD1D)
    }

    pub fn below(&mut self, bound: usize) -> usize {
        ((self.word() >> 8) % bound as u64) as usize
    }

    /// True once in so many times.
    pub fn once_in(&mut self, times: usize) -> bool {
        self.below(times) == 0
    }

    pub fn pick<T: Clone>(&mut self, choices: &[T]) -> T {
        choices[self.below(choices.len())].clone()
    }

    pub fn byte(&mut self) -> u8 {
        (self.word() >> 32) as u8
    }

    pub fn bytes(&mut self, length: usize) -> Vec<u8> {
        let mut bytes = Vec::with_capacity(length + 8);
        while bytes.len() < length {
            bytes.extend_from_slice(&self.word().to_le_bytes());
        }
        bytes.truncate(length);
        bytes
    }

    /// Numbers of all magnitudes, those at either end of a varint's length among them.
    pub fn number(&mut self) -> u64 {
        match self.below(4) {
            0 => self.word() >> self.below(64),
            1 => (1_u64 << self.below(64)).wrapping_sub(self.below(2) as u64),
            2 => self.below(256) as u64,
            _ => self.word(),
        }
    }

    pub fn shuffle<T>(&mut self, items: &mut [T]) {
        for last in (1..items.len()).rev() {
            items.swap(last, self.below(last + 1));
        }
    }
}

// ---- names, keys and registries

/// A legal name that no other number gives, `length` bytes long; the numbers are below 64.
pub fn name(random: &mut Random, number: usize, length: usize) -> Vec<u8> {
    let mut name: Vec<u8> = (0..length).map(|_| 0x21 + random.byte() % 0x5E).collect();
    name[length - 1] = b'@' + number as u8 % 62;
    name
}

/// A key that a slot may hold; some are as long as may be, some of bits that Import takes no more.
pub fn key(random: &mut Random, number: usize) -> Key {
    let name_length = random.pick(&[1, 2, 9, 31, 32]);
    let data_length = random.pick(&[1, 2, 33, 255, 256, 599, 600]);
    Key {
        name: name(random, number, name_length),
        data: random.bytes(data_length),
        bits: random.pick(&[1_024, 2_048, 2_056, 3_072, 4_088, 4_096]),
        export_allowed: random.once_in(2),
        verify_allowed: random.once_in(2),
    }
}

/// A key that Import allows.
pub fn importable_key(random: &mut Random, number: usize) -> Key {
    Key {
        bits: random.pick(&IMPORT_BITS),
        ..key(random, number)
    }
}

/// A key of any content whose parts fit into a slot, one that Import allows or not.
pub fn any_key(random: &mut Random) -> Key {
    let name_length = random.below(LONGEST_KEY_NAME + 1);
    let data_length = random.pick(&[0, 1, 77, 599, 600]);
    Key {
        name: random.bytes(name_length),
        data: random.bytes(data_length),
        bits: random.word() as u16,
        export_allowed: random.once_in(2),
        verify_allowed: random.once_in(2),
    }
}

/// How much a registry holds.
#[derive(Clone, Copy, Debug, PartialEq, Eq)]
pub enum Filling {
    Empty,
    NamesOnly,
    /// Some names, some keys, and free slots anywhere.
    Some,
    /// Eight names of 64 bytes, and 64 keys of the longest name and data.
    Full,
}

impl Filling {
    pub const ALL: [Filling; 4] = [
        Filling::Empty,
        Filling::NamesOnly,
        Filling::Some,
        Filling::Full,
    ];
}

/// A registry that the reference restored from a roster and a journal of imports and destroys, old ones
/// too, its keys used any number of times.
pub fn registry(random: &mut Random, filling: Filling) -> Vec<u8> {
    let count = match filling {
        Filling::Empty => 0,
        Filling::NamesOnly | Filling::Some => 1 + random.below(LINES),
        Filling::Full => LINES,
    };
    let names: Vec<_> = (0..count)
        .map(|line| {
            let length = match filling {
                Filling::Full => LONGEST_APPLICATION_NAME,
                _ => random.pick(&[1, 2, 17, 63, 64]),
            };
            name(random, line, length)
        })
        .collect();
    let journal: Vec<u8> = match filling {
        Filling::Empty | Filling::NamesOnly => Vec::new(),
        Filling::Some | Filling::Full => (0..count)
            .flat_map(|line| keys_of(random, line as u8, filling))
            .collect(),
    };
    let restored = read_journal(&registry_of(&names), &journal);
    assert_eq!(restored.fault, None, "all records are carried out");
    let mut registry = restored.registry;
    for place in used_places(&registry) {
        set_uses(&mut registry, place, uses(random));
    }
    registry
}

/// A count of uses; those around the most are frequent.
pub fn uses(random: &mut Random) -> u32 {
    match random.below(8) {
        0 | 1 => 0,
        2 => random.number() as u32,
        3 => random.pick(&[1, 0xFF, 0xFFFF, 0xFF_FFFF, 0x7FFF_FFFF]),
        4 => MOST_USES - 2,
        5 | 6 => MOST_USES - 1,
        _ => MOST_USES,
    }
}

/// The records that fill a line's slots: an import each, and for holes some destroys.
fn keys_of(random: &mut Random, line: u8, filling: Filling) -> Vec<u8> {
    let mut some_key = |slot| {
        let key = key(random, slot);
        with_signed_data(random, key)
    };
    let mut keys: Vec<Key> = (0..SLOTS).map(&mut some_key).collect();
    if filling == Filling::Full {
        for (slot, key) in keys.iter_mut().enumerate() {
            key.name = name(random, slot, LONGEST_KEY_NAME);
            key.data = random.bytes(LONGEST_DATA);
        }
    }
    let imports = keys.iter().flat_map(|key| import_record(line, key));
    let mut journal: Vec<u8> = imports.collect();
    for key in &keys {
        if filling == Filling::Some && random.once_in(2) {
            journal.extend(destroy_record(line, &key.name));
        }
    }
    journal
}

// ---- damage to a registry

/// One change of registry memory. Some leave it well formed.
#[derive(Clone, Copy, Debug, PartialEq, Eq)]
pub enum Damage {
    Byte { at: usize, value: u8 },
    ApplicationNameLength { line: usize, value: u8 },
    ApplicationNameByte { line: usize, value: u8 },
    KeyNameLength { place: Place, value: u8 },
    KeyNameByte { place: Place, value: u8 },
    DataLength { place: Place, value: u16 },
    Bits { place: Place, value: u16 },
    ExportAllowed { place: Place, value: u8 },
    VerifyAllowed { place: Place, value: u8 },
    Uses { place: Place, value: u32 },
    CopyApplicationName { from: usize, to: usize },
    CopySlot { from: Place, to: Place },
    CopyLine { from: usize, to: usize },
    ClearSlot { place: Place },
    ClearLine { line: usize },
    Resize { size: usize },
}

pub fn place(random: &mut Random) -> Place {
    Place {
        line: random.below(LINES),
        slot: random.below(SLOTS),
    }
}

impl Damage {
    pub fn generate(random: &mut Random) -> Damage {
        match random.below(17) {
            0 | 1 => Damage::Byte {
                at: random.below(REGISTRY_SIZE),
                value: random.byte(),
            },
            2..=5 => Damage::to_a_name(random),
            6..=9 => Damage::to_a_key(random),
            10..=13 => Damage::by_copying(random),
            14 => Damage::ClearSlot {
                place: place(random),
            },
            15 => Damage::ClearLine {
                line: random.below(LINES),
            },
            _ => Damage::Resize {
                // 21,096 is the size with four slots a line, 20,968 that without counts of uses.
                size: random.pick(&[0, 1, 5_209, 20_968, 21_096, 41_671, 41_672, 41_673, 83_344]),
            },
        }
    }

    fn to_a_name(random: &mut Random) -> Damage {
        let (line, place) = (random.below(LINES), place(random));
        let length = random.pick(&[0, 1, 2, 31, 32, 33, 63, 64, 65, 128, 255]);
        let byte = random.pick(&[0, 0x20, 0x21, b'~', 0x7F, 0x80, 0xFF]);
        random.pick(&[
            Damage::ApplicationNameLength {
                line,
                value: length,
            },
            Damage::ApplicationNameByte { line, value: byte },
            Damage::KeyNameLength {
                place,
                value: length,
            },
            Damage::KeyNameByte { place, value: byte },
        ])
    }

    fn to_a_key(random: &mut Random) -> Damage {
        let place = place(random);
        let length = random.pick(&[0, 1, 255, 256, 599, 600, 601, 0x200, 0xFFFF]);
        let bits = random.pick(&[
            0, 1_016, 1_023, 1_024, 1_028, 1_032, 2_048, 2_056, 4_095, 4_096, 4_104, 0xFFFF,
        ]);
        let flag = random.pick(&[0, 0, 1, 1, 2, 0x80, 0xFF]);
        let uses = uses(random);
        random.pick(&[
            Damage::DataLength {
                place,
                value: length,
            },
            Damage::Bits { place, value: bits },
            Damage::ExportAllowed { place, value: flag },
            Damage::VerifyAllowed { place, value: flag },
            Damage::Uses { place, value: uses },
        ])
    }

    fn by_copying(random: &mut Random) -> Damage {
        let (from, to) = (random.below(LINES), random.below(LINES));
        let (slot, there) = (random.below(SLOTS), place(random));
        let near = Place {
            line: there.line,
            slot,
        };
        let far = Place { line: from, slot };
        random.pick(&[
            Damage::CopyApplicationName { from, to },
            Damage::CopySlot {
                from: near,
                to: there,
            },
            Damage::CopySlot {
                from: far,
                to: there,
            },
            Damage::CopyLine { from, to },
        ])
    }

    /// A registry of another size is only changed where it still has the bytes.
    pub fn apply(self, registry: &mut Vec<u8>) {
        let mut set = |at: usize, bytes: &[u8]| {
            if let Some(part) = registry.get_mut(at..at + bytes.len()) {
                part.copy_from_slice(bytes);
            }
        };
        match self {
            Damage::Byte { at, value } => set(at, &[value]),
            Damage::ApplicationNameLength { line, value } => set(line_at(line), &[value]),
            Damage::ApplicationNameByte { line, value } => set(line_at(line) + 1, &[value]),
            Damage::KeyNameLength { place, value } => set(slot_at(place), &[value]),
            Damage::KeyNameByte { place, value } => set(slot_at(place) + 1, &[value]),
            Damage::DataLength { place, value } => {
                set(slot_at(place) + DATA_LENGTH_AT, &value.to_le_bytes());
            }
            Damage::Bits { place, value } => set(slot_at(place) + BITS_AT, &value.to_le_bytes()),
            Damage::ExportAllowed { place, value } => {
                set(slot_at(place) + EXPORT_ALLOWED_AT, &[value]);
            }
            Damage::VerifyAllowed { place, value } => {
                set(slot_at(place) + VERIFY_ALLOWED_AT, &[value]);
            }
            Damage::Uses { place, value } => set(slot_at(place) + USES_AT, &value.to_le_bytes()),
            Damage::CopyApplicationName { from, to } => {
                copy(registry, line_at(from), line_at(to), 65);
            }
            Damage::CopySlot { from, to } => {
                copy(registry, slot_at(from), slot_at(to), SLOT_SIZE);
            }
            Damage::CopyLine { from, to } => {
                copy(registry, line_at(from), line_at(to), LINE_SIZE);
            }
            Damage::ClearSlot { place } => set(slot_at(place), &[0; SLOT_SIZE]),
            Damage::ClearLine { line } => set(line_at(line), &[0; LINE_SIZE]),
            Damage::Resize { size } => registry.resize(size, 0),
        }
    }
}

fn copy(registry: &mut [u8], from: usize, to: usize, size: usize) {
    if from.max(to) + size <= registry.len() {
        registry.copy_within(from..from + size, to);
    }
}

// ---- roster files

/// A roster file of up to ten names; now and then one is no good, or not the first of its kind.
pub fn some_roster(random: &mut Random) -> Vec<u8> {
    let count = random.pick(&[0, 1, 2, 3, 7, 8, 8, 9, 10]);
    let slips = random.once_in(2);
    let mut names: Vec<Vec<u8>> = Vec::new();
    let mut file = Vec::new();
    for number in 0..count {
        let length = random.pick(&[1, 2, 3, 40, 63, 64]);
        let mut value = name(random, number, length);
        let mut tag = 1;
        match random.below(8) {
            0 if slips => tag = random.pick(&[0, 2, 0xFF]),
            1 if slips => value.resize(random.pick(&[0, 65, 256, 300]), b'n'),
            2 if slips => value[length / 2] = random.pick(&[0, 0x20, 0x21, 0x7E, 0x7F, 0xFF]),
            3 if slips && !names.is_empty() => value = random.pick(&names),
            _ => {}
        }
        file.extend(record(tag, &value));
        names.push(value);
    }
    file
}

// ---- bodies

/// A varint of exactly `length` bytes, up to ten, longer than needed if so asked.
pub fn long_varint(value: u64, length: usize) -> Vec<u8> {
    let mut bytes: Vec<u8> = (0..length)
        .map(|place| (value >> (7 * place)) as u8 | 0x80)
        .collect();
    bytes[length - 1] &= 0x7F;
    bytes
}

/// Most often the shortest varint.
pub fn some_varint(random: &mut Random, value: u64) -> Vec<u8> {
    let shortest = varint(value);
    if random.once_in(4) {
        let length = shortest.len() + random.below(11 - shortest.len());
        return long_varint(value, length);
    }
    shortest
}

/// Field numbers around the bounds: 0, those that some message lists, and the largest that a tag can hold.
const UNLISTED: [u64; 11] = [
    0,
    1,
    2,
    3,
    4,
    5,
    6,
    16,
    0x1FFF_FFFF,
    0x2000_0000,
    0x2000_0001,
];

/// One field, listed or not, of any wire type; whole more often than not, groups too.
fn field(random: &mut Random, kinds: &[u64]) -> Vec<u8> {
    let listed = !kinds.is_empty() && !random.once_in(12);
    let (number, wire) = if listed {
        let place = random.below(kinds.len());
        (place as u64 + 1, kinds[place])
    } else {
        (random.pick(&UNLISTED), random.below(8) as u64)
    };
    if wire == START_GROUP && !random.once_in(4) {
        return whole_field(random, number, wire);
    }
    let tag = some_varint(random, number << 3 | wire);
    let content = match wire {
        0 => {
            let value = random.number();
            some_varint(random, value)
        }
        1 => random.bytes(8),
        2 => {
            let length = random.pick(&[0, 1, 1, 2, 3, 32, 33, 127, 128, 600]);
            let bytes = random.bytes(length);
            // A length that is not theirs most often makes a cut field.
            let length = match random.below(16) {
                0 => random.number(),
                _ => length as u64,
            };
            [some_varint(random, length), bytes].concat()
        }
        5 => random.bytes(4),
        _ => Vec::new(),
    };
    [tag, content].concat()
}

/// A message whose fields number 1, 2, .. have these wire types, with slips now and then.
pub fn message(random: &mut Random, wire_types: &[u64]) -> Vec<u8> {
    let count = random.pick(&[0, 1, 1, 2, 3, 5, 7]);
    (0..count).flat_map(|_| field(random, wire_types)).collect()
}

/// An Import that is allowed more often than not.
pub fn import_message(random: &mut Random) -> Vec<u8> {
    let key = importable_key(random, 0);
    let name = random.pick(&[key.name.clone(), key.name, vec![b'n'; 33], b"a b".to_vec()]);
    let bits = random.pick(&[2_048, 3_072, 4_096, 1 << 32 | 2_048, 1_024, 2_056, 4_104]);
    let flags = [random.number(), u64::from(key.export_allowed)];
    let mut fields = vec![
        bytes_field(1, &name),
        bytes_field(2, &key.data),
        [vec![0x18], some_varint(random, bits)].concat(),
        [vec![0x20], some_varint(random, flags[0])].concat(),
        [vec![0x28], some_varint(random, flags[1])].concat(),
    ];
    if random.once_in(4) {
        fields.push(random.pick(&fields));
    }
    if random.once_in(4) {
        fields.remove(random.below(5));
    }
    random.shuffle(&mut fields);
    fields.concat()
}

/// Bytes with one change: a bit, a byte left out or put in, or the end cut off.
pub fn mutated(random: &mut Random, mut bytes: Vec<u8>) -> Vec<u8> {
    let at = random.below(bytes.len() + 1);
    match random.below(4) {
        0 if at < bytes.len() => bytes[at] ^= 1 << random.below(8),
        1 if at < bytes.len() => {
            bytes.remove(at);
        }
        2 => bytes.truncate(at),
        _ => bytes.insert(at, random.byte()),
    }
    bytes
}
