//! What a registry holds, read where it lies: docs/LAYOUT.md, "Registry memory".

use crate::{LINES, REGISTRY_SIZE};

/// How many keys an application may have.
pub const SLOTS: usize = 8;

const LINE_SIZE: usize = REGISTRY_SIZE / LINES;
const SLOTS_START: usize = 65;
const SLOT_SIZE: usize = 643;

/// An application on the roster, and its keys.
#[derive(Clone, Debug, PartialEq, Eq)]
pub struct Application<'a> {
    /// 1 to 64 bytes, each 0x21 to 0x7E.
    pub name: &'a [u8],
    /// Its slots, slot 0 first; a free one is `None`.
    pub slots: [Option<Key<'a>>; SLOTS],
}

/// A key that an application keeps.
#[derive(Clone, Debug, PartialEq, Eq)]
pub struct Key<'a> {
    /// 1 to 32 bytes, each 0x21 to 0x7E.
    pub name: &'a [u8],
    /// 1 to 600 bytes.
    pub data: &'a [u8],
    /// 2,048, 3,072 or 4,096; of a key that was imported by an earlier version any multiple of 8 from
    /// 1,024 to 4,096. With such a key Verify answers 1134.
    pub bits: u16,
    /// May it be exported?
    pub export_allowed: bool,
    /// May it be used to verify?
    pub verify_allowed: bool,
    /// Export and verify requests served with it since it was imported; it stays at [`u32::MAX`] once
    /// there.
    pub uses: u32,
}

/// The used lines of a well-formed registry, which come first.
pub(crate) fn applications(registry: &[u8]) -> impl Iterator<Item = Application<'_>> {
    registry.chunks_exact(LINE_SIZE).map_while(application)
}

fn application(line: &[u8]) -> Option<Application<'_>> {
    let (head, slots) = line.split_at(SLOTS_START);
    let mut keys = slots.chunks_exact(SLOT_SIZE).map(key);
    Some(Application {
        name: name(head)?,
        slots: std::array::from_fn(|_| keys.next().expect("a line has eight slots")),
    })
}

fn key(slot: &[u8]) -> Option<Key<'_>> {
    let number = |at: usize| u16::from_le_bytes([slot[at], slot[at + 1]]);
    Some(Key {
        name: name(slot)?,
        data: &slot[35..][..number(33).into()],
        bits: number(635),
        export_allowed: slot[637] == 1,
        verify_allowed: slot[638] == 1,
        uses: u32::from_le_bytes([slot[639], slot[640], slot[641], slot[642]]),
    })
}

/// The name whose length stands in the first byte; a length of 0 says that there is none.
fn name(bytes: &[u8]) -> Option<&[u8]> {
    let (&length, rest) = bytes.split_first()?;
    (length > 0).then(|| &rest[..length.into()])
}

#[cfg(test)]
mod tests {
    use crate::{IllFormed, Registry, REGISTRY_SIZE};

    /// Two applications; the second has a key in its last slot, with the longest name and data.
    fn memory() -> Vec<u8> {
        let registry = Registry::load(b"\x01\x01\x00a\x01\x02\x00bc").expect("a good roster");
        let mut memory = registry.memory().to_vec();
        let slot = &mut memory[5_209 + 65 + 7 * 643..][..643];
        slot[0] = 32;
        slot[1..33].fill(b'k');
        slot[33..35].copy_from_slice(&600_u16.to_le_bytes());
        slot[35..635].fill(0xD0);
        slot[635..637].copy_from_slice(&4_096_u16.to_le_bytes());
        slot[638] = 1;
        slot[639..].copy_from_slice(&0x0403_0201_u32.to_le_bytes());
        memory
    }

    #[test]
    fn a_key_is_listed_in_its_slot() {
        let registry = Registry::from_bytes(&memory()).expect("a well-formed registry");
        let listed: Vec<_> = registry.applications().collect();
        assert_eq!(listed.len(), 2);
        assert_eq!(
            (listed[0].name, &listed[0].slots),
            (&b"a"[..], &[const { None }; 8])
        );
        assert_eq!(listed[1].name, b"bc");
        let [None, None, None, None, None, None, None, Some(key)] = &listed[1].slots else {
            panic!("{:?}", listed[1]);
        };
        assert_eq!((key.name, key.data), (&[b'k'; 32][..], &[0xD0; 600][..]));
        assert_eq!(key.bits, 4_096);
        assert_eq!((key.export_allowed, key.verify_allowed), (false, true));
        assert_eq!(key.uses, 0x0403_0201);
    }

    #[test]
    fn saved_bytes_are_the_same_registry() {
        let registry = Registry::from_bytes(&memory()).expect("a well-formed registry");
        assert_eq!(registry.memory(), memory());
        assert_eq!(Registry::from_bytes(registry.memory()), Ok(registry));
    }

    #[test]
    fn eight_full_names_are_listed_in_their_order() {
        let names: Vec<_> = (b'0'..b'8').map(|digit| [digit; 64]).collect();
        let records = names
            .iter()
            .map(|name| [b"\x01\x40\x00", &name[..]].concat());
        let roster: Vec<u8> = records.flatten().collect();
        let registry = Registry::load(&roster).expect("a good roster");
        assert!(registry.applications().map(|listed| listed.name).eq(&names));
    }

    #[test]
    fn bytes_that_are_no_registry_are_refused() {
        let whole = memory();
        for size in [0, 1, REGISTRY_SIZE - 1] {
            assert_eq!(Registry::from_bytes(&whole[..size]), Err(IllFormed));
        }
        assert_eq!(
            Registry::from_bytes(&[&whole[..], &[0]].concat()),
            Err(IllFormed)
        );
        // A space in a name, a byte behind one, a third flag, a count in a free slot, a key on an
        // unused line.
        let slot = 5_209 + 65 + 7 * 643;
        for (place, byte) in [
            (1, b' '),
            (2, b'x'),
            (slot + 637, 2),
            (slot - 1, 1),
            (2 * 5_209 + 65, 1),
        ] {
            let mut changed = whole.clone();
            changed[place] = byte;
            assert_eq!(
                Registry::from_bytes(&changed),
                Err(IllFormed),
                "byte {place}"
            );
        }
    }
}
