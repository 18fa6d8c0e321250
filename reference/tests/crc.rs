//! CRC-32 against published values and against the division of polynomials that it stands for.
//! Document 02, "Surviving a power cut".

mod common;

use common::generate::Random;
use reference::crc32;

/// The remainder of a division bit by bit, in the polynomial's own order: x^32 to x^0 from the left.
fn remainder(bytes: &[u8]) -> u32 {
    const POLYNOMIAL: u64 = 0x1_04C1_1DB7;
    // The first bit of a byte is its lowest; the first 32 are inverted, and 32 zeros come behind.
    let bits = bytes
        .iter()
        .flat_map(|byte| (0..8).map(move |place| byte >> place & 1));
    let inverted = bits.chain([0; 32]).enumerate();
    let inverted = inverted.map(|(place, bit)| bit ^ u8::from(place < 32));
    let divided = inverted.fold(0_u64, |rest, bit| {
        let rest = rest << 1 | u64::from(bit);
        rest.min(rest ^ POLYNOMIAL)
    });
    !(divided as u32).reverse_bits()
}

#[test]
fn the_published_check_value_is_cbf43926() {
    assert_eq!(crc32(b"123456789"), 0xCBF4_3926);
}

#[test]
fn published_values_of_other_texts_are_given() {
    let texts: [(&[u8], u32); 9] = [
        (b"", 0x0000_0000),
        (b"a", 0xE8B7_BE43),
        (b"abc", 0x3524_41C2),
        (b"message digest", 0x2015_9D7F),
        (b"abcdefghijklmnopqrstuvwxyz", 0x4C27_50BD),
        (b"The quick brown fox jumps over the lazy dog", 0x414F_A339),
        (&[0; 32], 0x190A_55AD),
        (&[0xFF; 32], 0xFF6C_AB0B),
        (&[0, 0, 0, 0], 0x2144_DF1C),
    ];
    for (text, value) in texts {
        assert_eq!(crc32(text), value, "{text:X?}");
    }
}

#[test]
fn every_byte_and_every_pair_of_bytes_gives_the_remainder() {
    for first in 0..=u8::MAX {
        assert_eq!(crc32(&[first]), remainder(&[first]));
        for second in 0..=u8::MAX {
            let pair = [first, second];
            assert_eq!(crc32(&pair), remainder(&pair));
        }
    }
}

#[test]
fn generated_bytes_of_every_length_to_700_give_the_remainder() {
    for length in 0..=700 {
        let bytes = Random::new(length as u64).bytes(length);
        assert_eq!(crc32(&bytes), remainder(&bytes), "length {length}");
    }
}
