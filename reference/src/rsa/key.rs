//! RSAPublicKey in strict DER, and the keys that are supported.
//! RFC 8017, appendix A.1.1; document 02, "Checking signatures".

/// The numbers of a supported key.
#[derive(Clone, Copy, Debug, PartialEq, Eq)]
pub struct PublicKey<'a> {
    /// Big-endian, its first byte not zero.
    pub modulus: &'a [u8],
    pub exponent: u32,
}

const SEQUENCE: u8 = 0x30;
const INTEGER: u8 = 0x02;

impl PublicKey<'_> {
    /// An odd modulus of exactly these bits and an odd exponent from 3 to 2^32 - 1; none for any
    /// other data.
    pub fn read(data: &[u8], bits: u32) -> Option<PublicKey<'_>> {
        let (modulus, exponent) = read_rsa_public_key(data)?;
        let exponent = to_u32(exponent)?;
        let is_supported = is_odd(modulus)
            && bit_length(modulus) == bits as usize
            && exponent >= 3
            && !exponent.is_multiple_of(2);
        is_supported.then_some(PublicKey { modulus, exponent })
    }
}

/// How many bits the modulus of an RSAPublicKey has; 0 for other data.
pub fn modulus_bits(data: &[u8]) -> u32 {
    read_rsa_public_key(data).map_or(0, |(modulus, _)| bit_length(modulus) as u32)
}

/// The magnitudes of modulus and exponent: SEQUENCE { modulus INTEGER, publicExponent INTEGER }.
fn read_rsa_public_key(data: &[u8]) -> Option<(&[u8], &[u8])> {
    let (sequence, behind) = read_element(data, SEQUENCE)?;
    let (modulus, rest) = read_integer(sequence)?;
    let (exponent, rest) = read_integer(rest)?;
    (behind.is_empty() && rest.is_empty()).then_some((modulus, exponent))
}

/// The magnitude of an INTEGER without its leading zero, empty for 0, and what lies behind it. One
/// that is negative, or has a zero more than it needs, is none.
fn read_integer(bytes: &[u8]) -> Option<(&[u8], &[u8])> {
    let (content, behind) = read_element(bytes, INTEGER)?;
    let magnitude = match content {
        [0] => &[],
        [0, magnitude @ ..] if magnitude[0] >= 0x80 => magnitude,
        [1..=0x7F, ..] => content,
        _ => return None,
    };
    Some((magnitude, behind))
}

/// The content of an element with this tag, and what lies behind it.
fn read_element(bytes: &[u8], tag: u8) -> Option<(&[u8], &[u8])> {
    let (&first, rest) = bytes.split_first()?;
    let (length, rest) = read_length(rest)?;
    let element = rest.split_at_checked(length)?;
    (first == tag).then_some(element)
}

/// A definite length in its shortest form, and what lies behind it.
fn read_length(bytes: &[u8]) -> Option<(usize, &[u8])> {
    let (&first, rest) = bytes.split_first()?;
    if first < 0x80 {
        return Some((first.into(), rest));
    }
    let (octets, rest) = rest.split_at_checked(usize::from(first & 0x7F))?;
    let length = to_u32(octets)?;
    let is_shortest = length >= 0x80 && octets[0] != 0;
    is_shortest.then_some((length as usize, rest))
}

/// A big-endian number of at most four bytes.
fn to_u32(octets: &[u8]) -> Option<u32> {
    if octets.len() > 4 {
        return None;
    }
    let number = octets
        .iter()
        .fold(0, |number, &octet| number << 8 | u32::from(octet));
    Some(number)
}

fn is_odd(number: &[u8]) -> bool {
    number.last().is_some_and(|octet| octet % 2 == 1)
}

/// Of a big-endian number whose first byte is not zero.
fn bit_length(number: &[u8]) -> usize {
    let zeros = number.first().map_or(0, |octet| octet.leading_zeros());
    8 * number.len() - zeros as usize
}

#[cfg(test)]
mod tests {
    use super::*;

    #[test]
    fn lengths_are_read_in_their_shortest_form_only() {
        assert_eq!(read_length(&[0x00]), Some((0, &[][..])));
        assert_eq!(read_length(&[0x7F, 9]), Some((127, &[9][..])));
        assert_eq!(read_length(&[0x81, 0x80, 9]), Some((128, &[9][..])));
        assert_eq!(read_length(&[0x82, 0x01, 0x00]), Some((256, &[][..])));
        for long in [
            &[0x80][..],
            &[0x81],
            &[0x81, 0x7F],
            &[0x82, 0x00, 0xFF],
            &[0x82, 0x01],
            &[0x85, 0x00, 0x00, 0x00, 0x01, 0x00],
            &[0xFF],
            &[],
        ] {
            assert_eq!(read_length(long), None, "{long:X?}");
        }
    }

    #[test]
    fn integers_have_the_zero_that_they_need_and_no_other() {
        let magnitude = |bytes| read_integer(bytes).map(|(magnitude, _)| magnitude);
        assert_eq!(magnitude(&[2, 1, 0]), Some(&[][..]));
        assert_eq!(magnitude(&[2, 1, 0x7F]), Some(&[0x7F][..]));
        assert_eq!(magnitude(&[2, 2, 0, 0x80]), Some(&[0x80][..]));
        for bad in [
            &[2, 0][..],
            &[2, 1, 0x80],
            &[2, 2, 0, 0x7F],
            &[2, 2, 0, 0],
            &[2, 3, 0, 0, 0x80],
            &[2, 1],
            &[3, 1, 1],
        ] {
            assert_eq!(magnitude(bad), None, "{bad:X?}");
        }
    }

    #[test]
    fn bits_of_a_number_are_counted_from_its_highest_set_one() {
        assert_eq!(bit_length(&[]), 0);
        assert_eq!(bit_length(&[1]), 1);
        assert_eq!(bit_length(&[0x7F, 0]), 15);
        assert_eq!(bit_length(&[0x80, 0]), 16);
    }
}
