//! Little-endian numbers in byte slices, and the test for unused bytes.
//! Document 01, "Bytes on the wire" and "Roster, registry, connection, tally".

/// No stretch that is tested is longer than the registry, nor is the connection.
static ZEROS: [u8; crate::REGISTRY_SIZE] = [0; crate::REGISTRY_SIZE];

/// Compares with zeros as a whole, since every call tests some 40,000 unused bytes.
pub fn is_zero(bytes: &[u8]) -> bool {
    bytes == &ZEROS[..bytes.len()]
}

pub fn read_u16(bytes: &[u8], at: usize) -> u16 {
    u16::from_le_bytes(array_at(bytes, at))
}

pub fn read_u32(bytes: &[u8], at: usize) -> u32 {
    u32::from_le_bytes(array_at(bytes, at))
}

pub fn read_u64(bytes: &[u8], at: usize) -> u64 {
    u64::from_le_bytes(array_at(bytes, at))
}

/// Writes `value` at `at` and leaves every other byte alone.
pub fn write_at(bytes: &mut [u8], at: usize, value: &[u8]) {
    bytes[at..at + value.len()].copy_from_slice(value);
}

fn array_at<const N: usize>(bytes: &[u8], at: usize) -> [u8; N] {
    let mut array = [0; N];
    array.copy_from_slice(&bytes[at..at + N]);
    array
}
