//! CRC-32: reflected polynomial 0xEDB88320, register begun at all ones and inverted at the end.
//! Document 02, "Surviving a power cut".

const POLYNOMIAL: u32 = 0xEDB8_8320;

/// The register before the first byte.
pub const FRESH_REGISTER: u32 = u32::MAX;

/// The register behind bytes and their own CRC; behind any other four bytes it is another.
pub const RESIDUE: u32 = 0xDEBB_20E3;

/// Made by the compiler from the bitwise rule, so that a long journal is read in good time.
static TABLE: [u32; 256] = {
    let mut table = [0; 256];
    let mut byte = 0;
    while byte < table.len() {
        table[byte] = after_eight_bits(byte as u32);
        byte += 1;
    }
    table
};

pub fn crc32(bytes: &[u8]) -> u32 {
    !register_after(FRESH_REGISTER, bytes)
}

/// The register after these bytes more.
pub fn register_after(register: u32, bytes: &[u8]) -> u32 {
    bytes.iter().fold(register, |register, &byte| {
        TABLE[usize::from(register as u8 ^ byte)] ^ register >> 8
    })
}

/// The bitwise rule: the lowest bit goes out, and takes the polynomial with it if it was set.
const fn after_eight_bits(mut register: u32) -> u32 {
    let mut bits = 0;
    while bits < 8 {
        let out = register & 1;
        register >>= 1;
        if out == 1 {
            register ^= POLYNOMIAL;
        }
        bits += 1;
    }
    register
}
