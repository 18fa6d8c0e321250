//! Connection memory from a seed: what a stream leaves, and one change of it.

use crate::ask::request;
use crate::generate::Random;
use reference::rules::{self, ConnectionState};
use reference::CONNECTION_SIZE;

/// A header with this H and these lengths, good or not, and bytes behind it.
fn some_stream(random: &mut Random) -> Vec<u8> {
    let mut stream = request(random.pick(&[1, 3, 6]), None, &[]);
    let header_size = random.pick(&[22_u16, 22, 22, 23, 63, 64]);
    stream[4..6].copy_from_slice(&header_size.to_le_bytes());
    let content_length = random.pick(&[0, 1, 30, 4_095, 4_096, 4_096, 4_097, 70_000, u32::MAX]);
    stream[20..24].copy_from_slice(&content_length.to_le_bytes());
    let auth_length = random.pick(&[0, 1, 256, 256, 257, u16::MAX]);
    stream[24..26].copy_from_slice(&auth_length.to_le_bytes());
    if random.once_in(10) {
        stream[random.below(6)] ^= 1;
    }
    let behind = random.pick(&[0, 10, 100, 4_500, 80_000]);
    stream.extend(random.bytes(behind));
    // Often just before, at or behind the end of the request.
    let length = 6 + u64::from(header_size) + u64::from(content_length) + u64::from(auth_length);
    let cut = match random.below(3) {
        0 => random.below(80),
        1 => usize::try_from(length).unwrap_or(usize::MAX) - random.below(3),
        _ => random.below(stream.len() + 1),
    };
    stream.truncate(cut);
    stream
}

/// The connection that the reference leaves behind a stream.
pub fn some_connection(random: &mut Random, registry: &[u8]) -> ConnectionState {
    rules::run(registry, &some_stream(random)).connection
}

/// One change; most make it ill formed.
pub fn damage(random: &mut Random, connection: &mut Vec<u8>) {
    let bit = 1 << random.below(8);
    match random.below(8) {
        0 => connection[0] = random.pick(&[0, 1, 2, 3, 0xFF]),
        1 => connection[1 + random.below(8)] ^= bit,
        2 => {
            let count = u64::from_le_bytes(connection[1..9].try_into().expect("eight bytes"));
            let count = match random.below(5) {
                0 => count.wrapping_add(1),
                1 => count.wrapping_sub(1),
                2 => 0,
                3 => count.saturating_add(random.below(5_000) as u64),
                _ => random.word(),
            };
            connection[1..9].copy_from_slice(&count.to_le_bytes());
        }
        3 => connection[9 + random.below(28)] ^= bit,
        4 => connection[9 + random.below(70)] ^= bit,
        5 => connection.resize(random.pick(&[0, 9, 4_430, 4_432, 8_862]), 0),
        _ => connection[random.below(CONNECTION_SIZE)] ^= bit,
    }
}
