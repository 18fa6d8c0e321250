//! Message bodies that the compiled leaf reads, held to the oracle.

use crate::foreign::{self, Schema, Value};
use crate::oracle;

impl Schema {
    pub const ALL: [Schema; 4] = [
        Schema::NoFields,
        Schema::ListOpcodes,
        Schema::Import,
        Schema::Name,
    ];

    /// Of its fields number 1, 2, ..
    pub fn wire_types(self) -> &'static [u64] {
        match self {
            Schema::NoFields => &[],
            Schema::ListOpcodes => &[0],
            Schema::Import => &[2, 2, 0, 0, 0],
            Schema::Name => &[2],
        }
    }
}

/// Does the leaf find the values, or the place of the first unreadable field, of the oracle?
pub fn is_read_as_the_oracle_reads_it(body: &[u8], schema: Schema) -> bool {
    match (
        foreign::read_body(body, schema),
        oracle::read_body(body, schema),
    ) {
        (Ok(values), Ok(expected)) => values.iter().zip(expected).all(|(value, expected)| {
            bytes_of(body, value) == expected.bytes && value.number == expected.number
        }),
        (Err(place), Err(expected)) => place == expected,
        _ => false,
    }
}

pub fn bytes_of<'a>(body: &'a [u8], value: &Value) -> &'a [u8] {
    &body[value.start..][..value.length]
}
