//! The second body format: one-byte tag, the field's number, two-byte length, value.
//! Document 02, "A second body format".

use crate::message::{Kind, Unreadable, Value};
use crate::records::split_record;

/// An entry of a list, and an integer.
const NUMBER_LENGTH: usize = 4;

/// Reads strictly: fields ascend, each at most once, every one listed, and none has a zero value.
pub fn read<'a>(
    body: &'a [u8],
    kinds: &[Kind],
    values: &mut [Value<'a>],
) -> Result<(), Unreadable> {
    let mut rest = body;
    let mut last = 0;
    while !rest.is_empty() {
        let unreadable = Unreadable {
            at: body.len() - rest.len(),
        };
        let (record, behind) = split_record(rest).ok_or(unreadable)?;
        if record.tag <= last {
            return Err(unreadable);
        }
        let place = usize::from(record.tag - 1);
        let kind = kinds.get(place).ok_or(unreadable)?;
        values[place] = read_value(*kind, record.value).ok_or(unreadable)?;
        last = record.tag;
        rest = behind;
    }
    Ok(())
}

/// None for a length that the kind has not, and for a zero value, which is to be left out.
fn read_value(kind: Kind, value: &[u8]) -> Option<Value<'_>> {
    match kind {
        Kind::Uint32 => {
            let number = u32::from_le_bytes(value.try_into().ok()?);
            (number != 0).then_some(Value::Number(number.into()))
        }
        Kind::Bool => (value == [1]).then_some(Value::Number(1)),
        Kind::Bytes => (!value.is_empty()).then_some(Value::Bytes(value)),
        Kind::List => {
            let is_list = !value.is_empty() && value.len().is_multiple_of(NUMBER_LENGTH);
            is_list.then_some(Value::Bytes(value))
        }
    }
}

/// The entries of a list; one of them may be 0.
pub fn entries(list: &[u8]) -> Vec<u32> {
    list.chunks_exact(NUMBER_LENGTH)
        .map(|entry| {
            entry
                .iter()
                .rfold(0, |number, &byte| number << 8 | u32::from(byte))
        })
        .collect()
}
