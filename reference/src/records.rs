//! A file of tagged fields: tag (1 byte), length (2, little-endian), value.
//! Document 01, "Roster, registry, connection, tally", the first paragraph.

pub struct Record<'a> {
    pub tag: u8,
    pub value: &'a [u8],
}

/// The first record and the bytes behind it, unless the record is cut.
pub fn split_record(file: &[u8]) -> Option<(Record<'_>, &[u8])> {
    let (&[tag, low, high], rest) = file.split_first_chunk()?;
    let length = u16::from_le_bytes([low, high]);
    let (value, behind) = rest.split_at_checked(length.into())?;
    Some((Record { tag, value }, behind))
}
