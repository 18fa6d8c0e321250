//! How a body is written: document 02, "A second body format".

/// The format of a body. A request has one for its own body, its content type, and asks for one in
/// the response, its accept type.
///
/// ```
/// use razidkot_client::BodyFormat;
///
/// assert_eq!(BodyFormat::default(), BodyFormat::Protobuf);
/// assert_eq!(BodyFormat::from_number(2), Some(BodyFormat::Tagged));
/// assert_eq!(BodyFormat::from_number(3), None);
/// ```
#[derive(Clone, Copy, Debug, Default, PartialEq, Eq, PartialOrd, Ord, Hash)]
#[repr(u8)]
pub enum BodyFormat {
    /// Protocol Buffers.
    #[default]
    Protobuf = 1,
    /// Tagged records: a byte of tag, which is the field's number, two of length, and the value.
    Tagged = 2,
}

impl BodyFormat {
    /// Both formats, ascending.
    pub const ALL: [BodyFormat; 2] = [BodyFormat::Protobuf, BodyFormat::Tagged];

    /// The number on the wire.
    pub fn number(self) -> u8 {
        self as u8
    }

    /// The format of this content or accept type, if there is one.
    pub fn from_number(number: u8) -> Option<BodyFormat> {
        Self::ALL
            .into_iter()
            .find(|format| format.number() == number)
    }
}
