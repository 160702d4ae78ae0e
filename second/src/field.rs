//! The fields of a header that can hold a dead byte (document 01, Numbered
//! answers). The byte that should end a field belongs to it.

#[derive(Clone, Copy, Debug, PartialEq, Eq, PartialOrd, Ord, Hash)]
pub enum Field {
    /// "PROXY" and a space, or the signature.
    Opening = 1,
    ProtocolWord = 2,
    Address = 3,
    Port = 4,
    /// The LF behind a CR that must end the line, or the rest of an UNKNOWN line.
    LineEnd = 5,
    VersionAndCommand = 6,
    FamilyAndTransport = 7,
    Length = 8,
    Tlv = 9,
}

impl Field {
    /// The number of a refusal in this field.
    pub fn number(self) -> u8 {
        self as u8
    }
}
