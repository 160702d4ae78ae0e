//! Sets of byte values.

#[derive(Clone, Copy, Debug, PartialEq, Eq, PartialOrd, Ord, Hash)]
pub struct ByteSet([u64; 4]);

impl ByteSet {
    /// The bytes for which `belongs` holds.
    pub fn of(belongs: impl Fn(u8) -> bool) -> ByteSet {
        let mut words = [0; 4];
        for byte in (0..=0xFF).filter(|&byte| belongs(byte)) {
            words[usize::from(byte) / 64] |= 1 << (byte % 64);
        }
        ByteSet(words)
    }

    pub fn contains(self, byte: u8) -> bool {
        self.0[usize::from(byte) / 64] >> (byte % 64) & 1 == 1
    }

    pub fn is_empty(self) -> bool {
        self.0 == [0; 4]
    }
}
