//! The lent output: all of `bytes` or nothing is written to it.

use crate::refusal::OUTPUT_TOO_SHORT;

/// Writes `bytes` at the start of `out` and gives their number.
pub fn write_whole(bytes: &[u8], out: &mut [u8]) -> Result<usize, u8> {
    let room = out.get_mut(..bytes.len()).ok_or(OUTPUT_TOO_SHORT)?;
    room.copy_from_slice(bytes);
    Ok(bytes.len())
}
