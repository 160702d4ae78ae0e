//! The checked reading (document 02, K6): the verdict, and once a header is
//! accepted its checksum.

use crate::checksum::checksum_in;
use crate::judge::judge;
use crate::verdict::Verdict;

/// The verdict on `bytes` with the checksum state of an accepted header, or 23 if
/// its checksum is wrong.
pub fn judge_checked(bytes: &[u8]) -> Result<Verdict, u8> {
    checked(bytes, judge(bytes))
}

/// The same from the verdict that the judge has on `bytes`.
pub fn checked(bytes: &[u8], verdict: Verdict) -> Result<Verdict, u8> {
    let Verdict::Accepted(mut header) = verdict else {
        return Ok(verdict);
    };
    let area = header.tlv_area.clone();
    header.record.checksum = checksum_in(&bytes[..header.length], area)?;
    Ok(Verdict::Accepted(header))
}
