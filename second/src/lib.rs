//! An independent judge and writer of PROXY protocol headers, versions 1 and 2.
//!
//! The judge answers as document 01 demands: accepted exactly if some prefix of the
//! bytes is a whole header; more exactly if none is, but some continuation
//! begins with one, with the fewest bytes that such a one adds (document 02,
//! K10); else refused at the first dead byte, with the number of the field that
//! holds it.
//!
//! What a whole header is stands here twice, both times without the judge:
//!
//! - `grammar` writes the text line and the first sixteen bytes of version 2
//!   as expressions over byte strings, and `tlv` tells which numbers of bytes
//!   TLVs can fill. Which bytes are dead is computed from these by
//!   reachability, and how few bytes are missing by a search; no rule about
//!   either is written down.
//! - `whole` takes given bytes apart and tells whether they are a whole
//!   header, and with which values. An accepted header gets its values here.
//!
//! The writers and the stored form build all bytes first and then write them,
//! or refuse. Stored forms (document 02, K7) are read by a list of all they can
//! begin with. TLVs are looked into by their list, which is found from the area's
//! end.
//!
//! The checksum (document 02, K6) is the remainder of a division, bit by bit, of
//! a copy of the header with zeros in place of the value.
//!
//! What a TLS front end says in TLV 0x20 (document 02, K2) is found in the list of
//! the sub-TLVs there, for one type after the other.
//!
//! The profile of diagnostics (document 02, K14) takes each prefix of its table as
//! a range of addresses; the smallest that holds the source gives the level.

mod address_block;
pub mod cases;
mod checked;
mod checksum;
mod crc32c;
mod field;
mod fixed_bytes;
mod grammar;
mod judge;
mod lookup;
mod output;
mod prefix_table;
mod profile;
mod record;
mod refusal;
mod ssl;
mod stored;
mod tlv;
mod tlv_area;
mod unused;
mod verdict;
mod whole;
mod write;

pub use checked::{checked, judge_checked};
pub use crc32c::crc32c;
pub use judge::{judge, Judge};
pub use lookup::{lookup, Answer, Lookup};
pub use profile::{admit, Admission};
pub use record::{Checksum, Kind, Record, Transport};
pub use ssl::{read_ssl, write_ssl, Ssl};
pub use stored::{back, forward, load, store, StoredVersion};
pub use tlv_area::{next, step, tlv_list, Step};
pub use verdict::{Header, Verdict};
pub use whole::whole_header;
pub use write::{write_v1, write_v2, write_v2_checked};
