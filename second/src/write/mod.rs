//! Headers written from a record: the refusals in their order, then the bytes.

mod binary_header;
mod checked_header;
mod text_line;

pub use binary_header::write_v2;
pub use checked_header::write_v2_checked;
pub use text_line::write_v1;
