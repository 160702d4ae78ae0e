//! What the judge answers, what is written and stored, what is seen in TLVs, and
//! what the profile admits. The expected answers are written by hand from
//! documents 01 and 02; none is taken from a program under comparison.

mod admissions;
mod binary_block;
mod checked_headers;
mod checked_readings;
mod checksums;
mod crc32c;
mod definition;
mod fewest_bytes;
mod forms;
mod helpers;
mod lookup;
mod moved_forms;
mod prefix_table;
mod profile;
mod program;
mod slips;
mod source_documents;
mod ssl;
mod ssl_examples;
mod stored_form;
mod text_line;
mod tlv_area;
mod tlv_list;
mod whole_headers;
mod worked_table;
mod written_headers;
mod written_lines;
mod written_ssl;
