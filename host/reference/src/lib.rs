//! An independent SEG-2 reader and writer.
//!
//! It is written from the documents alone: document 01 ("What is required and
//! the exact rules") decides, with what document 02 ("What customers request later")
//! adds; the 1990 paper (document 001) stands behind it.
//! It is a yardstick: right and readable first, fast never. Comments name the
//! section of the document, or the row of the refusal table, that they carry out.
//! It shares no code with the proved library, its wrapper (`seg2`) or the plain Rust of
//! the benchmarks: what looks alike there stays apart, or a comparison would say nothing.
//!
//! Beside the reader and writer stand what tests are made of: inputs with known answers,
//! drawn from a seed ([`generate`]) or worked out by hand ([`worked`]).
//!
//! Every function of the reader and the writer is total. It answers for any
//! buffer, any length beside it, any part, index, code or text, and never panics.
//! After a refusal all memory that the caller lent is as it was.
#![forbid(unsafe_code)]

pub mod channel;
pub mod check;
pub mod generate;
pub mod lenient;
pub mod listing;
pub mod number;
pub mod questions;
pub mod quick;
pub mod refusal;
pub mod samples;
pub mod sheet;
pub mod strings;
pub mod words;
pub mod worked;
pub mod write;

pub use channel::{is_channel_number, CHANNEL_NUMBER};
pub use check::{check, check_for_addition, check_in, File, Trace, MAXIMUM_LENGTH};
pub use lenient::{
    lenient_bits, lenient_check, lenient_double, lenient_file_block, lenient_integers,
    lenient_keyword, lenient_keyword_string, lenient_location, lenient_number, lenient_string,
    lenient_string_count, lenient_strings, lenient_trace_block, lenient_value, Lenient,
};
pub use listing::{listing, listing_program, LISTING_MAXIMUM};
pub use number::{double, location, number, write_number, Location, Number};
pub use questions::{
    all_strings, file_block, keyword, keyword_string, keyword_value, note_lines, samples_as_bits,
    samples_as_integers, string, string_count, trace_block, Checked, FileBlock,
};
pub use quick::{
    quick_bits, quick_double, quick_integers, quick_keyword, quick_location, quick_number,
    quick_read, quick_search, quick_string, quick_string_count, quick_strings, quick_trace_block,
    quick_value, Question, Search,
};
pub use refusal::{is_of_check, Refusal, ALL};
pub use strings::{Manner, StringPlace};
pub use words::Order;
pub use write::{
    add, add_bits, add_integers, add_size, file_of, start, start_size, Row, TraceGiven,
};
