//! The work of the proved archive (`seg2`) as plain Rust does it, written for speed, and
//! the clock that both are held against; the files are the reference's. `tests/plain.rs`
//! shows that the plain side gives the reference's answers, or the archive's own.

pub mod files;
pub mod plain;
pub mod plain_file;
pub mod plain_lenient;
pub mod plain_number;
pub mod plain_quick;
pub mod processor;
pub mod time;
