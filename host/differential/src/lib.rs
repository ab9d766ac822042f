//! The proved archive beside the independent reader and writer.
//!
//! One comparison serves the tests and the fuzzer. A [`Case`] is all that a run of
//! calls depends on, so it can be saved and run again. Each call goes to the archive
//! and to the reference; compared are the whole answer (doubles by their bits), all
//! lent memory, and a pattern before and behind each lent piece.
//!
//! - [`answer`]: the answers in one form.
//! - [`lent`]: lent memory inside larger pieces.
//! - [`call`]: the calls, and the archive as Rust calls it.
//! - [`expected`]: the same calls answered by the reference.
//! - [`pair`]: both beside each other.
//! - [`asking`], [`growing`]: every question about a buffer; files that grow.
//! - [`numbering`]: numbers and their texts.
//! - [`case`], [`text`]: cases, and cases as text.
//! - [`draw`]: random cases.
//! - [`run`]: many cases from a seed.
//! - [`shrink`]: a smaller case with a difference.
//! - `guarded`: lent memory beside pages that cannot be touched (Linux).
//! - [`questions`]: the questions of one trace as one table.
//! - [`flips`]: bytes changed that a question of one trace does not look at.
//! - [`spoiled`], [`channels`], [`quick`], [`lenient`]: libraries with one fault, which the
//!   comparison has to notice.

pub mod answer;
pub mod asking;
pub mod call;
pub mod case;
pub mod channels;
pub mod draw;
pub mod expected;
pub mod flips;
pub mod growing;
#[cfg(target_os = "linux")]
pub mod guarded;
pub mod lenient;
pub mod lent;
pub mod numbering;
pub mod pair;
pub mod questions;
pub mod quick;
pub mod run;
pub mod shrink;
pub mod spoiled;
pub mod text;

pub use answer::{Answer, Verdict};
pub use call::{Archive, Call, Forged, Library};
pub use case::Case;
pub use pair::{Difference, Pair, Tally};
pub use run::all_alike;
