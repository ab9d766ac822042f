//! The proved SEG-2 library, safe to call from Rust: slices in, `Result` out.
//!
//! What an answer is, is said by the promise of the exported function in
//! `crates/seg2`; here a slice becomes a pointer and a size, and an answer becomes a
//! `Result`, and no more. The rules and the refusal table are document 01's.
//!
//! ```
//! # fn main() -> Result<(), seg2::Refusal> {
//! use seg2::{code, Builder, File, Order};
//!
//! let mut shot = Builder::start(Order::Low, 24, b"UNITS\tMETERS\n")?;
//! shot.add_integers(b"RECEIVER_LOCATION\t12.5\n", code::FIXED_32, &[1, -1, 256])?;
//!
//! let file = File::open(shot.bytes())?;
//! assert_eq!(file.value(b"UNITS"), Some(&b"METERS"[..]));
//! for trace in file.traces() {
//!     assert_eq!(trace.integers()?, [1, -1, 256]);
//!     assert_eq!(trace.location(b"RECEIVER_LOCATION")?.x, 12.5);
//! }
//! # Ok(())
//! # }
//! ```
//!
//! # Cost
//!
//! [`File::open`] checks the whole file once: it looks at each block and each string, not
//! at the samples. After that every question on a [`Trace`] is a quick one, which reads this
//! trace and no other, so what is asked of all traces takes time in proportion to their
//! number. The file's own strings have no quick form: each question of [`File`] on them
//! checks the whole file again. Each doc comment says how many calls it makes; where it says
//! nothing it makes one. What needs no call is free: it was learned when the file or the
//! trace was opened. A [`Number`] is read from a text and written as one without a file.
//!
//! To show something of one trace without any check of the file there is [`Quick`]: it
//! reads that trace and judges what it reads.
//!
//! # Older recorders
//!
//! Recorders from before our own put strings in any order, in lower case, and without an end
//! mark. [`File::open_lenient`] reads such files too, and [`File::strict`] tells which rule
//! they break. On a file that breaks one, every question checks the whole file twice; a file
//! that keeps the rules is asked as ever. Adding a trace needs the strict check.
//!
//! # Threads and stack
//!
//! The library has no state: any number of threads may use it. 32 KiB of stack are
//! enough for every call; a call of the proved library needs at most 1 KiB of them.
#![deny(missing_docs)]
#![deny(unsafe_code)]

/// The version, as the header has it.
pub const VERSION: &str = env!("SEG2_VERSION");

#[doc(hidden)]
pub mod calls;
mod file;
mod number;
mod part;
mod quick;
#[doc(hidden)]
pub mod raw;
mod refusal;
mod trace;
mod write;

pub use file::{File, Traces};
pub use number::{Location, Number};
pub use part::{Lines, Pair, Strings};
pub use quick::Quick;
pub use refusal::{numbers, text, LenientRefusal, Place, Refusal};
pub use trace::{Bits, Block, Class, Trace};
pub use write::{add_bits, add_integers, add_size, start, start_size, Builder};

/// A file is at most this many bytes long.
///
/// ```
/// let long = vec![0; seg2::MAXIMUM_LENGTH + 1];
/// assert_eq!(seg2::check(&long, long.len()).unwrap_err().number, 1);
/// ```
pub const MAXIMUM_LENGTH: usize = 67_108_864;

/// The strings of one block need at most this many bytes where we write them.
///
/// ```
/// let sheet = [b"NOTE\t", vec![b'A'; seg2::MAXIMUM_AREA].as_slice(), b"\n"].concat();
/// let refusal = seg2::Builder::start(seg2::Order::Low, 1, &sheet).unwrap_err();
/// assert_eq!(refusal.number, 27);
/// ```
pub const MAXIMUM_AREA: usize = 65_500;

/// A new file has at most this many pointer slots.
///
/// ```
/// use seg2::{Builder, Order, MAXIMUM_SLOTS};
/// assert!(Builder::start(Order::Low, MAXIMUM_SLOTS, b"").is_ok());
/// assert_eq!(Builder::start(Order::Low, MAXIMUM_SLOTS + 1, b"").unwrap_err().number, 31);
/// ```
pub const MAXIMUM_SLOTS: u32 = 16_383;

/// The text of a number is at most this many bytes long where we write it.
///
/// ```
/// let longest = seg2::Number::read(b"-1.23456789012345678E-99")?;
/// let mut text = [0; seg2::MAXIMUM_NUMBER_TEXT];
/// assert_eq!(longest.write(&mut text), Ok(24));
/// assert_eq!(longest.write(&mut text[..23]).unwrap_err().number, 30);
/// # Ok::<(), seg2::Refusal>(())
/// ```
pub const MAXIMUM_NUMBER_TEXT: usize = 24;

/// The format codes by name.
///
/// ```
/// use seg2::code;
/// assert!(code::is_integers(code::FLOAT_20) && !code::is_integers(code::FLOAT_32));
/// ```
pub mod code {
    /// 16-bit fixed point.
    pub const FIXED_16: u32 = 1;
    /// 32-bit fixed point.
    pub const FIXED_32: u32 = 2;
    /// 20-bit floating point, four samples in ten bytes.
    pub const FLOAT_20: u32 = 3;
    /// 32-bit floating point, IEEE 754.
    pub const FLOAT_32: u32 = 4;
    /// 64-bit floating point, IEEE 754.
    pub const FLOAT_64: u32 = 5;

    /// Whether the samples of a code are read as integers, and not as bit patterns.
    ///
    /// ```
    /// assert!(seg2::code::is_integers(3) && !seg2::code::is_integers(4));
    /// ```
    pub fn is_integers(code: u32) -> bool {
        (FIXED_16..=FLOAT_20).contains(&code)
    }
}

/// The byte order of a file's whole numbers.
///
/// ```
/// use seg2::{Builder, Order};
/// assert_eq!(Builder::start(Order::Low, 1, b"")?.bytes()[..2], [0x55, 0x3A]);
/// assert_eq!(Builder::start(Order::High, 1, b"")?.bytes()[..2], [0x3A, 0x55]);
/// # Ok::<(), seg2::Refusal>(())
/// ```
#[derive(Clone, Copy, Debug, PartialEq, Eq)]
pub enum Order {
    /// The low byte first.
    Low,
    /// The high byte first.
    High,
}

/// Whether the first `length` bytes of the buffer are a file that keeps the rules;
/// if not, the first row of the table that it meets. Any length may be given.
///
/// ```
/// let refusal = seg2::check(b"not a shot file", 15).unwrap_err();
/// assert_eq!((refusal.number, refusal.part, refusal.place), (1, -1, 0));
/// ```
pub fn check(buffer: &[u8], length: usize) -> Result<(), Refusal> {
    calls::check(buffer, length).told()?;
    Ok(())
}

/// Whether the first `length` bytes of the buffer are a file that can be read leniently, as
/// [`File::open_lenient`] does: then the first row of the strict check that is forgiven, or
/// none where the file keeps the rules. If not, both first rows.
///
/// ```
/// # use seg2::{Builder, Order};
/// # let mut shot = Builder::start(Order::Low, 1, b"UNITS\tMETERS\n")?;
/// # shot.add_integers(b"", 1, &[7])?;
/// # let mut bytes = shot.finish();
/// # let length = bytes.len();
/// assert_eq!(seg2::check_lenient(&bytes, length)?, None);
///
/// // a small letter in the file's only keyword
/// let at = bytes.windows(5).position(|w| w == b"UNITS").unwrap();
/// bytes[at] = b'u';
/// let forgiven = seg2::check_lenient(&bytes, length)?.unwrap();
/// assert_eq!((forgiven.number, forgiven.part), (16, -1));
///
/// // a sign that no keyword may have
/// bytes[at + 1] = 0xE9;
/// let refused = seg2::check_lenient(&bytes, length).unwrap_err();
/// assert_eq!(refused.refusal.number, 16);
/// # Ok::<(), Box<dyn std::error::Error>>(())
/// ```
pub fn check_lenient(buffer: &[u8], length: usize) -> Result<Option<Refusal>, LenientRefusal> {
    let raw::Lenient { answer, strict } = calls::lenient_check(buffer, length);
    LenientRefusal::told(answer.told(), strict)?;
    Ok(strict.told().err())
}

/// The page for the app programmer: its lines of Rust are run as a test.
#[cfg(doctest)]
#[doc = include_str!("../../../docs/USING.md")]
struct Using;
