//! A trace of an accepted file: its block, its strings, its samples. What it is asked is
//! `Part`'s.

use crate::part::Part;
use crate::{code, raw, File, Lines, Location, Number, Pair, Refusal, Strings};

/// A trace of an accepted file: its block, its strings, its samples.
///
/// The check of the file was made when it was opened. So every question here is a quick one
/// ([`Quick`](crate::Quick)): it reads this trace and no other, however many there are, and no
/// row of the check refuses it again; what is left are 20 to 23 of a value, 32 and 33 of
/// samples.
///
/// Where the file was opened leniently and breaks a rule ([`File::open_lenient`]), every
/// question is a lenient one instead: it checks the whole file twice, and has no other
/// refusals either.
///
/// ```
/// # use seg2::{Builder, Order};
/// # let mut shot = Builder::start(Order::Low, 1, b"UNITS\tMETERS\n")?;
/// # shot.add_integers(b"STACK\t1\n", 1, &[1, -1, 256])?;
/// # let bytes = shot.finish();
/// let file = seg2::File::open(&bytes)?;
/// let trace = file.trace(0)?;
/// assert_eq!((trace.start(), trace.block_size(), trace.data_size()), (56, 44, 8));
/// assert_eq!(trace.integers()?, [1, -1, 256]);
/// # Ok::<(), seg2::Refusal>(())
/// ```
#[derive(Clone, Copy, Debug)]
pub struct Trace<'a> {
    file: File<'a>,
    part: Part<'a>,
    index: usize,
    block: Block,
}

impl<'a> Trace<'a> {
    pub(crate) fn of(file: File<'a>, part: Part<'a>, index: usize, block: Block) -> Trace<'a> {
        Trace {
            file,
            part,
            index,
            block,
        }
    }

    /// The file that it belongs to. Free.
    ///
    /// ```
    /// # use seg2::{Builder, Order};
    /// # let mut shot = Builder::start(Order::Low, 1, b"UNITS\tMETERS\n")?;
    /// # shot.add_integers(b"", 1, &[7])?;
    /// # let bytes = shot.finish();
    /// let file = seg2::File::open(&bytes)?;
    /// assert_eq!(file.trace(0)?.file().value(b"UNITS"), Some(&b"METERS"[..]));
    /// # Ok::<(), seg2::Refusal>(())
    /// ```
    pub fn file(&self) -> File<'a> {
        self.file
    }

    /// Which trace it is, counted from 0. Free.
    ///
    /// ```
    /// # use seg2::{Builder, Order};
    /// # let mut shot = Builder::start(Order::Low, 1, b"")?;
    /// # shot.add_integers(b"", 1, &[7])?;
    /// # let bytes = shot.finish();
    /// assert_eq!(seg2::File::open(&bytes)?.trace(0)?.index(), 0);
    /// # Ok::<(), seg2::Refusal>(())
    /// ```
    pub fn index(&self) -> usize {
        self.index
    }

    /// Its block, as [`Quick::block`](crate::Quick::block) answers it. Free.
    ///
    /// ```
    /// # use seg2::{Builder, Order};
    /// # let mut shot = Builder::start(Order::Low, 1, b"")?;
    /// # shot.add_integers(b"", 2, &[7])?;
    /// # let bytes = shot.finish();
    /// let block = seg2::File::open(&bytes)?.trace(0)?.block();
    /// assert_eq!((block.code, block.sample_count), (seg2::code::FIXED_32, 1));
    /// # Ok::<(), seg2::Refusal>(())
    /// ```
    pub fn block(&self) -> Block {
        self.block
    }

    /// The format code, 1 to 5, as in [`code`]. Free.
    ///
    /// ```
    /// # use seg2::{Builder, Order};
    /// # let mut shot = Builder::start(Order::Low, 1, b"")?;
    /// # shot.add_integers(b"", 2, &[7])?;
    /// # let bytes = shot.finish();
    /// assert_eq!(seg2::File::open(&bytes)?.trace(0)?.code(), seg2::code::FIXED_32);
    /// # Ok::<(), seg2::Refusal>(())
    /// ```
    pub fn code(&self) -> u32 {
        self.block.code
    }

    /// S, the number of samples. Free.
    ///
    /// ```
    /// # use seg2::{Builder, Order};
    /// # let mut shot = Builder::start(Order::Low, 1, b"")?;
    /// # shot.add_integers(b"", 1, &[7, 8, 9])?;
    /// # let bytes = shot.finish();
    /// assert_eq!(seg2::File::open(&bytes)?.trace(0)?.sample_count(), 3);
    /// # Ok::<(), seg2::Refusal>(())
    /// ```
    pub fn sample_count(&self) -> usize {
        self.block.sample_count
    }

    /// Where its block starts in the file. Free.
    ///
    /// ```
    /// # use seg2::{Builder, Order};
    /// # let mut shot = Builder::start(Order::Low, 1, b"")?;
    /// # shot.add_integers(b"", 1, &[7])?;
    /// # let bytes = shot.finish();
    /// assert_eq!(seg2::File::open(&bytes)?.trace(0)?.start(), 40);
    /// # Ok::<(), seg2::Refusal>(())
    /// ```
    pub fn start(&self) -> usize {
        self.block.start
    }

    /// B, the size of its block, strings included. Free.
    ///
    /// ```
    /// # use seg2::{Builder, Order};
    /// # let mut shot = Builder::start(Order::Low, 1, b"")?;
    /// # shot.add_integers(b"", 1, &[7])?;
    /// # let bytes = shot.finish();
    /// assert_eq!(seg2::File::open(&bytes)?.trace(0)?.block_size(), 36);
    /// # Ok::<(), seg2::Refusal>(())
    /// ```
    pub fn block_size(&self) -> usize {
        self.block.block_size
    }

    /// D, the size of its data. Free.
    ///
    /// ```
    /// # use seg2::{Builder, Order};
    /// # let mut shot = Builder::start(Order::Low, 1, b"")?;
    /// # shot.add_integers(b"", 1, &[7])?;
    /// # let bytes = shot.finish();
    /// assert_eq!(seg2::File::open(&bytes)?.trace(0)?.data_size(), 4);
    /// # Ok::<(), seg2::Refusal>(())
    /// ```
    pub fn data_size(&self) -> usize {
        self.block.data_size
    }

    /// Its data as it stands in the file, D bytes. Free.
    ///
    /// ```
    /// # use seg2::{Builder, Order};
    /// # let mut shot = Builder::start(Order::Low, 1, b"")?;
    /// # shot.add_integers(b"", 1, &[7])?;
    /// # let bytes = shot.finish();
    /// assert_eq!(seg2::File::open(&bytes)?.trace(0)?.data(), [7, 0, 0, 0]);
    /// # Ok::<(), seg2::Refusal>(())
    /// ```
    pub fn data(&self) -> &'a [u8] {
        let from = self.block.start + self.block.block_size;
        &self.file.bytes()[from..from + self.block.data_size]
    }

    /// How many strings its block has.
    ///
    /// ```
    /// # use seg2::{Builder, Order};
    /// # let mut shot = Builder::start(Order::Low, 1, b"")?;
    /// # shot.add_integers(b"STACK\t1\n", 1, &[7])?;
    /// # let bytes = shot.finish();
    /// assert_eq!(seg2::File::open(&bytes)?.trace(0)?.string_count(), 1);
    /// # Ok::<(), seg2::Refusal>(())
    /// ```
    pub fn string_count(&self) -> usize {
        self.part.string_count().unwrap_or_default()
    }

    /// Keyword and value of the string with this index; none past the last.
    ///
    /// ```
    /// # use seg2::{Builder, Order};
    /// # let mut shot = Builder::start(Order::Low, 1, b"")?;
    /// # shot.add_integers(b"STACK\t1\n", 1, &[7])?;
    /// # let bytes = shot.finish();
    /// let file = seg2::File::open(&bytes)?;
    /// assert_eq!(file.trace(0)?.string(0), Some((&b"STACK"[..], &b"1"[..])));
    /// assert_eq!(file.trace(0)?.string(1), None);
    /// # Ok::<(), seg2::Refusal>(())
    /// ```
    pub fn string(&self, index: usize) -> Option<Pair<'a>> {
        self.part.string(index).unwrap_or_default()
    }

    /// Keyword and value of each string of its block, in order. Two calls, however many
    /// strings there are.
    ///
    /// ```
    /// # use seg2::{Builder, Order};
    /// # let mut shot = Builder::start(Order::Low, 1, b"")?;
    /// # shot.add_integers(b"DELAY\t0\nSTACK\t1\n", 1, &[7])?;
    /// # let bytes = shot.finish();
    /// let file = seg2::File::open(&bytes)?;
    /// let keywords: Vec<&[u8]> = file.trace(0)?.strings().map(|(keyword, _)| keyword).collect();
    /// assert_eq!(keywords, [&b"DELAY"[..], b"STACK"]);
    /// # Ok::<(), seg2::Refusal>(())
    /// ```
    pub fn strings(&self) -> Strings<'a> {
        self.part.strings().unwrap_or_default()
    }

    /// Whether its block has a keyword.
    ///
    /// ```
    /// # use seg2::{Builder, Order};
    /// # let mut shot = Builder::start(Order::Low, 1, b"")?;
    /// # shot.add_integers(b"STACK\t1\n", 1, &[7])?;
    /// # let bytes = shot.finish();
    /// assert!(seg2::File::open(&bytes)?.trace(0)?.has(b"STACK"));
    /// # Ok::<(), seg2::Refusal>(())
    /// ```
    pub fn has(&self, keyword: &[u8]) -> bool {
        self.part.has(keyword).unwrap_or_default()
    }

    /// The value of a keyword as the buffer's own bytes; none where the keyword is
    /// missing. RECEIVER_GEOMETRY and SOURCE_GEOMETRY may stand several times running: this
    /// and the other questions on a keyword answer the first, [`strings`](Trace::strings)
    /// has them all.
    ///
    /// ```
    /// # use seg2::{Builder, Order};
    /// # let mut shot = Builder::start(Order::Low, 1, b"")?;
    /// # shot.add_integers(b"RECEIVER_GEOMETRY\t-1\nRECEIVER_GEOMETRY\t1\nSTACK\t1\n", 1, &[7])?;
    /// # let bytes = shot.finish();
    /// let file = seg2::File::open(&bytes)?;
    /// let trace = file.trace(0)?;
    /// assert_eq!(trace.value(b"STACK"), Some(&b"1"[..]));
    /// assert_eq!(trace.value(b"DELAY"), None);
    /// let phones = trace.strings().filter(|(keyword, _)| keyword == b"RECEIVER_GEOMETRY");
    /// let phones: Vec<&[u8]> = phones.map(|(_, value)| value).collect();
    /// assert_eq!(phones, [&b"-1"[..], b"1"]);
    /// assert_eq!(trace.value(b"RECEIVER_GEOMETRY"), Some(phones[0]));
    /// # Ok::<(), seg2::Refusal>(())
    /// ```
    pub fn value(&self, keyword: &[u8]) -> Option<&'a [u8]> {
        self.part.value(keyword).unwrap_or_default()
    }

    /// The value of a keyword as a number; refusals as [`File::number`].
    ///
    /// ```
    /// # use seg2::{Builder, Order};
    /// # let mut shot = Builder::start(Order::Low, 1, b"")?;
    /// # shot.add_integers(b"STACK\t12\n", 1, &[7])?;
    /// # let bytes = shot.finish();
    /// assert_eq!(seg2::File::open(&bytes)?.trace(0)?.number(b"STACK")?.coefficient, 12);
    /// # Ok::<(), seg2::Refusal>(())
    /// ```
    pub fn number(&self, keyword: &[u8]) -> Result<Number, Refusal> {
        self.part.number(keyword)
    }

    /// The value of a keyword as a double; refusals as [`File::double`].
    ///
    /// ```
    /// # use seg2::{Builder, Order};
    /// # let mut shot = Builder::start(Order::Low, 1, b"")?;
    /// # shot.add_integers(b"SAMPLE_INTERVAL\t0.00025\n", 1, &[7])?;
    /// # let bytes = shot.finish();
    /// assert_eq!(seg2::File::open(&bytes)?.trace(0)?.double(b"SAMPLE_INTERVAL")?, 0.00025);
    /// # Ok::<(), seg2::Refusal>(())
    /// ```
    pub fn double(&self, keyword: &[u8]) -> Result<f64, Refusal> {
        self.part.double(keyword)
    }

    /// The value of a keyword as a location; refusals as [`File::location`].
    ///
    /// ```
    /// # use seg2::{Builder, Order};
    /// # let mut shot = Builder::start(Order::Low, 1, b"")?;
    /// # shot.add_integers(b"RECEIVER_LOCATION\t4.5\n", 1, &[7])?;
    /// # let bytes = shot.finish();
    /// let location = seg2::File::open(&bytes)?.trace(0)?.location(b"RECEIVER_LOCATION")?;
    /// assert_eq!((location.count, location.x), (1, 4.5));
    /// # Ok::<(), seg2::Refusal>(())
    /// ```
    pub fn location(&self, keyword: &[u8]) -> Result<Location, Refusal> {
        self.part.location(keyword)
    }

    /// The lines of its NOTE; none at all where it has none. As [`File::note`] where the file
    /// was read leniently.
    ///
    /// ```
    /// # use seg2::{Builder, Order};
    /// # let mut shot = Builder::start(Order::Low, 1, b"")?;
    /// # shot.add_integers(b"NOTE\tNEAR THE ROAD\nNOTE\tWIND\n", 1, &[7])?;
    /// # let bytes = shot.finish();
    /// let file = seg2::File::open(&bytes)?;
    /// assert_eq!(file.trace(0)?.note().collect::<Vec<_>>(), [&b"NEAR THE ROAD"[..], b"WIND"]);
    /// # Ok::<(), seg2::Refusal>(())
    /// ```
    pub fn note(&self) -> Lines<'a> {
        Lines::of(self.value(b"NOTE"), self.file.line_terminator())
    }

    /// Whether its samples are read as integers (codes 1 to 3) and not as bit patterns. Free.
    ///
    /// ```
    /// # use seg2::{Builder, Order};
    /// # let mut shot = Builder::start(Order::Low, 1, b"")?;
    /// # shot.add_integers(b"", 1, &[7])?;
    /// # let bytes = shot.finish();
    /// assert!(seg2::File::open(&bytes)?.trace(0)?.is_integers());
    /// # Ok::<(), seg2::Refusal>(())
    /// ```
    pub fn is_integers(&self) -> bool {
        self.block.is_integers()
    }

    /// The samples of codes 1 to 3; 33 for the others.
    ///
    /// ```
    /// # use seg2::{Builder, Order};
    /// # let mut shot = Builder::start(Order::Low, 1, b"")?;
    /// # shot.add_integers(b"", 3, &[1, -2, 20, 100_000])?;
    /// # let bytes = shot.finish();
    /// assert_eq!(seg2::File::open(&bytes)?.trace(0)?.integers()?, [1, -2, 20, 100_000]);
    /// # Ok::<(), seg2::Refusal>(())
    /// ```
    pub fn integers(&self) -> Result<Vec<i32>, Refusal> {
        self.part.integers(self.block)
    }

    /// The samples of codes 1 to 3 into a row of exactly S elements: 33 for another code,
    /// 32 for another length. A refusal leaves the row as it was.
    ///
    /// ```
    /// # use seg2::{Builder, Order};
    /// # let mut shot = Builder::start(Order::Low, 1, b"")?;
    /// # shot.add_integers(b"", 1, &[7, 8])?;
    /// # let bytes = shot.finish();
    /// let file = seg2::File::open(&bytes)?;
    /// let mut row = [0; 3];
    /// assert_eq!(file.trace(0)?.integers_into(&mut row).unwrap_err().number, 32);
    /// assert!(file.trace(0)?.integers_into(&mut row[..2]).is_ok());
    /// assert_eq!(row, [7, 8, 0]);
    /// # Ok::<(), seg2::Refusal>(())
    /// ```
    pub fn integers_into(&self, row: &mut [i32]) -> Result<(), Refusal> {
        self.part.integers_into(row)
    }

    /// The bit patterns of codes 4 and 5 with their classes; 33 for the others.
    ///
    /// ```
    /// # use seg2::{Builder, Order};
    /// # let mut shot = Builder::start(Order::Low, 1, b"")?;
    /// # shot.add_bits(b"", 4, &[0x3F80_0000, 0x7F80_0000])?;
    /// # let bytes = shot.finish();
    /// let bits = seg2::File::open(&bytes)?.trace(0)?.bits()?;
    /// assert_eq!(bits.patterns, [0x3F80_0000, 0x7F80_0000]);
    /// assert_eq!(bits.classes, [2, 3]);
    /// # Ok::<(), seg2::Refusal>(())
    /// ```
    pub fn bits(&self) -> Result<Bits, Refusal> {
        self.part.bits(self.block)
    }

    /// The bit patterns of codes 4 and 5 and their classes into two rows of exactly S
    /// elements: 33 for another code, 32 for another length of either. A refusal leaves
    /// both rows as they were.
    ///
    /// ```
    /// # use seg2::{Builder, Order};
    /// # let mut shot = Builder::start(Order::Low, 1, b"")?;
    /// # shot.add_bits(b"", 5, &[0x8000_0000_0000_0000])?;
    /// # let bytes = shot.finish();
    /// let (mut row, mut classes) = ([7], [7]);
    /// seg2::File::open(&bytes)?.trace(0)?.bits_into(&mut row, &mut classes)?;
    /// assert_eq!((row, classes), ([0x8000_0000_0000_0000], [0]));
    /// # Ok::<(), seg2::Refusal>(())
    /// ```
    pub fn bits_into(&self, row: &mut [u64], classes: &mut [u8]) -> Result<(), Refusal> {
        self.part.bits_into(row, classes)
    }

    /// The samples of any code as doubles, for a plot. Exact but for one thing: a "not a
    /// number" of code 4 keeps no more than that it is none.
    ///
    /// ```
    /// # use seg2::{Builder, Order};
    /// # let mut shot = Builder::start(Order::Low, 2, b"")?;
    /// # shot.add_integers(b"", 1, &[-7])?;
    /// # shot.add_bits(b"", 4, &[u64::from(0.5_f32.to_bits())])?;
    /// # let bytes = shot.finish();
    /// let file = seg2::File::open(&bytes)?;
    /// assert_eq!(file.trace(0)?.doubles()?, [-7.0]);
    /// assert_eq!(file.trace(1)?.doubles()?, [0.5]);
    /// # Ok::<(), seg2::Refusal>(())
    /// ```
    pub fn doubles(&self) -> Result<Vec<f64>, Refusal> {
        self.part.doubles(self.block)
    }
}

/// A trace block: [`Quick::block`](crate::Quick::block) and [`Trace::block`].
///
/// ```
/// # use seg2::{Builder, Order};
/// # let mut shot = Builder::start(Order::Low, 1, b"UNITS\tMETERS\n")?;
/// # shot.add_integers(b"STACK\t1\n", 1, &[1, -1, 256])?;
/// # let bytes = shot.finish();
/// let block = seg2::Quick::new(&bytes).block(0)?;
/// assert_eq!((block.start, block.block_size, block.data_size), (56, 44, 8));
/// assert_eq!((block.sample_count, block.code), (3, seg2::code::FIXED_16));
/// # Ok::<(), seg2::Refusal>(())
/// ```
#[derive(Clone, Copy, Debug, PartialEq, Eq)]
pub struct Block {
    /// Where it starts in the file.
    pub start: usize,
    /// B, its size, strings included.
    pub block_size: usize,
    /// D, the size of the data behind it.
    pub data_size: usize,
    /// S, the number of samples.
    pub sample_count: usize,
    /// The format code, 1 to 5, as in [`code`].
    pub code: u32,
}

impl Block {
    /// Whether the samples are read as integers (codes 1 to 3) and not as bit patterns.
    ///
    /// ```
    /// # use seg2::{Builder, Order};
    /// # let mut shot = Builder::start(Order::Low, 1, b"")?;
    /// # shot.add_bits(b"", 4, &[0x3F80_0000])?;
    /// # let bytes = shot.finish();
    /// assert!(!seg2::Quick::new(&bytes).block(0)?.is_integers());
    /// # Ok::<(), seg2::Refusal>(())
    /// ```
    pub fn is_integers(&self) -> bool {
        code::is_integers(self.code)
    }

    pub(crate) fn of(answer: raw::Trace) -> Block {
        Block {
            start: answer.start,
            block_size: answer.block_size,
            data_size: answer.data_size,
            sample_count: answer.sample_count,
            code: answer.format_code,
        }
    }
}

/// Samples of codes 4 and 5: [`Trace::bits`] and [`Quick::bits`](crate::Quick::bits).
///
/// ```
/// # use seg2::{Builder, Order};
/// # let mut shot = Builder::start(Order::Low, 1, b"")?;
/// # shot.add_bits(b"", 5, &[1.5_f64.to_bits()])?;
/// # let bytes = shot.finish();
/// let bits = seg2::File::open(&bytes)?.trace(0)?.bits()?;
/// assert_eq!(f64::from_bits(bits.patterns[0]), 1.5);
/// # Ok::<(), seg2::Refusal>(())
/// ```
#[derive(Clone, Debug, PartialEq, Eq)]
pub struct Bits {
    /// The bit patterns; those of code 4 fill the low 32 bits.
    pub patterns: Vec<u64>,
    /// The class of each, 0 to 4: [`Class`].
    pub classes: Vec<u8>,
}

/// The class of a bit pattern.
///
/// ```
/// assert_eq!(seg2::Class::of(4), Some(seg2::Class::NotANumber));
/// ```
#[derive(Clone, Copy, Debug, PartialEq, Eq)]
pub enum Class {
    /// Exponent and fraction bits 0; the sign may be either.
    Zero,
    /// Exponent bits 0, fraction not 0.
    Underflow,
    /// An ordinary number.
    Number,
    /// Infinity of either sign.
    Infinity,
    /// Not a number.
    NotANumber,
}

impl Class {
    /// The class with this number; none over 4.
    ///
    /// ```
    /// use seg2::Class;
    /// assert_eq!((Class::of(0), Class::of(5)), (Some(Class::Zero), None));
    /// ```
    pub fn of(number: u8) -> Option<Class> {
        [
            Class::Zero,
            Class::Underflow,
            Class::Number,
            Class::Infinity,
            Class::NotANumber,
        ]
        .get(usize::from(number))
        .copied()
    }
}
