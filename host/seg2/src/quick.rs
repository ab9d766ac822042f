//! One trace, quickly (document 02, §5): questions that read one trace of a file which
//! nobody has checked, and judge what they read.

use crate::part::{Part, QUICK};
use crate::{Bits, Block, Lines, Location, Number, Pair, Refusal, Strings};

/// A file that was **not checked**, to be asked about one trace at a time. It borrows the
/// bytes, copies none, and is free to make.
///
/// Each question reads the file block's first 32 bytes, the trace's pointer and the first 32
/// bytes of its block. A question on strings reads the trace's strings in order, each whole,
/// as far as it needs them; one on samples the trace's data. All else is not looked at: the
/// strings behind, the other traces, the file's own strings; no data where strings are asked
/// for, and no string where samples are. The cost is that of one trace, however many there
/// are.
///
/// So it may answer where [`File::open`](crate::File::open) refuses the file, for
/// something that was not read. Of the file as a whole it says nothing:
/// [`check`](crate::check) does. On a file that the check accepts it answers as a
/// [`Trace`](crate::Trace) does, which asks the same questions.
///
/// Refusals are those of what was read: 1 to 7, then 18 where there is no such trace, 8 (a
/// pointer that is no multiple of 4, leads into the pointer room, or leaves no room for a
/// block; it may lead into another trace), 9 to 13, for strings 14 to 17 one by one, then
/// those of the question. 34 is never given: it would need another trace.
///
/// ```
/// # use seg2::{Builder, Order};
/// # let mut shot = Builder::start(Order::Low, 2, b"UNITS\tMETERS\n")?;
/// # shot.add_integers(b"STACK\t4\n", 1, &[1, -1, 256])?;
/// # shot.add_integers(b"STACK\t8\n", 1, &[1, -1, 256])?;
/// # let mut bytes = shot.finish();
/// let quick = seg2::Quick::new(&bytes);
/// assert_eq!(quick.value(1, b"STACK")?, Some(&b"8"[..]));
/// assert_eq!(quick.value(1, b"DELAY")?, None);
///
/// // another trace is broken: the file is refused, and this trace still answers
/// let start = seg2::File::open(&bytes)?.trace(0)?.start();
/// bytes[start] = 0;
/// assert_eq!(seg2::File::open(&bytes).unwrap_err().number, 9);
/// let quick = seg2::Quick::new(&bytes);
/// assert_eq!(quick.value(1, b"STACK")?, Some(&b"8"[..]));
/// assert_eq!(quick.value(0, b"STACK").unwrap_err().number, 9);
/// # Ok::<(), seg2::Refusal>(())
/// ```
#[derive(Clone, Copy, Debug)]
pub struct Quick<'a> {
    buffer: &'a [u8],
    length: usize,
}

impl<'a> Quick<'a> {
    /// A whole slice. Free: nothing is looked at yet.
    ///
    /// ```
    /// // so any bytes will do, and the first question refuses them
    /// let quick = seg2::Quick::new(b"not a shot file");
    /// assert_eq!(quick.has(0, b"STACK").unwrap_err().number, 1);
    /// ```
    pub fn new(bytes: &'a [u8]) -> Quick<'a> {
        Quick::prefix(bytes, bytes.len())
    }

    /// The first `length` bytes of a buffer. Any length may be given; one that cannot be is
    /// refused by 1 with the first question. Free.
    ///
    /// ```
    /// # use seg2::{Builder, Order};
    /// # let mut shot = Builder::start(Order::Low, 1, b"")?;
    /// # shot.add_integers(b"STACK\t4\n", 1, &[7])?;
    /// # let length = shot.bytes().len();
    /// # let mut buffer = shot.finish();
    /// # buffer.resize(1000, 0xEE);
    /// let quick = seg2::Quick::prefix(&buffer, length);
    /// assert_eq!(quick.value(0, b"STACK")?, Some(&b"4"[..]));
    /// let over = seg2::Quick::prefix(&buffer, 1001);
    /// assert_eq!(over.value(0, b"STACK").unwrap_err().number, 1);
    /// # Ok::<(), seg2::Refusal>(())
    /// ```
    pub fn prefix(buffer: &'a [u8], length: usize) -> Quick<'a> {
        Quick { buffer, length }
    }

    /// The block of a trace, counted from 0. No string and no data is read.
    ///
    /// ```
    /// # use seg2::{Builder, Order};
    /// # let mut shot = Builder::start(Order::Low, 1, b"")?;
    /// # shot.add_integers(b"STACK\t4\n", 1, &[7])?;
    /// # let bytes = shot.finish();
    /// let quick = seg2::Quick::new(&bytes);
    /// assert_eq!(quick.block(0)?.sample_count, 1);
    /// assert_eq!(quick.block(1).unwrap_err().number, 18);
    /// # Ok::<(), seg2::Refusal>(())
    /// ```
    pub fn block(&self, trace: usize) -> Result<Block, Refusal> {
        self.part(trace).block()
    }

    /// How many strings a trace has: all of them are read.
    ///
    /// ```
    /// # use seg2::{Builder, Order};
    /// # let mut shot = Builder::start(Order::Low, 1, b"")?;
    /// # shot.add_integers(b"DELAY\t0\nSTACK\t4\n", 1, &[7])?;
    /// # let bytes = shot.finish();
    /// assert_eq!(seg2::Quick::new(&bytes).string_count(0)?, 2);
    /// # Ok::<(), seg2::Refusal>(())
    /// ```
    pub fn string_count(&self, trace: usize) -> Result<usize, Refusal> {
        self.part(trace).string_count()
    }

    /// Keyword and value of a trace's string with this index; none past the last. The
    /// strings up to it are read, itself too.
    ///
    /// ```
    /// # use seg2::{Builder, Order};
    /// # let mut shot = Builder::start(Order::Low, 1, b"")?;
    /// # shot.add_integers(b"DELAY\t0\nSTACK\t4\n", 1, &[7])?;
    /// # let bytes = shot.finish();
    /// let quick = seg2::Quick::new(&bytes);
    /// assert_eq!(quick.string(0, 1)?, Some((&b"STACK"[..], &b"4"[..])));
    /// assert_eq!(quick.string(0, 2)?, None);
    /// # Ok::<(), seg2::Refusal>(())
    /// ```
    pub fn string(&self, trace: usize, index: usize) -> Result<Option<Pair<'a>>, Refusal> {
        self.part(trace).string(index)
    }

    /// Keyword and value of each string of a trace, in order: all of them are read. Two
    /// calls, however many strings there are.
    ///
    /// ```
    /// # use seg2::{Builder, Order};
    /// # let mut shot = Builder::start(Order::Low, 1, b"")?;
    /// # shot.add_integers(b"DELAY\t0\nSTACK\t4\n", 1, &[7])?;
    /// # let bytes = shot.finish();
    /// let values: Vec<&[u8]> = seg2::Quick::new(&bytes).strings(0)?.map(|(_, value)| value).collect();
    /// assert_eq!(values, [&b"0"[..], b"4"]);
    /// # Ok::<(), seg2::Refusal>(())
    /// ```
    pub fn strings(&self, trace: usize) -> Result<Strings<'a>, Refusal> {
        self.part(trace).strings()
    }

    /// Whether a trace, counted from 0, has a keyword. The strings are read until it is
    /// found or passed: until a greater one stands there, or NOTE. NOTE itself is sought to
    /// the end. Any bytes may be asked for.
    ///
    /// ```
    /// # use seg2::{Builder, Order};
    /// # let mut shot = Builder::start(Order::Low, 1, b"")?;
    /// # shot.add_integers(b"STACK\t4\n", 1, &[7])?;
    /// # let bytes = shot.finish();
    /// let quick = seg2::Quick::new(&bytes);
    /// assert!(quick.has(0, b"STACK")?);
    /// assert!(!quick.has(0, b"stack")?);
    /// let refusal = quick.has(1, b"STACK").unwrap_err();
    /// assert_eq!(refusal.to_string(), "refused (18): the file has no such part; traces count from 0");
    /// # Ok::<(), seg2::Refusal>(())
    /// ```
    pub fn has(&self, trace: usize, keyword: &[u8]) -> Result<bool, Refusal> {
        self.part(trace).has(keyword)
    }

    /// The value of a trace's keyword as the buffer's own bytes, the first where it stands
    /// several times; none where the keyword is missing. Strings are read as far as by
    /// [`has`](Quick::has).
    ///
    /// ```
    /// # use seg2::{Builder, Order};
    /// # let mut shot = Builder::start(Order::Low, 1, b"")?;
    /// # shot.add_integers(b"DELAY\t-0.020\nLINE_ID\t\n", 1, &[7])?;
    /// # let bytes = shot.finish();
    /// let quick = seg2::Quick::new(&bytes);
    /// assert_eq!(quick.value(0, b"DELAY")?, Some(&b"-0.020"[..]));
    /// assert_eq!(quick.value(0, b"LINE_ID")?, Some(&b""[..]));
    /// assert_eq!(quick.value(0, b"STACK")?, None);
    /// # Ok::<(), seg2::Refusal>(())
    /// ```
    pub fn value(&self, trace: usize, keyword: &[u8]) -> Result<Option<&'a [u8]>, Refusal> {
        self.part(trace).value(keyword)
    }

    /// That value as a number: 20 or 21 as [`File::number`](crate::File::number).
    ///
    /// ```
    /// # use seg2::{Builder, Order};
    /// # let mut shot = Builder::start(Order::Low, 1, b"")?;
    /// # shot.add_integers(b"DELAY\t-0.020\n", 1, &[7])?;
    /// # let bytes = shot.finish();
    /// let quick = seg2::Quick::new(&bytes);
    /// assert_eq!(quick.number(0, b"DELAY")?.decimals, 3);
    /// assert_eq!(quick.number(0, b"STACK").unwrap_err().number, 20);
    /// # Ok::<(), seg2::Refusal>(())
    /// ```
    pub fn number(&self, trace: usize, keyword: &[u8]) -> Result<Number, Refusal> {
        self.part(trace).number(keyword)
    }

    /// That value as a double: 20 to 22 as [`File::double`](crate::File::double).
    ///
    /// ```
    /// # use seg2::{Builder, Order};
    /// # let mut shot = Builder::start(Order::Low, 1, b"")?;
    /// # shot.add_integers(b"DELAY\t-0.020\n", 1, &[7])?;
    /// # let bytes = shot.finish();
    /// assert_eq!(seg2::Quick::new(&bytes).double(0, b"DELAY")?, -0.02);
    /// # Ok::<(), seg2::Refusal>(())
    /// ```
    pub fn double(&self, trace: usize, keyword: &[u8]) -> Result<f64, Refusal> {
        self.part(trace).double(keyword)
    }

    /// That value as a location: 23, then 20 to 22, as
    /// [`File::location`](crate::File::location).
    ///
    /// ```
    /// # use seg2::{Builder, Order};
    /// # let mut shot = Builder::start(Order::Low, 1, b"")?;
    /// # shot.add_integers(b"RECEIVER_LOCATION\t4.5\n", 1, &[7])?;
    /// # let bytes = shot.finish();
    /// let at = seg2::Quick::new(&bytes).location(0, b"RECEIVER_LOCATION")?;
    /// assert_eq!((at.count, at.x, at.x_decimals), (1, 4.5, 1));
    /// # Ok::<(), seg2::Refusal>(())
    /// ```
    pub fn location(&self, trace: usize, keyword: &[u8]) -> Result<Location, Refusal> {
        self.part(trace).location(keyword)
    }

    /// The lines of a trace's NOTE; none at all where it has none.
    ///
    /// ```
    /// # use seg2::{Builder, Order};
    /// # let mut shot = Builder::start(Order::Low, 2, b"")?;
    /// # shot.add_integers(b"NOTE\tNEAR THE ROAD\nNOTE\tWIND\n", 1, &[7])?;
    /// # shot.add_integers(b"STACK\t4\n", 1, &[7])?;
    /// # let bytes = shot.finish();
    /// let quick = seg2::Quick::new(&bytes);
    /// assert_eq!(quick.note(0)?.collect::<Vec<_>>(), [&b"NEAR THE ROAD"[..], b"WIND"]);
    /// assert_eq!(quick.note(1)?.count(), 0);
    /// # Ok::<(), seg2::Refusal>(())
    /// ```
    pub fn note(&self, trace: usize) -> Result<Lines<'a>, Refusal> {
        let value = self.value(trace, b"NOTE")?;
        Ok(Lines::of(value, self.line_terminator()))
    }

    /// The samples of codes 1 to 3; 33 for the others. Two calls: the block, then the
    /// samples.
    ///
    /// ```
    /// # use seg2::{Builder, Order};
    /// # let mut shot = Builder::start(Order::Low, 1, b"")?;
    /// # shot.add_integers(b"", 2, &[1, -1, 256])?;
    /// # let bytes = shot.finish();
    /// assert_eq!(seg2::Quick::new(&bytes).integers(0)?, [1, -1, 256]);
    /// # Ok::<(), seg2::Refusal>(())
    /// ```
    pub fn integers(&self, trace: usize) -> Result<Vec<i32>, Refusal> {
        self.part(trace).integers(self.block(trace)?)
    }

    /// The samples of codes 1 to 3 into a row of exactly S elements: 33 for another code,
    /// 32 for another length. A refusal leaves the row as it was.
    ///
    /// ```
    /// # use seg2::{Builder, Order};
    /// # let mut shot = Builder::start(Order::Low, 1, b"")?;
    /// # shot.add_integers(b"", 1, &[7, 8])?;
    /// # let bytes = shot.finish();
    /// let quick = seg2::Quick::new(&bytes);
    /// let mut row = [0; 3];
    /// assert_eq!(quick.integers_into(0, &mut row).unwrap_err().number, 32);
    /// assert!(quick.integers_into(0, &mut row[..2]).is_ok());
    /// assert_eq!(row, [7, 8, 0]);
    /// # Ok::<(), seg2::Refusal>(())
    /// ```
    pub fn integers_into(&self, trace: usize, row: &mut [i32]) -> Result<(), Refusal> {
        self.part(trace).integers_into(row)
    }

    /// The bit patterns of codes 4 and 5 with their classes; 33 for the others. Two calls:
    /// the block, then the samples.
    ///
    /// ```
    /// # use seg2::{Builder, Order};
    /// # let mut shot = Builder::start(Order::Low, 1, b"")?;
    /// # shot.add_bits(b"", 4, &[0x3F80_0000, 0x7F80_0000])?;
    /// # let bytes = shot.finish();
    /// let bits = seg2::Quick::new(&bytes).bits(0)?;
    /// assert_eq!(bits.patterns, [0x3F80_0000, 0x7F80_0000]);
    /// assert_eq!(bits.classes, [2, 3]);
    /// # Ok::<(), seg2::Refusal>(())
    /// ```
    pub fn bits(&self, trace: usize) -> Result<Bits, Refusal> {
        self.part(trace).bits(self.block(trace)?)
    }

    /// The bit patterns of codes 4 and 5 and their classes into two rows of exactly S
    /// elements: 33 for another code, 32 for another length of either. A refusal leaves
    /// both rows as they were.
    ///
    /// ```
    /// # use seg2::{Builder, Order};
    /// # let mut shot = Builder::start(Order::Low, 1, b"")?;
    /// # shot.add_bits(b"", 5, &[0x8000_0000_0000_0000])?;
    /// # let bytes = shot.finish();
    /// let (mut row, mut classes) = ([7], [7]);
    /// seg2::Quick::new(&bytes).bits_into(0, &mut row, &mut classes)?;
    /// assert_eq!((row, classes), ([0x8000_0000_0000_0000], [0]));
    /// # Ok::<(), seg2::Refusal>(())
    /// ```
    pub fn bits_into(
        &self,
        trace: usize,
        row: &mut [u64],
        classes: &mut [u8],
    ) -> Result<(), Refusal> {
        self.part(trace).bits_into(row, classes)
    }

    /// The samples of any code as doubles, as [`Trace::doubles`](crate::Trace::doubles) has
    /// them. Two calls: the block, then the samples.
    ///
    /// ```
    /// # use seg2::{Builder, Order};
    /// # let mut shot = Builder::start(Order::Low, 2, b"")?;
    /// # shot.add_integers(b"", 1, &[-7])?;
    /// # shot.add_bits(b"", 4, &[u64::from(0.5_f32.to_bits())])?;
    /// # let bytes = shot.finish();
    /// let quick = seg2::Quick::new(&bytes);
    /// assert_eq!((quick.doubles(0)?, quick.doubles(1)?), (vec![-7.0], vec![0.5]));
    /// # Ok::<(), seg2::Refusal>(())
    /// ```
    pub fn doubles(&self, trace: usize) -> Result<Vec<f64>, Refusal> {
        self.part(trace).doubles(self.block(trace)?)
    }

    /// The trace as a part.
    fn part(&self, trace: usize) -> Part<'a> {
        let file = Part {
            buffer: self.buffer,
            length: self.length,
            number: -1,
            calls: &QUICK,
        };
        file.trace(trace, &QUICK)
    }

    /// The characters behind the length in byte 11. To be asked behind an answer: rows 1 to 7
    /// have passed there, so all of them are there, one or two.
    fn line_terminator(&self) -> &'a [u8] {
        &self.buffer[12..12 + usize::from(self.buffer[11])]
    }
}
