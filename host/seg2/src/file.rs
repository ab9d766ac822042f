//! An accepted file and its traces. What it is asked about its strings is `Part`'s.

use crate::part::{Calls, Part, FULL, LENIENT, QUICK};
use crate::{calls, raw, LenientRefusal, Lines, Location, Number, Order, Pair, Refusal};
use crate::{Strings, Trace};

/// A view of a file that the check has accepted. It borrows the bytes and copies none.
///
/// What is asked of its traces reads one trace each and checks nothing else again
/// ([`Trace`]). There is no quick form of the questions on the file's own strings: each
/// checks the whole file, so whoever needs several asks for [`strings`](File::strings) once.
///
/// A file of an older recorder, which the check refuses, may still be opened leniently
/// ([`open_lenient`](File::open_lenient)). Then every question, those of its traces too, is
/// answered by the lenient reading, and checks the whole file twice.
///
/// ```
/// # use seg2::{Builder, Order};
/// # let mut shot = Builder::start(Order::Low, 1, b"UNITS\tMETERS\n")?;
/// # shot.add_integers(b"STACK\t1\n", 1, &[1, -1, 256])?;
/// # let bytes = shot.finish();
/// let file = seg2::File::open(&bytes)?;
/// assert_eq!(file.trace_count(), 1);
/// assert_eq!(file.value(b"UNITS"), Some(&b"METERS"[..]));
/// # Ok::<(), seg2::Refusal>(())
/// ```
#[derive(Clone, Copy, Debug)]
pub struct File<'a> {
    part: Part<'a>,
    /// What its traces are asked by.
    of_traces: &'static Calls,
    block: raw::File,
    strict: Option<Refusal>,
}

impl<'a> File<'a> {
    /// Checks a whole slice and opens it: the check's refusal, 1 to 17 or 34, or the
    /// view.
    ///
    /// ```
    /// let refusal = seg2::File::open(&[0; 32]).unwrap_err();
    /// assert_eq!(refusal.to_string(), "refused (2) in the file: the first two bytes are not those of a SEG-2 file");
    /// ```
    pub fn open(bytes: &'a [u8]) -> Result<File<'a>, Refusal> {
        File::open_prefix(bytes, bytes.len())
    }

    /// Checks the first `length` bytes of a buffer and opens them. Any length may be given.
    ///
    /// ```
    /// # use seg2::{Builder, Order};
    /// # let mut shot = Builder::start(Order::Low, 1, b"")?;
    /// # shot.add_integers(b"", 1, &[7])?;
    /// # let length = shot.bytes().len();
    /// # let mut buffer = shot.finish();
    /// # buffer.resize(1000, 0xEE);
    /// let file = seg2::File::open_prefix(&buffer, length)?;
    /// assert_eq!(file.bytes(), &buffer[..length]);
    /// assert_eq!(seg2::File::open_prefix(&buffer, 1001).unwrap_err().number, 1);
    /// # Ok::<(), seg2::Refusal>(())
    /// ```
    pub fn open_prefix(buffer: &'a [u8], length: usize) -> Result<File<'a>, Refusal> {
        let block = calls::file_block(buffer, length).told()?;
        Ok(File::of(buffer, length, block, None))
    }

    /// Opens a whole slice leniently, as files of older recorders need it (document 02, §11).
    /// Four things are forgiven, in the file's own strings and in each trace's, and nothing
    /// else is:
    ///
    /// - lower-case letters in a keyword. It counts as its upper-case form, so `Stack` is
    ///   found by `STACK`; what is asked for is taken as it is given, so `stack` finds nothing.
    ///   [`strings`](File::strings) has a keyword as it stands in the file;
    /// - any order of keywords, and repeats. [`value`](File::value) and the like answer the
    ///   first, [`strings`](File::strings) has them all;
    /// - a list of strings that fills its area and has no end mark;
    /// - channel numbers, which are not looked at.
    ///
    /// [`strict`](File::strict) tells which rule the file breaks first. If it breaks none, this
    /// is the view that [`open`](File::open) gives, quick questions and all. If it breaks one,
    /// every question on it and its traces goes through the whole file twice, so whoever needs
    /// much asks for [`strings`](File::strings) once. No trace can be added to such a file.
    ///
    /// ```
    /// # use seg2::{Builder, Order};
    /// # let mut shot = Builder::start(Order::Low, 1, b"UNITS\tMETERS\n")?;
    /// # shot.add_integers(b"DELAY\t0\nSTACK\t4\n", 1, &[7])?;
    /// # let mut bytes = shot.finish();
    /// # let at = bytes.windows(5).position(|w| w == b"DELAY").unwrap();
    /// // an old recorder wrote `Zelay`, which is neither upper case nor in order
    /// bytes[at..at + 5].copy_from_slice(b"Zelay");
    /// assert_eq!(seg2::File::open(&bytes).unwrap_err().number, 16);
    ///
    /// let file = seg2::File::open_lenient(&bytes)?;
    /// assert_eq!(file.strict().map(|refusal| refusal.number), Some(16));
    /// let trace = file.trace(0)?;
    /// assert_eq!(trace.value(b"ZELAY"), Some(&b"0"[..]));
    /// assert_eq!(trace.value(b"Zelay"), None);
    /// assert_eq!(trace.string(0), Some((&b"Zelay"[..], &b"0"[..])));
    /// assert_eq!(trace.value(b"STACK"), Some(&b"4"[..]));
    /// # Ok::<(), Box<dyn std::error::Error>>(())
    /// ```
    pub fn open_lenient(bytes: &'a [u8]) -> Result<File<'a>, LenientRefusal> {
        File::open_lenient_prefix(bytes, bytes.len())
    }

    /// Opens the first `length` bytes of a buffer leniently. Any length may be given.
    ///
    /// ```
    /// # use seg2::{Builder, Order};
    /// # let mut shot = Builder::start(Order::Low, 1, b"")?;
    /// # shot.add_integers(b"", 1, &[7])?;
    /// # let length = shot.bytes().len();
    /// # let mut buffer = shot.finish();
    /// # buffer.resize(1000, 0xEE);
    /// let file = seg2::File::open_lenient_prefix(&buffer, length)?;
    /// assert_eq!(file.bytes(), &buffer[..length]);
    /// let refused = seg2::File::open_lenient_prefix(&buffer, 1001).unwrap_err();
    /// assert_eq!((refused.refusal.number, refused.strict.number), (1, 1));
    /// # Ok::<(), Box<dyn std::error::Error>>(())
    /// ```
    pub fn open_lenient_prefix(
        buffer: &'a [u8],
        length: usize,
    ) -> Result<File<'a>, LenientRefusal> {
        let raw::Lenient { answer, strict } = calls::lenient_file_block(buffer, length);
        let block = LenientRefusal::told(answer.told(), strict)?;
        Ok(File::of(buffer, length, block, strict.told().err()))
    }

    /// A file that keeps the rules is asked by the strict calls, which cost less: the lenient
    /// ones answer the same.
    fn of(buffer: &'a [u8], length: usize, block: raw::File, strict: Option<Refusal>) -> File<'a> {
        let (calls, of_traces) = match strict {
            None => (&FULL, &QUICK),
            Some(_) => (&LENIENT, &LENIENT),
        };
        let part = Part {
            buffer,
            length,
            number: -1,
            calls,
        };
        File {
            part,
            of_traces,
            block,
            strict,
        }
    }

    /// The first row of the strict check that the file meets, 14, 16, 17 or 34: none for a
    /// file that keeps the rules, so always none behind [`open`](File::open). Free.
    ///
    /// ```
    /// # use seg2::{Builder, Order};
    /// # let mut shot = Builder::start(Order::Low, 1, b"UNITS\tMETERS\n")?;
    /// # shot.add_integers(b"", 1, &[7])?;
    /// # let mut bytes = shot.finish();
    /// assert_eq!(seg2::File::open_lenient(&bytes)?.strict(), None);
    /// let at = bytes.windows(5).position(|w| w == b"UNITS").unwrap();
    /// bytes[at] = b'u';
    /// let refusal = seg2::File::open_lenient(&bytes)?.strict();
    /// assert_eq!(refusal, seg2::check(&bytes, bytes.len()).err());
    /// # Ok::<(), Box<dyn std::error::Error>>(())
    /// ```
    pub fn strict(&self) -> Option<Refusal> {
        self.strict
    }

    /// The file's bytes, without what stands behind them in the buffer. Free.
    ///
    /// ```
    /// # use seg2::{Builder, Order};
    /// # let mut shot = Builder::start(Order::Low, 1, b"")?;
    /// # shot.add_integers(b"", 1, &[7])?;
    /// # let bytes = shot.finish();
    /// assert_eq!(seg2::File::open(&bytes)?.bytes(), bytes);
    /// # Ok::<(), seg2::Refusal>(())
    /// ```
    pub fn bytes(&self) -> &'a [u8] {
        &self.part.buffer[..self.part.length]
    }

    /// The byte order. Free.
    ///
    /// ```
    /// # use seg2::{Builder, Order};
    /// # let mut shot = Builder::start(Order::High, 1, b"")?;
    /// # shot.add_integers(b"", 1, &[7])?;
    /// # let bytes = shot.finish();
    /// assert_eq!(seg2::File::open(&bytes)?.order(), seg2::Order::High);
    /// # Ok::<(), seg2::Refusal>(())
    /// ```
    pub fn order(&self) -> Order {
        if self.high_first() {
            Order::High
        } else {
            Order::Low
        }
    }

    /// Whether the high byte of a whole number comes first. Free.
    ///
    /// ```
    /// # use seg2::{Builder, Order};
    /// # let mut shot = Builder::start(Order::Low, 1, b"")?;
    /// # shot.add_integers(b"", 1, &[7])?;
    /// # let bytes = shot.finish();
    /// assert!(!seg2::File::open(&bytes)?.high_first());
    /// # Ok::<(), seg2::Refusal>(())
    /// ```
    pub fn high_first(&self) -> bool {
        self.block.order == 1
    }

    /// M, the size of the pointer room in bytes: 4 for each slot. Free.
    ///
    /// ```
    /// # use seg2::{Builder, Order};
    /// # let mut shot = Builder::start(Order::Low, 24, b"")?;
    /// # shot.add_integers(b"", 1, &[7])?;
    /// # let bytes = shot.finish();
    /// assert_eq!(seg2::File::open(&bytes)?.pointer_room(), 96);
    /// # Ok::<(), seg2::Refusal>(())
    /// ```
    pub fn pointer_room(&self) -> usize {
        self.block.pointer_room
    }

    /// N, the number of traces. Free.
    ///
    /// ```
    /// # use seg2::{Builder, Order};
    /// # let mut shot = Builder::start(Order::Low, 24, b"")?;
    /// # shot.add_integers(b"", 1, &[7])?;
    /// # let bytes = shot.finish();
    /// assert_eq!(seg2::File::open(&bytes)?.trace_count(), 1);
    /// # Ok::<(), seg2::Refusal>(())
    /// ```
    pub fn trace_count(&self) -> usize {
        self.block.trace_count
    }

    /// The characters that end each string, one or two. Free.
    ///
    /// ```
    /// # use seg2::{Builder, Order};
    /// # let mut shot = Builder::start(Order::Low, 1, b"")?;
    /// # shot.add_integers(b"", 1, &[7])?;
    /// # let bytes = shot.finish();
    /// assert_eq!(seg2::File::open(&bytes)?.string_terminator(), b"\0");
    /// # Ok::<(), seg2::Refusal>(())
    /// ```
    pub fn string_terminator(&self) -> &'a [u8] {
        &self.part.buffer[9..9 + self.block.string_terminator_size]
    }

    /// The characters that part the lines of a NOTE, one or two. Free.
    ///
    /// ```
    /// # use seg2::{Builder, Order};
    /// # let mut shot = Builder::start(Order::Low, 1, b"")?;
    /// # shot.add_integers(b"", 1, &[7])?;
    /// # let bytes = shot.finish();
    /// assert_eq!(seg2::File::open(&bytes)?.line_terminator(), b"\n");
    /// # Ok::<(), seg2::Refusal>(())
    /// ```
    pub fn line_terminator(&self) -> &'a [u8] {
        &self.part.buffer[12..12 + self.block.line_terminator_size]
    }

    /// A trace, counted from 0; 18 where there is none. A quick call: it reads the trace's
    /// block and no other. (A lenient one where the file was read leniently.)
    ///
    /// ```
    /// # use seg2::{Builder, Order};
    /// # let mut shot = Builder::start(Order::Low, 1, b"")?;
    /// # shot.add_integers(b"", 1, &[7])?;
    /// # let bytes = shot.finish();
    /// let file = seg2::File::open(&bytes)?;
    /// assert_eq!(file.trace(0)?.sample_count(), 1);
    /// assert_eq!(file.trace(1).unwrap_err().number, 18);
    /// # Ok::<(), seg2::Refusal>(())
    /// ```
    pub fn trace(&self, index: usize) -> Result<Trace<'a>, Refusal> {
        let part = self.part.trace(index, self.of_traces);
        Ok(Trace::of(*self, part, index, part.block()?))
    }

    /// All traces in order. One quick call for each, or a lenient one where the file was read
    /// leniently.
    ///
    /// ```
    /// # use seg2::{Builder, Order};
    /// # let mut shot = Builder::start(Order::Low, 2, b"")?;
    /// # shot.add_integers(b"", 1, &[7])?;
    /// # shot.add_integers(b"", 2, &[8, 9])?;
    /// # let bytes = shot.finish();
    /// let file = seg2::File::open(&bytes)?;
    /// let codes: Vec<u32> = file.traces().map(|trace| trace.code()).collect();
    /// assert_eq!(codes, [1, 2]);
    /// # Ok::<(), seg2::Refusal>(())
    /// ```
    pub fn traces(&self) -> Traces<'a> {
        Traces {
            file: *self,
            next: 0,
        }
    }

    /// How many strings the file block has.
    ///
    /// ```
    /// # use seg2::{Builder, Order};
    /// # let mut shot = Builder::start(Order::Low, 1, b"COMPANY\tWE\nUNITS\tMETERS\n")?;
    /// # shot.add_integers(b"", 1, &[7])?;
    /// # let bytes = shot.finish();
    /// assert_eq!(seg2::File::open(&bytes)?.string_count(), 2);
    /// # Ok::<(), seg2::Refusal>(())
    /// ```
    pub fn string_count(&self) -> usize {
        self.part.string_count().unwrap_or_default()
    }

    /// Keyword and value of the string with this index; none past the last.
    ///
    /// ```
    /// # use seg2::{Builder, Order};
    /// # let mut shot = Builder::start(Order::Low, 1, b"COMPANY\tWE\nUNITS\tMETERS\n")?;
    /// # shot.add_integers(b"", 1, &[7])?;
    /// # let bytes = shot.finish();
    /// let file = seg2::File::open(&bytes)?;
    /// assert_eq!(file.string(1), Some((&b"UNITS"[..], &b"METERS"[..])));
    /// assert_eq!(file.string(2), None);
    /// # Ok::<(), seg2::Refusal>(())
    /// ```
    pub fn string(&self, index: usize) -> Option<Pair<'a>> {
        self.part.string(index).unwrap_or_default()
    }

    /// Keyword and value of each string of the file block, in order. Two calls, however many
    /// strings there are.
    ///
    /// ```
    /// # use seg2::{Builder, Order};
    /// # let mut shot = Builder::start(Order::Low, 1, b"COMPANY\tWE\nUNITS\tMETERS\n")?;
    /// # shot.add_integers(b"", 1, &[7])?;
    /// # let bytes = shot.finish();
    /// let file = seg2::File::open(&bytes)?;
    /// let keywords: Vec<&[u8]> = file.strings().map(|(keyword, _)| keyword).collect();
    /// assert_eq!(keywords, [&b"COMPANY"[..], b"UNITS"]);
    /// # Ok::<(), seg2::Refusal>(())
    /// ```
    pub fn strings(&self) -> Strings<'a> {
        self.part.strings().unwrap_or_default()
    }

    /// Whether the file block has a keyword.
    ///
    /// ```
    /// # use seg2::{Builder, Order};
    /// # let mut shot = Builder::start(Order::Low, 1, b"UNITS\tMETERS\n")?;
    /// # shot.add_integers(b"", 1, &[7])?;
    /// # let bytes = shot.finish();
    /// let file = seg2::File::open(&bytes)?;
    /// assert!(file.has(b"UNITS") && !file.has(b"units"));
    /// # Ok::<(), seg2::Refusal>(())
    /// ```
    pub fn has(&self, keyword: &[u8]) -> bool {
        self.part.has(keyword).unwrap_or_default()
    }

    /// The value of a keyword as the buffer's own bytes; none where the keyword is
    /// missing. Of a keyword that stands several times, the first, as
    /// [`Trace::value`](crate::Trace::value).
    ///
    /// ```
    /// # use seg2::{Builder, Order};
    /// # let mut shot = Builder::start(Order::Low, 1, b"CLIENT\t\nUNITS\tMETERS\n")?;
    /// # shot.add_integers(b"", 1, &[7])?;
    /// # let bytes = shot.finish();
    /// let file = seg2::File::open(&bytes)?;
    /// assert_eq!(file.value(b"UNITS"), Some(&b"METERS"[..]));
    /// assert_eq!(file.value(b"CLIENT"), Some(&b""[..]));
    /// assert_eq!(file.value(b"COMPANY"), None);
    /// # Ok::<(), seg2::Refusal>(())
    /// ```
    pub fn value(&self, keyword: &[u8]) -> Option<&'a [u8]> {
        self.part.value(keyword).unwrap_or_default()
    }

    /// The value of a keyword as a number: 20 where it is none (so where the keyword is
    /// missing), 21 where it has too many digits.
    ///
    /// ```
    /// # use seg2::{Builder, Order};
    /// # let mut shot = Builder::start(Order::Low, 1, b"DATUM\t0,5\nTRACE_SORT\t-2.3E6\n")?;
    /// # shot.add_integers(b"", 1, &[7])?;
    /// # let bytes = shot.finish();
    /// let file = seg2::File::open(&bytes)?;
    /// let number = file.number(b"TRACE_SORT")?;
    /// assert_eq!((number.minus, number.coefficient, number.power), (true, 23, 5));
    /// assert_eq!(file.number(b"DATUM").unwrap_err().number, 20);
    /// # Ok::<(), seg2::Refusal>(())
    /// ```
    pub fn number(&self, keyword: &[u8]) -> Result<Number, Refusal> {
        self.part.number(keyword)
    }

    /// The value of a keyword as a double: 20, 21, or 22 where it is too long, too large or too
    /// small.
    ///
    /// ```
    /// # use seg2::{Builder, Order};
    /// # let mut shot = Builder::start(Order::Low, 1, b"DATUM\t-34.6\nZ\t1.345E24\n")?;
    /// # shot.add_integers(b"", 1, &[7])?;
    /// # let bytes = shot.finish();
    /// let file = seg2::File::open(&bytes)?;
    /// assert_eq!(file.double(b"DATUM")?, -34.6);
    /// assert_eq!(file.double(b"Z").unwrap_err().number, 22);
    /// # Ok::<(), seg2::Refusal>(())
    /// ```
    pub fn double(&self, keyword: &[u8]) -> Result<f64, Refusal> {
        self.part.double(keyword)
    }

    /// The value of a keyword as a location: 23 where it has neither one value nor three
    /// (so where the keyword is missing), then 20 to 22 value by value.
    ///
    /// ```
    /// # use seg2::{Builder, Order};
    /// # let mut shot = Builder::start(Order::Low, 1, b"A\t1\nB\t1 2\nC\t1 2 x\n")?;
    /// # shot.add_integers(b"", 1, &[7])?;
    /// # let bytes = shot.finish();
    /// let file = seg2::File::open(&bytes)?;
    /// assert_eq!(file.location(b"A")?.count, 1);
    /// assert_eq!(file.location(b"B").unwrap_err().number, 23);
    /// let refusal = file.location(b"C").unwrap_err();
    /// assert_eq!((refusal.number, refusal.place), (20, 4));
    /// # Ok::<(), seg2::Refusal>(())
    /// ```
    pub fn location(&self, keyword: &[u8]) -> Result<Location, Refusal> {
        self.part.location(keyword)
    }

    /// The lines of a value of this file, parted by its line terminator, empty ones too;
    /// so n line terminators make n+1 lines. Free.
    ///
    /// ```
    /// # use seg2::{Builder, Order};
    /// # let mut shot = Builder::start(Order::Low, 1, b"")?;
    /// # shot.add_integers(b"NOTE\tWET\nNOTE\t\nNOTE\t COLD\n", 1, &[7])?;
    /// # let bytes = shot.finish();
    /// let file = seg2::File::open(&bytes)?;
    /// let value = file.trace(0)?.value(b"NOTE").unwrap();
    /// let lines: Vec<&[u8]> = file.lines(value).collect();
    /// assert_eq!(lines, [&b"WET"[..], b"", b" COLD"]);
    /// # Ok::<(), seg2::Refusal>(())
    /// ```
    pub fn lines<'v>(&self, value: &'v [u8]) -> Lines<'v>
    where
        'a: 'v,
    {
        Lines::of(Some(value), self.line_terminator())
    }

    /// The lines of the file's NOTE; none at all where it has none. Of a file that was read
    /// leniently, the first NOTE, be it `Note` or `note`.
    ///
    /// ```
    /// # use seg2::{Builder, Order};
    /// # let mut shot = Builder::start(Order::Low, 1, b"NOTE\tWET\nNOTE\tCOLD\n")?;
    /// # shot.add_integers(b"", 1, &[7])?;
    /// # let bytes = shot.finish();
    /// let file = seg2::File::open(&bytes)?;
    /// assert_eq!(file.note().collect::<Vec<_>>(), [&b"WET"[..], b"COLD"]);
    /// assert_eq!(file.trace(0)?.note().count(), 0);
    /// # Ok::<(), seg2::Refusal>(())
    /// ```
    pub fn note(&self) -> Lines<'a> {
        Lines::of(self.value(b"NOTE"), self.line_terminator())
    }
}

/// The traces of a file, in order: [`File::traces`].
///
/// ```
/// # use seg2::{Builder, Order};
/// # let mut shot = Builder::start(Order::Low, 2, b"")?;
/// # shot.add_integers(b"", 1, &[7])?;
/// # shot.add_integers(b"", 2, &[8, 9])?;
/// # let bytes = shot.finish();
/// let file = seg2::File::open(&bytes)?;
/// assert_eq!(file.traces().len(), 2);
/// assert_eq!(file.traces().last().unwrap().index(), 1);
/// # Ok::<(), seg2::Refusal>(())
/// ```
#[derive(Clone, Debug)]
pub struct Traces<'a> {
    file: File<'a>,
    next: usize,
}

impl<'a> Iterator for Traces<'a> {
    type Item = Trace<'a>;

    fn next(&mut self) -> Option<Trace<'a>> {
        // past the last there is 18
        let trace = self.file.trace(self.next).ok()?;
        self.next += 1;
        Some(trace)
    }

    fn size_hint(&self) -> (usize, Option<usize>) {
        let left = self.file.trace_count() - self.next;
        (left, Some(left))
    }
}

impl ExactSizeIterator for Traces<'_> {}

impl std::iter::FusedIterator for Traces<'_> {}
