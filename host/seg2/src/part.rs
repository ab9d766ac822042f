//! The questions of a part: strings, keywords and numbers in values, which the file and a
//! trace share, and a trace's block and samples. `File`, `Trace` and `Quick` hand them on,
//! each with an example of its own.

use crate::{calls, code, raw, Bits, Block, Location, Number, Refusal};

/// A call on the buffer, the file's length in it, and a part.
type Ask<A> = fn(&[u8], usize, i32) -> A;
/// The same with a keyword.
type AskKey<A> = fn(&[u8], usize, i32, &[u8]) -> A;
/// The same with a row that is filled.
type Fill<E> = fn(&[u8], usize, i32, &mut [E]) -> raw::Verdict;
/// The same with two of them.
type FillBoth<E, F> = fn(&[u8], usize, i32, &mut [E], &mut [F]) -> raw::Verdict;

/// The calls that answer them. A full question, its quick form and its lenient form differ
/// in this alone.
#[derive(Debug)]
pub struct Calls {
    trace_block: Ask<raw::Trace>,
    string_count: Ask<raw::Count>,
    string: fn(&[u8], usize, i32, usize) -> raw::Text,
    strings: Fill<usize>,
    keyword: AskKey<raw::Keyword>,
    value: AskKey<raw::Value>,
    number: AskKey<raw::Number>,
    double: AskKey<raw::Double>,
    location: AskKey<raw::Location>,
    integers: Fill<i32>,
    bits: FillBoth<u64, u8>,
}

/// Each checks the whole file first. The file's own strings have no quick ones.
pub static FULL: Calls = Calls {
    trace_block: calls::trace_block,
    string_count: calls::string_count,
    string: calls::string,
    strings: calls::strings,
    keyword: calls::keyword,
    value: calls::value,
    number: calls::number,
    double: calls::double,
    location: calls::location,
    integers: calls::integers,
    bits: calls::bits,
};

/// Each reads one trace, and judges what it reads.
pub static QUICK: Calls = Calls {
    trace_block: calls::quick_trace_block,
    string_count: calls::quick_string_count,
    string: calls::quick_string,
    strings: calls::quick_strings,
    keyword: calls::quick_keyword,
    value: calls::quick_value,
    number: calls::quick_number,
    double: calls::quick_double,
    location: calls::quick_location,
    integers: calls::quick_integers,
    bits: calls::quick_bits,
};

/// Each checks the whole file twice, leniently and strictly. The strict verdict beside an
/// answer is the same for all of them, so it is kept once, in the file.
pub static LENIENT: Calls = Calls {
    trace_block: |b, n, part| calls::lenient_trace_block(b, n, part).answer,
    string_count: |b, n, part| calls::lenient_string_count(b, n, part).answer,
    string: |b, n, part, index| calls::lenient_string(b, n, part, index).answer,
    strings: |b, n, part, row| calls::lenient_strings(b, n, part, row).answer,
    keyword: |b, n, part, key| calls::lenient_keyword(b, n, part, key).answer,
    value: |b, n, part, key| calls::lenient_value(b, n, part, key).answer,
    number: |b, n, part, key| calls::lenient_number(b, n, part, key).answer,
    double: |b, n, part, key| calls::lenient_double(b, n, part, key).answer,
    location: |b, n, part, key| calls::lenient_location(b, n, part, key).answer,
    integers: |b, n, part, row| calls::lenient_integers(b, n, part, row).answer,
    bits: |b, n, part, row, classes| calls::lenient_bits(b, n, part, row, classes).answer,
};

/// Keyword and value of a string: the buffer's own bytes.
///
/// ```
/// # use seg2::{Builder, Order};
/// # let mut shot = Builder::start(Order::Low, 1, b"")?;
/// # shot.add_integers(b"STACK\t4\n", 1, &[7])?;
/// # let bytes = shot.finish();
/// let strings: Vec<seg2::Pair> = seg2::Quick::new(&bytes).strings(0)?.collect();
/// assert_eq!(strings, [(&b"STACK"[..], &b"4"[..])]);
/// # Ok::<(), seg2::Refusal>(())
/// ```
pub type Pair<'a> = (&'a [u8], &'a [u8]);

/// A part of a file: the file itself (-1) or a trace.
///
/// The buffer is borrowed and so cannot change. So where the check has accepted the file,
/// a question that names a part of it is never refused by 1 to 18 again; nor is a lenient
/// one, where the lenient check has. What is answered lies in the buffer.
#[derive(Clone, Copy, Debug)]
pub struct Part<'a> {
    pub buffer: &'a [u8],
    pub length: usize,
    pub number: i32,
    pub calls: &'static Calls,
}

impl<'a> Part<'a> {
    /// A trace of the same file, to be asked by these calls. A file has far fewer traces than
    /// 31 bits count, so a larger number is 18 as well.
    pub fn trace(self, index: usize, calls: &'static Calls) -> Part<'a> {
        Part {
            number: i32::try_from(index).unwrap_or(i32::MAX),
            calls,
            ..self
        }
    }

    pub fn block(self) -> Result<Block, Refusal> {
        let answer = (self.calls.trace_block)(self.buffer, self.length, self.number);
        Ok(Block::of(answer.told()?))
    }

    pub fn string_count(self) -> Result<usize, Refusal> {
        let answer = (self.calls.string_count)(self.buffer, self.length, self.number);
        Ok(answer.told()?.count)
    }

    pub fn string(self, index: usize) -> Result<Option<Pair<'a>>, Refusal> {
        let answer = (self.calls.string)(self.buffer, self.length, self.number, index).told()?;
        let places = [
            answer.key_start,
            answer.key_length,
            answer.value_start,
            answer.value_length,
        ];
        Ok((answer.found == 1).then(|| pair(self.buffer, places)))
    }

    /// One call that counts the strings, and one for the places of all of them.
    pub fn strings(self) -> Result<Strings<'a>, Refusal> {
        let mut row = vec![0; 4 * self.string_count()?];
        (self.calls.strings)(self.buffer, self.length, self.number, &mut row).told()?;
        Ok(Strings {
            buffer: self.buffer,
            row,
            next: 0,
        })
    }

    pub fn has(self, keyword: &[u8]) -> Result<bool, Refusal> {
        let answer = (self.calls.keyword)(self.buffer, self.length, self.number, keyword);
        Ok(answer.told()?.found == 1)
    }

    pub fn value(self, keyword: &[u8]) -> Result<Option<&'a [u8]>, Refusal> {
        let answer = (self.calls.value)(self.buffer, self.length, self.number, keyword).told()?;
        // a no is start 0, where no value stands: not even an empty one is in the first 32 bytes
        let end = answer.value_start + answer.value_length;
        Ok((answer.value_start > 0).then(|| &self.buffer[answer.value_start..end]))
    }

    pub fn number(self, keyword: &[u8]) -> Result<Number, Refusal> {
        let answer = (self.calls.number)(self.buffer, self.length, self.number, keyword);
        Ok(Number::of(answer.told()?))
    }

    pub fn double(self, keyword: &[u8]) -> Result<f64, Refusal> {
        let answer = (self.calls.double)(self.buffer, self.length, self.number, keyword);
        Ok(answer.told()?.value)
    }

    pub fn location(self, keyword: &[u8]) -> Result<Location, Refusal> {
        let answer = (self.calls.location)(self.buffer, self.length, self.number, keyword);
        Ok(Location::of(answer.told()?))
    }

    pub fn integers_into(self, row: &mut [i32]) -> Result<(), Refusal> {
        (self.calls.integers)(self.buffer, self.length, self.number, row).told()?;
        Ok(())
    }

    /// The samples of a trace with this block.
    pub fn integers(self, block: Block) -> Result<Vec<i32>, Refusal> {
        let mut row = vec![0; block.sample_count];
        self.integers_into(&mut row)?;
        Ok(row)
    }

    pub fn bits_into(self, row: &mut [u64], classes: &mut [u8]) -> Result<(), Refusal> {
        (self.calls.bits)(self.buffer, self.length, self.number, row, classes).told()?;
        Ok(())
    }

    /// The patterns of a trace with this block, and their classes.
    pub fn bits(self, block: Block) -> Result<Bits, Refusal> {
        let mut bits = Bits {
            patterns: vec![0; block.sample_count],
            classes: vec![0; block.sample_count],
        };
        self.bits_into(&mut bits.patterns, &mut bits.classes)?;
        Ok(bits)
    }

    pub fn doubles(self, block: Block) -> Result<Vec<f64>, Refusal> {
        if block.is_integers() {
            let integers = self.integers(block)?.into_iter();
            return Ok(integers.map(f64::from).collect());
        }
        let patterns = self.bits(block)?.patterns.into_iter();
        Ok(match block.code {
            // a pattern of code 4 has 32 bits
            code::FLOAT_32 => patterns.map(|p| f32::from_bits(p as u32).into()).collect(),
            _ => patterns.map(f64::from_bits).collect(),
        })
    }
}

/// Start and length of a keyword, then of a value.
fn pair(buffer: &[u8], places: [usize; 4]) -> Pair<'_> {
    let [key, letters, value, size] = places;
    (&buffer[key..key + letters], &buffer[value..value + size])
}

/// Keyword and value of each string of a block, in order:
/// [`File::strings`](crate::File::strings), [`Trace::strings`](crate::Trace::strings) and
/// [`Quick::strings`](crate::Quick::strings). Where they stand was asked for when it was
/// made, so an item is free.
///
/// ```
/// # use seg2::{Builder, Order};
/// # let mut shot = Builder::start(Order::Low, 1, b"UNITS\tMETERS\n")?;
/// # shot.add_integers(b"", 1, &[7])?;
/// # let bytes = shot.finish();
/// let mut strings = seg2::File::open(&bytes)?.strings();
/// assert_eq!(strings.len(), 1);
/// assert_eq!(strings.next(), Some((&b"UNITS"[..], &b"METERS"[..])));
/// # Ok::<(), seg2::Refusal>(())
/// ```
#[derive(Clone, Debug, Default)]
pub struct Strings<'a> {
    buffer: &'a [u8],
    /// Four places for each string.
    row: Vec<usize>,
    /// The next of them.
    next: usize,
}

impl<'a> Iterator for Strings<'a> {
    type Item = Pair<'a>;

    fn next(&mut self) -> Option<Pair<'a>> {
        let &places = self.row[self.next..].first_chunk()?;
        self.next += places.len();
        Some(pair(self.buffer, places))
    }

    fn size_hint(&self) -> (usize, Option<usize>) {
        let left = (self.row.len() - self.next) / 4;
        (left, Some(left))
    }
}

impl ExactSizeIterator for Strings<'_> {}

impl std::iter::FusedIterator for Strings<'_> {}

/// The lines of a value, parted by whole line terminators from the left:
/// [`File::lines`](crate::File::lines), [`File::note`](crate::File::note),
/// [`Trace::note`](crate::Trace::note) and [`Quick::note`](crate::Quick::note).
///
/// ```
/// # use seg2::{Builder, Order};
/// # let mut shot = Builder::start(Order::Low, 1, b"NOTE\tWET\nNOTE\tCOLD\n")?;
/// # shot.add_integers(b"", 1, &[7])?;
/// # let bytes = shot.finish();
/// let file = seg2::File::open(&bytes)?;
/// assert_eq!(file.note().last(), Some(&b"COLD"[..]));
/// # Ok::<(), seg2::Refusal>(())
/// ```
#[derive(Clone, Debug)]
pub struct Lines<'a> {
    rest: Option<&'a [u8]>,
    terminator: &'a [u8],
}

impl<'a> Lines<'a> {
    /// Of no value at all there are no lines.
    pub(crate) fn of(value: Option<&'a [u8]>, terminator: &'a [u8]) -> Lines<'a> {
        Lines {
            rest: value,
            terminator,
        }
    }
}

impl<'a> Iterator for Lines<'a> {
    type Item = &'a [u8];

    fn next(&mut self) -> Option<&'a [u8]> {
        let rest = self.rest?;
        let size = self.terminator.len();
        let cut = rest.windows(size).position(|w| w == self.terminator);
        self.rest = cut.map(|at| &rest[at + size..]);
        Some(cut.map_or(rest, |at| &rest[..at]))
    }
}

impl std::iter::FusedIterator for Lines<'_> {}
