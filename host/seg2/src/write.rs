//! Starting a file and adding traces.
//!
//! A sheet is lines of text: keyword, tab, value, 0Ah, with the keywords rising.
//! RECEIVER_GEOMETRY and SOURCE_GEOMETRY may have several lines running, each a string of
//! its own; consecutive NOTE lines at its end are the lines of one NOTE.
//!
//! A trace's sheet may have a CHANNEL_NUMBER, 1 to 32,767 in plain digits. The first trace
//! of a file chooses: every later one has it if the first has, and has it not if the first
//! has not.

use crate::{calls, Order, Refusal, MAXIMUM_AREA, MAXIMUM_LENGTH};

/// Writes the image of a new file without traces at the buffer's start and answers its
/// length. Refusals in order: 31 (slots not 1 to 16,383), 25, 26 (line by line), 27, 30.
/// A refusal has changed nothing; bytes past the image stay. The image is no file until a
/// trace is added.
///
/// ```
/// let mut buffer = [0xEE; 100];
/// let length = seg2::start(&mut buffer, seg2::Order::Low, 1, b"UNITS\tMETERS\n")?;
/// assert_eq!(length, 56);
/// assert_eq!(buffer[56], 0xEE);
/// assert_eq!(seg2::check(&buffer, length).unwrap_err().number, 5);
/// # Ok::<(), seg2::Refusal>(())
/// ```
pub fn start(buffer: &mut [u8], order: Order, slots: u32, sheet: &[u8]) -> Result<usize, Refusal> {
    let answer = calls::start(buffer, number_of(order), slots, sheet).told()?;
    Ok(answer.length)
}

fn number_of(order: Order) -> u32 {
    match order {
        Order::Low => 0,
        Order::High => 1,
    }
}

/// The room that a start needs: the length that [`start`] would answer, without a buffer.
/// Refusals in order: 31, 25, 26 (line by line), 27.
///
/// ```
/// let room = seg2::start_size(seg2::Order::Low, 1, b"UNITS\tMETERS\n")?;
/// let mut buffer = vec![0; room];
/// assert_eq!(seg2::start(&mut buffer, seg2::Order::Low, 1, b"UNITS\tMETERS\n")?, room);
/// assert_eq!(seg2::start_size(seg2::Order::Low, 0, b"").unwrap_err().number, 31);
/// # Ok::<(), seg2::Refusal>(())
/// ```
pub fn start_size(order: Order, slots: u32, sheet: &[u8]) -> Result<usize, Refusal> {
    let answer = calls::start_size(number_of(order), slots, sheet).told()?;
    Ok(answer.length)
}

/// Adds a trace of code 1 to 3 behind the file, or new image, that the buffer's first
/// `length` bytes are, and answers the new length. Refusals in order: 1 to 17 and 34 for
/// the file, 24, 25, 26 (line by line), 27, 35, 28, 29, 30. A refusal has changed nothing.
///
/// ```
/// let mut buffer = [0; 200];
/// let length = seg2::start(&mut buffer, seg2::Order::Low, 1, b"UNITS\tMETERS\n")?;
/// let length = seg2::add_integers(&mut buffer, length, b"STACK\t1\n", 1, &[1, -1, 256])?;
/// assert_eq!(length, 108);
/// assert!(seg2::check(&buffer, length).is_ok());
/// # Ok::<(), seg2::Refusal>(())
/// ```
pub fn add_integers(
    buffer: &mut [u8],
    length: usize,
    sheet: &[u8],
    code: u32,
    row: &[i32],
) -> Result<usize, Refusal> {
    let answer = calls::add_integers(buffer, length, sheet, code, row).told()?;
    Ok(answer.length)
}

/// Adds a trace of code 4 or 5 from bit patterns, in the same way as [`add_integers`].
///
/// ```
/// let mut buffer = [0; 200];
/// let length = seg2::start(&mut buffer, seg2::Order::High, 1, b"")?;
/// let length = seg2::add_bits(&mut buffer, length, b"", 5, &[1.5_f64.to_bits()])?;
/// assert_eq!(seg2::File::open_prefix(&buffer, length)?.trace(0)?.doubles()?, [1.5]);
/// # Ok::<(), seg2::Refusal>(())
/// ```
pub fn add_bits(
    buffer: &mut [u8],
    length: usize,
    sheet: &[u8],
    code: u32,
    row: &[u64],
) -> Result<usize, Refusal> {
    let answer = calls::add_bits(buffer, length, sheet, code, row).told()?;
    Ok(answer.length)
}

/// The room that an addition of `count` samples needs: the length that the file, or new
/// image, in the buffer's first `length` bytes would have, without room for it and without
/// the samples. Any of the five codes. Refusals in order: 1 to 17 and 34 for the file, 24,
/// 25, 26 (line by line), 27, 35, 28, and 30 where the file would be longer than
/// [`MAXIMUM_LENGTH`].
///
/// ```
/// let mut buffer = vec![0; seg2::start_size(seg2::Order::Low, 1, b"")?];
/// let length = seg2::start(&mut buffer, seg2::Order::Low, 1, b"")?;
/// let room = seg2::add_size(&buffer, length, b"STACK\t1\n", 1, 3)?;
/// buffer.resize(room, 0);
/// assert_eq!(seg2::add_integers(&mut buffer, length, b"STACK\t1\n", 1, &[1, -1, 256])?, room);
/// # Ok::<(), seg2::Refusal>(())
/// ```
pub fn add_size(
    buffer: &[u8],
    length: usize,
    sheet: &[u8],
    code: u32,
    count: usize,
) -> Result<usize, Refusal> {
    let answer = calls::add_size(buffer, length, sheet, code, count).told()?;
    Ok(answer.length)
}

/// A file under construction that owns its bytes and grows as traces are added, up to
/// [`MAXIMUM_LENGTH`]. A refusal leaves it as it was.
///
/// Each addition is one call, which checks what is there already.
///
/// ```
/// use seg2::{Builder, Order};
/// let mut shot = Builder::start(Order::Low, 2, b"UNITS\tMETERS\n")?;
/// shot.add_integers(b"STACK\t1\n", 1, &[1, -1, 256])?;
/// assert_eq!(shot.add_integers(b"", 1, &[40_000]).unwrap_err().number, 29);
/// assert_eq!(shot.bytes().len(), 112);
/// # Ok::<(), seg2::Refusal>(())
/// ```
#[derive(Clone, Debug, PartialEq, Eq)]
pub struct Builder {
    image: Vec<u8>,
}

impl Builder {
    /// A new file without traces, with room for pointers to so many. Refusals as [`start`].
    ///
    /// ```
    /// use seg2::{Builder, Order};
    /// let refusal = Builder::start(Order::Low, 1, b"UNITS METERS\n").unwrap_err();
    /// assert_eq!(refusal.to_string(), "refused (25) at byte 0 of the sheet: a line of the sheet is not a keyword, a tab and a value");
    /// ```
    pub fn start(order: Order, slots: u32, sheet: &[u8]) -> Result<Builder, Refusal> {
        let mut image = vec![0; start_size(order, slots, sheet)?];
        start(&mut image, order, slots, sheet)?;
        Ok(Builder { image })
    }

    /// A file, or a new image, that is there already and is to get more traces. Nothing is
    /// checked here: the next addition refuses what is neither, by 1 to 17 or 34.
    ///
    /// ```
    /// use seg2::{Builder, Order};
    /// let bytes = Builder::start(Order::Low, 1, b"")?.finish();
    /// let mut again = Builder::resume(bytes);
    /// again.add_integers(b"", 1, &[7])?;
    /// assert_eq!(Builder::resume(vec![]).add_integers(b"", 1, &[7]).unwrap_err().number, 1);
    /// # Ok::<(), seg2::Refusal>(())
    /// ```
    pub fn resume(bytes: Vec<u8>) -> Builder {
        Builder { image: bytes }
    }

    /// Adds a trace of code 1 to 3. Refusals as [`add_integers`]; 30 where the file would
    /// be longer than the maximum.
    ///
    /// ```
    /// use seg2::{code, Builder, Order};
    /// let mut shot = Builder::start(Order::Low, 1, b"")?;
    /// shot.add_integers(b"STACK\t1\n", code::FLOAT_20, &[0, 1, 2, 3])?;
    /// assert_eq!(shot.add_integers(b"", 1, &[]).unwrap_err().number, 24);
    /// # Ok::<(), seg2::Refusal>(())
    /// ```
    pub fn add_integers(&mut self, sheet: &[u8], code: u32, row: &[i32]) -> Result<(), Refusal> {
        self.grow(sheet, std::mem::size_of_val(row), |buffer, length| {
            add_integers(buffer, length, sheet, code, row)
        })
    }

    /// Adds a trace of code 4 or 5. Refusals as [`add_bits`]; 30 where the file would be
    /// longer than the maximum.
    ///
    /// ```
    /// use seg2::{code, Builder, Order};
    /// let mut shot = Builder::start(Order::Low, 1, b"")?;
    /// shot.add_bits(b"", code::FLOAT_32, &[u64::from(0.5_f32.to_bits())])?;
    /// assert_eq!(shot.bytes().len(), 80);
    /// # Ok::<(), seg2::Refusal>(())
    /// ```
    pub fn add_bits(&mut self, sheet: &[u8], code: u32, row: &[u64]) -> Result<(), Refusal> {
        self.grow(sheet, std::mem::size_of_val(row), |buffer, length| {
            add_bits(buffer, length, sheet, code, row)
        })
    }

    /// The bytes so far: a file once a trace was added.
    ///
    /// ```
    /// use seg2::{Builder, Order};
    /// let mut shot = Builder::start(Order::Low, 1, b"")?;
    /// assert_eq!(seg2::File::open(shot.bytes()).unwrap_err().number, 5);
    /// shot.add_integers(b"", 1, &[7])?;
    /// assert!(seg2::File::open(shot.bytes()).is_ok());
    /// # Ok::<(), seg2::Refusal>(())
    /// ```
    pub fn bytes(&self) -> &[u8] {
        &self.image
    }

    /// The bytes, given away.
    ///
    /// ```
    /// let bytes = seg2::Builder::start(seg2::Order::Low, 1, b"")?.finish();
    /// assert_eq!(bytes.len(), 40);
    /// # Ok::<(), seg2::Refusal>(())
    /// ```
    pub fn finish(self) -> Vec<u8> {
        self.image
    }

    /// Lends the bytes with room for one more trace behind them, then cuts them to the new
    /// length, or to the old one after a refusal. `data` is at least what the samples need,
    /// but for rounding up: no code needs more bytes than a row of its samples has. The exact
    /// room is [`add_size`]'s, which checks the file once more.
    fn grow(
        &mut self,
        sheet: &[u8],
        data: usize,
        add: impl FnOnce(&mut [u8], usize) -> Result<usize, Refusal>,
    ) -> Result<(), Refusal> {
        let old = self.image.len();
        let rounding = 3 + 3;
        let room = old + 32 + area_at_most(sheet) + data + rounding;
        self.image.resize(room.min(MAXIMUM_LENGTH).max(old), 0);
        let answer = add(&mut self.image, old);
        self.image.truncate(*answer.as_ref().unwrap_or(&old));
        answer.map(|_| ())
    }
}

/// At least what the strings of a sheet need: a line gives a string that is at most 3
/// bytes longer (offset, one separator, terminator, less tab and 0Ah); then the end mark
/// and rounding up. A sheet that needs more than the maximum is refused.
fn area_at_most(sheet: &[u8]) -> usize {
    let lines = sheet.iter().filter(|&&c| c == b'\n').count();
    (sheet.len() + 3 * lines + 2 + 3).min(MAXIMUM_AREA)
}
