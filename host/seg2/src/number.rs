//! Numbers and locations in values, each with the decimals that were typed, and a number's
//! own text: read before it goes into a sheet, and written back for one (document 02, §4).

use crate::{calls, raw, Refusal, MAXIMUM_NUMBER_TEXT};

/// A number as it was written: the coefficient times ten to the power, negated where
/// `minus`. Zero has no minus.
///
/// ```
/// use seg2::{Builder, File, Number, Order};
/// let mut shot = Builder::start(Order::Low, 1, b"DELAY\t-0.020\n")?;
/// shot.add_integers(b"", 1, &[])?;
/// let file = File::open(shot.bytes())?;
/// let number = Number { minus: true, coefficient: 20, power: -3, decimals: 3 };
/// assert_eq!(file.number(b"DELAY")?, number);
/// # Ok::<(), seg2::Refusal>(())
/// ```
#[derive(Clone, Copy, Debug, PartialEq, Eq)]
pub struct Number {
    /// Whether a minus stands before a number that is not zero.
    pub minus: bool,
    /// All digits before E as one whole number.
    pub coefficient: u64,
    /// The power of ten.
    pub power: i32,
    /// How many digits stood after the point: the precision that was typed.
    pub decimals: u32,
}

impl Number {
    /// A text as a number: what a user typed, before it goes into a sheet. The answer is
    /// [`File::number`](crate::File::number)'s where a keyword's value is this text: 20
    /// where it is none, 21 where it has too many digits, place 0.
    ///
    /// ```
    /// use seg2::Number;
    /// assert_eq!(Number::read(b"0.250")?.decimals, 3);
    /// assert_eq!(Number::read(b"0.25")?.decimals, 2);
    /// assert_eq!(Number::read(b"2.50E-3")?.decimals, 2);
    /// assert_eq!(Number::read(b"0,25").unwrap_err().number, 20);
    /// # Ok::<(), seg2::Refusal>(())
    /// ```
    pub fn read(text: &[u8]) -> Result<Number, Refusal> {
        Ok(Number::of(calls::read_number(text).told()?))
    }

    /// Writes the number as text at the start of these bytes, and answers the text's
    /// length: exactly its decimals after the point, at least one digit before it and
    /// otherwise no zero in front, then E with the power plus the decimals where this is
    /// not 0. What was read is written in at most [`MAXIMUM_NUMBER_TEXT`] bytes, and reads
    /// back as the same number.
    ///
    /// Any number may be given. Refusals in order, place 0: 20 for zero with a minus, 21
    /// for more than 18 digits before E or more than 2 after it, 30 where there is no room.
    /// A refusal has changed nothing; bytes past the text stay.
    ///
    /// ```
    /// use seg2::Number;
    /// let mut text = [b'_'; 8];
    /// let length = Number::read(b"00.250")?.write(&mut text)?;
    /// assert_eq!((length, &text), (5, b"0.250___"));
    /// let zero = Number { minus: true, coefficient: 0, power: 0, decimals: 0 };
    /// assert_eq!(zero.write(&mut text).unwrap_err().number, 20);
    /// # Ok::<(), seg2::Refusal>(())
    /// ```
    pub fn write(&self, text: &mut [u8]) -> Result<usize, Refusal> {
        let &Number {
            minus,
            coefficient,
            power,
            decimals,
        } = self;
        let answer = calls::write_number(text, minus.into(), coefficient, power, decimals);
        Ok(answer.told()?.length)
    }

    /// The text that [`write`](Number::write) writes, with room enough: 20 or 21, never 30.
    ///
    /// ```
    /// use seg2::Number;
    /// let line = format!("DELAY\t{}\n", Number::read(b"-2.30E6")?.text()?);
    /// assert_eq!(line, "DELAY\t-2.30E6\n");
    /// # Ok::<(), seg2::Refusal>(())
    /// ```
    pub fn text(&self) -> Result<String, Refusal> {
        let mut text = [0; MAXIMUM_NUMBER_TEXT];
        let length = self.write(&mut text)?;
        // digits, a point, E and minus: each byte is its character
        Ok(text[..length].iter().map(|&c| char::from(c)).collect())
    }

    pub(crate) fn of(answer: raw::Number) -> Number {
        Number {
            minus: answer.minus == 1,
            coefficient: answer.coefficient,
            power: answer.power,
            decimals: answer.decimals,
        }
    }
}

/// A location: x alone, or x, y and z, each with how many digits stood after its point.
/// All of absent ones is 0.
///
/// ```
/// use seg2::{Builder, File, Order};
/// let mut shot = Builder::start(Order::Low, 1, b"")?;
/// shot.add_integers(b"SOURCE_LOCATION\t1 -2.0 0.50\n", 1, &[])?;
/// let at = File::open(shot.bytes())?.trace(0)?.location(b"SOURCE_LOCATION")?;
/// assert_eq!((at.count, at.x, at.y, at.z), (3, 1.0, -2.0, 0.5));
/// assert_eq!((at.x_decimals, at.y_decimals, at.z_decimals), (0, 1, 2));
/// # Ok::<(), seg2::Refusal>(())
/// ```
#[derive(Clone, Copy, Debug, PartialEq)]
pub struct Location {
    /// How many values there were: 1 or 3.
    pub count: u32,
    /// Along the line.
    pub x: f64,
    /// Across the line.
    pub y: f64,
    /// Up.
    pub z: f64,
    /// How many digits stood after the point of x.
    pub x_decimals: u32,
    /// How many digits stood after the point of y.
    pub y_decimals: u32,
    /// How many digits stood after the point of z.
    pub z_decimals: u32,
}

impl Location {
    pub(crate) fn of(answer: raw::Location) -> Location {
        Location {
            count: answer.count,
            x: answer.x,
            y: answer.y,
            z: answer.z,
            x_decimals: answer.x_decimals,
            y_decimals: answer.y_decimals,
            z_decimals: answer.z_decimals,
        }
    }
}
