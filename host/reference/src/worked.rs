//! Document 01's worked values, document 02's and the paper's numbers as tables: inputs
//! with their answers, for the tests of the reader here and of the proved functions
//! alike. Nothing here uses the reader's or the writer's code.

use crate::number::Number;
use crate::words::Order;

const fn number(minus: bool, coefficient: u64, power: i32, decimals: u32) -> Number {
    Number {
        minus,
        coefficient,
        power,
        decimals,
    }
}

/// Texts and what each is as a number; a refusal by its number, at place 0.
pub const NUMBERS: &[(&str, Result<Number, u8>)] = &[
    ("-2.3E6", Ok(number(true, 23, 5, 1))),
    ("0.020", Ok(number(false, 20, -3, 3))),
    ("-34.6", Ok(number(true, 346, -1, 1))),
    ("0,020", Err(20)),
    ("12.", Err(20)),
    ("1.345E24", Ok(number(false, 1345, 21, 3))),
];

/// Document 02, §4: "`0.250` gives 3, `12` gives 0, `2.50E-3` gives 2". Each is written
/// back as it stands, and so are those behind them.
pub const DECIMALS: &[(&str, Number)] = &[
    ("0.250", number(false, 250, -3, 3)),
    ("12", number(false, 12, 0, 0)),
    ("2.50E-3", number(false, 250, -5, 2)),
    ("0", number(false, 0, 0, 0)),
    ("0.00", number(false, 0, -2, 2)),
    ("-2.3E6", number(true, 23, 5, 1)),
    ("-34.6", number(true, 346, -1, 1)),
    ("0.00000000000000005E17", number(false, 5, 0, 17)),
    ("999999999999999999", number(false, LARGEST, 0, 0)),
    ("9.99999999999999999E99", number(false, LARGEST, 82, 17)),
    (LONGEST_TEXT, number(true, LONGEST, -116, 17)),
];

/// The largest coefficient of 18 digits.
const LARGEST: u64 = 999_999_999_999_999_999;
const LONGEST: u64 = 123_456_789_012_345_678;

/// A number's longest text, of 24 bytes.
pub const LONGEST_TEXT: &str = "-1.23456789012345678E-99";

/// Numbers that are not written, with the row that refuses them however much room there
/// is: "20 zero with minus, 21 more than 18 digits or more than 2 after E".
pub const NOT_WRITTEN: &[(Number, u8)] = &[
    (number(true, 0, 0, 0), 20),
    (number(true, 0, -2, 2), 20),
    // 20 comes before 21
    (number(true, 0, 100, 0), 20),
    (number(true, 0, 0, u32::MAX), 20),
    // digits: the coefficient's own, and zeros down to one before the point
    (number(false, LARGEST + 1, 0, 0), 21),
    (number(false, LARGEST + 1, -3, 3), 21),
    (number(true, u64::MAX, 0, 0), 21),
    (number(false, 5, 0, 18), 21),
    (number(false, 0, 0, 18), 21),
    (number(false, 0, i32::MIN, 1 << 31), 21),
    (number(false, 0, i32::MAX, u32::MAX), 21),
    // after E: the power plus the count
    (number(false, 1, 100, 0), 21),
    (number(false, 1, -100, 0), 21),
    (number(false, 10, 99, 1), 21),
    (number(false, 10, -101, 1), 21),
    (number(false, 0, 100, 0), 21),
    (number(false, 1, i32::MAX, 17), 21),
    (number(false, 1, i32::MIN, 17), 21),
];

/// Document 02, §7: "a number by document 01, 1 to 32,767, without point or E". Zeros in
/// front are digits, of which a number has at most 18.
pub const CHANNEL_NUMBERS: &[&str] = &[
    "1",
    "9",
    "24",
    "32766",
    "32767",
    "007",
    "000000000000000001",
    "000000000000032767",
];

/// Values that are none.
pub const NO_CHANNEL_NUMBERS: &[&str] = &[
    "",
    "0",
    "00",
    "000000000000000000",
    "-0",
    "-1",
    "+1",
    "1.0",
    "1.",
    ".1",
    "0.1E1",
    "1E0",
    "1E4",
    "1e0",
    "32768",
    "65537",
    "4294967297",
    "999999999999999999",
    // no number: 19 digits, 20, and one more than 64 bits hold
    "0000000000000000001",
    "99999999999999999999",
    "18446744073709551617",
    "1 ",
    "1 2",
    "1,0",
    "12a",
    "A1",
    "0x1",
];

/// A number, and 22 as a double, at place 0.
pub const NO_DOUBLE: &str = "1.345E24";

/// "Two location values: 23", at place 0.
pub const NO_LOCATION: &str = "1 2";

/// The paper: "The numbers in the following list are allowable numeric expressions."
pub const PAPER_NUMBERS: &[(&str, Number)] = &[
    ("12", number(false, 12, 0, 0)),
    ("-3", number(true, 3, 0, 0)),
    ("12.657", number(false, 12657, -3, 3)),
    ("-34.6", number(true, 346, -1, 1)),
    ("1.345E24", number(false, 1345, 21, 3)),
    ("-2.3E6", number(true, 23, 5, 1)),
    ("5.6E-11", number(false, 56, -12, 1)),
    ("-2.0E-9", number(true, 20, -10, 1)),
];

/// Some of them as doubles.
pub const PAPER_DOUBLES: &[(&str, f64)] = &[
    ("5.6E-11", 5.6e-11),
    ("-2.0E-9", -2.0e-9),
    ("-2.3E6", -2_300_000.0),
    ("12.657", 12.657),
];

/// A code, an order, a data block, and the samples that stand in it.
pub type Block = (u8, Order, &'static [u8], &'static [i32]);

pub const CODES_1_AND_2: &[Block] = &[
    (1, Order::Low, &[0xFF, 0xFF], &[-1]),
    (1, Order::High, &[0xFF, 0xFF], &[-1]),
    (1, Order::Low, &[0x00, 0x80], &[-32_768]),
    (2, Order::High, &[0x80, 0, 0, 0], &[-2_147_483_648]),
];

pub const CODE_3: &[Block] = &[
    (
        3,
        Order::Low,
        &[0x10, 0xF2, 0x01, 0x00, 0xFE, 0xFF, 0x05, 0x00, 0xFF, 0x7F],
        &[1, -2, 20, 1_073_709_056],
    ),
    // High first turns each word's bytes, not all ten.
    (
        3,
        Order::High,
        &[0xF2, 0x10, 0x00, 0x01, 0xFF, 0xFE, 0x00, 0x05, 0x7F, 0xFF],
        &[1, -2, 20, 1_073_709_056],
    ),
];

/// Samples and their data bytes in code 3, low first: exponent 2 in bits 0-3, mantissa
/// 25000 = 61A8h; D is rounded up to 4.
pub const CODE_3_WRITTEN: ([i32; 4], [u8; 12]) = (
    [100_000, 0, 0, 0],
    [0x02, 0x00, 0xA8, 0x61, 0, 0, 0, 0, 0, 0, 0, 0],
);

/// Samples, and what each reads back as once it was written in code 3.
pub const CODE_3_KEPT: [(i32, i32); 3] = [
    (100_000, 100_000),
    (-32_769, -32_768),
    (1_073_741_823, 1_073_709_056),
];

/// Row 29: "of magnitude 2^30 or more under code 3".
pub const CODE_3_TOO_LARGE: [i32; 4] = [1_073_741_824, -1_073_741_824, i32::MIN, i32::MAX];

/// The listing's example: "Low first, one slot, sheet UNITS METERS, one trace of code 1
/// with samples 1, -1, 256 and sheet STACK 1".
pub const EXAMPLE_SHEET: &[u8] = b"UNITS\tMETERS\n";
pub const EXAMPLE_TRACE_SHEET: &[u8] = b"STACK\t1\n";
pub const EXAMPLE_SAMPLES: [i32; 3] = [1, -1, 256];

/// The example byte for byte: "pointer 56, B 44, D 8, length 108".
pub fn example() -> Vec<u8> {
    let mut bytes = vec![0x55, 0x3A, 1, 0, 4, 0, 1, 0, 1, 0, 0, 1, 0x0A, 0];
    bytes.extend([0; 18]);
    bytes.extend([56, 0, 0, 0]);
    bytes.extend(b"\x0F\0UNITS METERS\0\0\0\0\0\0");
    bytes.extend([0x22, 0x44, 44, 0, 8, 0, 0, 0, 3, 0, 0, 0, 1]);
    bytes.extend([0; 19]);
    bytes.extend(b"\x0A\0STACK 1\0\0\0");
    bytes.extend([1, 0, 0xFF, 0xFF, 0, 1, 0, 0]);
    bytes
}

/// What the listing program prints for it.
pub const EXAMPLE_LISTED: &str = "SEG2\tlow\t1\t4\n\
                                  S\tF\tUNITS\tMETERS\n\
                                  T\t0\t1\t3\n\
                                  S\t0\tSTACK\t1\n";
