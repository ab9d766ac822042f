//! The five sample formats, both ways, on a data block alone: document 01,
//! "Samples", and the paper's figures B-1 to B-5.

use crate::refusal::{refuse_if, Refusal};
use crate::words::{
    bytes_of_u16, bytes_of_u32, bytes_of_u64, pad_to_4, u16_at, u32_at, u64_at, Order,
};

/// Classes of codes 4 and 5.
const ZERO: u8 = 0;
const UNDERFLOW: u8 = 1;
const NUMBER: u8 = 2;
const INFINITY: u8 = 3;
const NOT_A_NUMBER: u8 = 4;

/// "Needed bytes: code 1: 2S, code 2: 4S, code 3: 10S/4, code 4: 4S, code 5:
/// 8S"; `None` for any other code. (Counts are at most 2^32 in a file; for any
/// larger one the answer stops at the largest number.)
pub fn needed_bytes(code: u8, count: u64) -> Option<u64> {
    match code {
        1 => Some(count.saturating_mul(2)),
        2 | 4 => Some(count.saturating_mul(4)),
        3 => Some(count.saturating_mul(10) / 4),
        5 => Some(count.saturating_mul(8)),
        _ => None,
    }
}

/// Code 1: 16 bits, two's complement. Every whole sample of the data.
fn decode_code_1(order: Order, data: &[u8]) -> Vec<i32> {
    data.chunks_exact(2)
        .map(|sample| i32::from(u16_at(sample, 0, order) as i16))
        .collect()
}

/// Code 2: 32 bits, two's complement. Every whole sample of the data.
fn decode_code_2(order: Order, data: &[u8]) -> Vec<i32> {
    data.chunks_exact(4)
        .map(|sample| u32_at(sample, 0, order) as i32)
        .collect()
}

/// Code 3: "groups of 10 bytes for 4 samples, five 2-byte words each in file
/// order". Every whole group of the data.
fn decode_code_3(order: Order, data: &[u8]) -> Vec<i32> {
    data.chunks_exact(10)
        .flat_map(|group| decode_group(order, group))
        .collect()
}

/// "The first holds four exponents, sample 0 in bits 0-3, sample 3 in bits
/// 12-15. Then four 16-bit one's complement mantissas."
fn decode_group(order: Order, group: &[u8]) -> [i32; 4] {
    let exponents = u16_at(group, 0, order);
    [0, 1, 2, 3].map(|i| {
        let exponent = (exponents >> (4 * i)) & 15;
        let mantissa = ones_complement(u16_at(group, 2 + 2 * i, order));
        mantissa * (1 << exponent)
    })
}

/// A set sign bit means minus the inverted bits, so FFFFh counts as 0.
fn ones_complement(word: u16) -> i32 {
    if word & 0x8000 == 0 {
        i32::from(word)
    } else {
        -i32::from(!word)
    }
}

/// Code 4: the 32-bit pattern is kept. Every whole sample of the data.
fn decode_code_4(order: Order, data: &[u8]) -> Vec<u64> {
    data.chunks_exact(4)
        .map(|sample| u64::from(u32_at(sample, 0, order)))
        .collect()
}

/// Code 5: the 64-bit pattern is kept. Every whole sample of the data.
fn decode_code_5(order: Order, data: &[u8]) -> Vec<u64> {
    data.chunks_exact(8)
        .map(|sample| u64_at(sample, 0, order))
        .collect()
}

/// The integers of codes 1 to 3; `None` for any other code.
pub fn decode_integers(code: u8, order: Order, data: &[u8]) -> Option<Vec<i32>> {
    match code {
        1 => Some(decode_code_1(order, data)),
        2 => Some(decode_code_2(order, data)),
        3 => Some(decode_code_3(order, data)),
        _ => None,
    }
}

/// The patterns of codes 4 and 5; `None` for any other code.
pub fn decode_bits(code: u8, order: Order, data: &[u8]) -> Option<Vec<u64>> {
    match code {
        4 => Some(decode_code_4(order, data)),
        5 => Some(decode_code_5(order, data)),
        _ => None,
    }
}

/// The class of a code 4 pattern: 8 exponent bits above 23 of fraction. Bits
/// above 32 are not part of the pattern.
pub fn class_of_code_4(bits: u64) -> u8 {
    class((bits >> 23) & 0xFF, 0xFF, bits & 0x7F_FFFF)
}

/// The class of a code 5 pattern: 11 exponent bits above 52 of fraction.
pub fn class_of_code_5(bits: u64) -> u8 {
    class((bits >> 52) & 0x7FF, 0x7FF, bits & 0xF_FFFF_FFFF_FFFF)
}

/// "zero, underflow (exponent bits 0, fraction not 0), number, infinity, not a
/// number"
fn class(exponent: u64, all_ones: u64, fraction: u64) -> u8 {
    if exponent == 0 {
        if fraction == 0 {
            ZERO
        } else {
            UNDERFLOW
        }
    } else if exponent == all_ones {
        if fraction == 0 {
            INFINITY
        } else {
            NOT_A_NUMBER
        }
    } else {
        NUMBER
    }
}

/// Integers as the D bytes of a data block, or refusal 28 or 29.
pub fn encode_integers(code: u8, order: Order, row: &[i32]) -> Result<Vec<u8>, Refusal> {
    refuse_if(!matches!(code, 1..=3), Refusal::file(28, 0))?;
    refuse_if(code == 3 && row.len() % 4 != 0, Refusal::file(28, 0))?;
    if let Some(index) = row.iter().position(|&sample| !fits(code, sample)) {
        return Err(Refusal::file(29, index));
    }
    let mut data = match code {
        1 => encode_code_1(order, row),
        2 => encode_code_2(order, row),
        _ => encode_code_3(order, row),
    };
    pad_to_4(&mut data); // "D is the needed bytes rounded up to 4."
    Ok(data)
}

/// Row 29: "sample outside code 1's range, of magnitude 2^30 or more under code 3".
fn fits(code: u8, sample: i32) -> bool {
    match code {
        1 => (-32_768..=32_767).contains(&sample),
        3 => sample.unsigned_abs() < 1 << 30,
        _ => true,
    }
}

fn encode_code_1(order: Order, row: &[i32]) -> Vec<u8> {
    row.iter()
        .flat_map(|&sample| bytes_of_u16(sample as u16, order))
        .collect()
}

fn encode_code_2(order: Order, row: &[i32]) -> Vec<u8> {
    row.iter()
        .flat_map(|&sample| bytes_of_u32(sample as u32, order))
        .collect()
}

fn encode_code_3(order: Order, row: &[i32]) -> Vec<u8> {
    row.chunks_exact(4)
        .flat_map(|four| encode_group(order, four))
        .collect()
}

/// Five words: the exponents, sample 0 in the lowest bits, then the mantissas.
fn encode_group(order: Order, four: &[i32]) -> Vec<u8> {
    let floats: Vec<(u16, u16)> = four.iter().map(|&sample| float_of(sample)).collect();
    let exponents = floats.iter().rev().fold(0, |word, (e, _)| word * 16 + e);
    let mut group = bytes_of_u16(exponents, order).to_vec();
    for (_, mantissa) in floats {
        group.extend(bytes_of_u16(mantissa, order));
    }
    group
}

/// "the exponent is the smallest .. that brings it to at most 32,767; low bits
/// are cut toward zero; 0 is 0000h". Exponent and mantissa word of a sample
/// whose magnitude is under 2^30.
fn float_of(sample: i32) -> (u16, u16) {
    let mut magnitude = sample.unsigned_abs();
    let mut exponent = 0;
    while magnitude > 32_767 {
        magnitude /= 2;
        exponent += 1;
    }
    let word = magnitude as u16;
    (exponent, if sample < 0 { !word } else { word })
}

/// Bit patterns as the D bytes of a data block, or refusal 28 or 29.
pub fn encode_bits(code: u8, order: Order, row: &[u64]) -> Result<Vec<u8>, Refusal> {
    refuse_if(!matches!(code, 4 | 5), Refusal::file(28, 0))?;
    let too_wide = |&bits: &u64| code == 4 && bits > u64::from(u32::MAX);
    if let Some(index) = row.iter().position(too_wide) {
        return Err(Refusal::file(29, index));
    }
    // Both sizes are multiples of 4: no bytes to add.
    Ok(match code {
        4 => row
            .iter()
            .flat_map(|&bits| bytes_of_u32(bits as u32, order))
            .collect(),
        _ => row
            .iter()
            .flat_map(|&bits| bytes_of_u64(bits, order))
            .collect(),
    })
}

#[cfg(test)]
mod tests {
    use super::*;

    #[test]
    fn ones_complement_words() {
        assert_eq!(ones_complement(0), 0);
        assert_eq!(ones_complement(0xFFFF), 0);
        assert_eq!(ones_complement(0xFFFE), -1);
        assert_eq!(ones_complement(0x8000), -32_767);
        assert_eq!(ones_complement(0x7FFF), 32_767);
    }

    /// Document 01 finds the exponent from the leading zeros of the magnitude.
    #[test]
    fn exponent_from_leading_zeros() {
        for bit in 0..30 {
            for sample in [1i32 << bit, (1 << bit) + 1, (1 << bit) - 1] {
                let bits = 32 - sample.leading_zeros();
                assert_eq!(u32::from(float_of(sample).0), bits.saturating_sub(15));
                assert_eq!(float_of(-sample).0, float_of(sample).0);
            }
        }
    }

    #[test]
    fn partial_samples_are_not_decoded() {
        assert_eq!(decode_code_1(Order::Low, &[1, 0, 2]), [1]);
        assert_eq!(decode_code_2(Order::Low, &[1, 0, 0]), []);
        assert_eq!(decode_code_3(Order::Low, &[0; 19]), [0; 4]);
        assert_eq!(decode_code_4(Order::High, &[0, 0, 0, 1, 9]), [1]);
        assert_eq!(decode_code_5(Order::High, &[0; 7]), []);
    }

    #[test]
    fn needed() {
        let needed: Vec<_> = (0..=6).map(|code| needed_bytes(code, 8)).collect();
        let expected = [None, Some(16), Some(32), Some(20), Some(32), Some(64), None];
        assert_eq!(needed, expected);
        assert_eq!(needed_bytes(5, u64::MAX), Some(u64::MAX));
    }
}
