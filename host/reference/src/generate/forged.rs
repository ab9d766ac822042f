//! Numbers to be written, most of them such as no text gives: document 02, §4.

use super::rng::Rng;
use crate::number::Number;
use std::collections::BTreeSet;

/// Every edge of the writing with every other: coefficients of 1, 2, 17, 18 and more
/// digits; counts of decimals up to the largest; powers that bring E's number to 0, to its
/// largest and past it, and the largest powers.
pub fn number_edges() -> Vec<Number> {
    let tens = |power: u32| 10_u64.pow(power);
    let coefficients = [
        0,
        1,
        9,
        10,
        tens(17) - 1,
        tens(17),
        tens(18) - 1,
        tens(18),
        1 << 63,
        u64::MAX,
    ];
    let mut edges = Vec::new();
    for decimals in [0, 1, 2, 16, 17, 18, 19, 1 << 31, u32::MAX] {
        for power in power_edges(decimals) {
            for coefficient in coefficients {
                edges.extend([false, true].map(|minus| Number {
                    minus,
                    coefficient,
                    power,
                    decimals,
                }));
            }
        }
    }
    edges
}

/// The powers beside a count of decimals at which something changes, each once.
fn power_edges(decimals: u32) -> Vec<i32> {
    // E's number is the power plus the count.
    let exponents = [
        -101, -100, -99, -98, -10, -9, -1, 0, 1, 9, 10, 98, 99, 100, 101,
    ];
    let powers = exponents.map(|exponent| exponent - i64::from(decimals));
    let ends = [i32::MIN, i32::MIN + 1, -1, 0, 1, i32::MAX - 1, i32::MAX].map(i64::from);
    let all: BTreeSet<i64> = powers.into_iter().chain(ends).collect();
    all.into_iter()
        .filter_map(|power| i32::try_from(power).ok())
        .collect()
}

/// Any number: most often one that can be written, or nearly. Once in four times one of
/// its values has a high bit more, which a writer of too few bits would not see.
pub fn forged_number(rng: &mut Rng) -> Number {
    let digits = rng.pick(&[1, 2, 9, 16, 17, 18, 18, 19]);
    let decimals = rng.between(0, 18) as u32;
    let exponent = rng.between(0, 210) as i32 - 105;
    let mut number = Number {
        minus: rng.one_in(2),
        coefficient: match rng.between(0, 7) {
            0 => 0,
            1 => rng.bits(),
            _ => rng.bits() % 10_u64.pow(digits),
        },
        power: exponent - decimals as i32,
        decimals,
    };
    let bit = rng.between(8, 31);
    match rng.between(0, 11) {
        0 => number.coefficient ^= 1 << (bit + 32),
        1 => number.power ^= 1 << bit,
        2 => number.decimals ^= 1 << bit,
        _ => {}
    }
    number
}
