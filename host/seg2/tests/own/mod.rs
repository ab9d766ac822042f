//! The reference's answers as the wrapper has them.
#![allow(dead_code)] // no test needs all of them

use seg2::{Block, Location, Number, Pair, Refusal};
use seg2_reference as reference;

pub fn refusal(refusal: reference::Refusal) -> Refusal {
    Refusal {
        number: refusal.number.into(),
        part: refusal.part.try_into().expect("a part of 32 bits"),
        place: refusal.place.try_into().expect("a place in a buffer"),
    }
}

pub fn block(block: &reference::Trace) -> Block {
    Block {
        start: block.p as usize,
        block_size: block.b.into(),
        data_size: block.d as usize,
        sample_count: block.s as usize,
        code: block.code.into(),
    }
}

pub fn pair<'a>(buffer: &'a [u8], string: &reference::StringPlace) -> Pair<'a> {
    let (keyword, value) = (string.keyword.clone(), string.value.clone());
    (&buffer[keyword], &buffer[value])
}

pub fn number(number: reference::Number) -> Number {
    Number {
        minus: number.minus,
        coefficient: number.coefficient,
        power: number.power,
        decimals: number.decimals,
    }
}

pub fn location(location: reference::Location) -> Location {
    let [x_decimals, y_decimals, z_decimals] = location.decimals;
    Location {
        count: location.count.into(),
        x: location.x,
        y: location.y,
        z: location.z,
        x_decimals,
        y_decimals,
        z_decimals,
    }
}
