//! The samples as plain Rust does them: chunks, and the standard library's
//! conversions. The order is settled before each loop, and no loop ends early, so that
//! the compiler may widen it.

pub fn read_integers(code: u8, block: &[u8], high: bool, row: &mut [i32]) -> bool {
    let needed = match code {
        1 => 2 * row.len(),
        2 => 4 * row.len(),
        _ => 10 * row.len() / 4,
    };
    if block.len() < needed {
        return false;
    }
    match (code, high) {
        (1, false) => from_words(block, row, i16::from_le_bytes),
        (1, true) => from_words(block, row, i16::from_be_bytes),
        (2, false) => from_longs(block, row, i32::from_le_bytes),
        (2, true) => from_longs(block, row, i32::from_be_bytes),
        (_, false) => from_groups(block, row, u16::from_le_bytes),
        (_, true) => from_groups(block, row, u16::from_be_bytes),
    }
    true
}

fn from_words(block: &[u8], row: &mut [i32], word: impl Fn([u8; 2]) -> i16) {
    for (sample, bytes) in row.iter_mut().zip(block.chunks_exact(2)) {
        *sample = i32::from(word([bytes[0], bytes[1]]));
    }
}

fn from_longs(block: &[u8], row: &mut [i32], long: impl Fn([u8; 4]) -> i32) {
    for (sample, bytes) in row.iter_mut().zip(block.chunks_exact(4)) {
        *sample = long([bytes[0], bytes[1], bytes[2], bytes[3]]);
    }
}

fn from_groups(block: &[u8], row: &mut [i32], word: impl Fn([u8; 2]) -> u16) {
    for (four, group) in row.chunks_exact_mut(4).zip(block.chunks_exact(10)) {
        let exponents = word([group[0], group[1]]);
        for (k, (sample, bytes)) in four.iter_mut().zip(group[2..].chunks_exact(2)).enumerate() {
            let exponent = (exponents >> (4 * k)) & 15;
            let mantissa = word([bytes[0], bytes[1]]);
            let value = match mantissa < 0x8000 {
                true => i32::from(mantissa),
                false => -i32::from(!mantissa),
            };
            *sample = value << exponent;
        }
    }
}

pub fn read_bits(code: u8, block: &[u8], high: bool, row: &mut [u64], classes: &mut [u8]) -> bool {
    let size = if code == 4 { 4 } else { 8 };
    if row.len() != classes.len() || block.len() < size * row.len() {
        return false;
    }
    match (code, high) {
        (4, false) => from_singles(block, row, classes, u32::from_le_bytes),
        (4, true) => from_singles(block, row, classes, u32::from_be_bytes),
        (_, false) => from_doubles(block, row, classes, u64::from_le_bytes),
        (_, true) => from_doubles(block, row, classes, u64::from_be_bytes),
    }
    true
}

fn from_singles(
    block: &[u8],
    row: &mut [u64],
    classes: &mut [u8],
    pattern: impl Fn([u8; 4]) -> u32,
) {
    for (sample, bytes) in row.iter_mut().zip(block.chunks_exact(4)) {
        *sample = u64::from(pattern([bytes[0], bytes[1], bytes[2], bytes[3]]));
    }
    // Zero, fraction alone, exponent, infinity, more: in that order of magnitude.
    for (class, &bits) in classes.iter_mut().zip(row.iter()) {
        let m = bits as u32 & 0x7FFF_FFFF;
        *class = u8::from(m > 0)
            + u8::from(m > 0x007F_FFFF)
            + u8::from(m > 0x7F7F_FFFF)
            + u8::from(m > 0x7F80_0000);
    }
}

fn from_doubles(
    block: &[u8],
    row: &mut [u64],
    classes: &mut [u8],
    pattern: impl Fn([u8; 8]) -> u64,
) {
    for (sample, bytes) in row.iter_mut().zip(block.chunks_exact(8)) {
        *sample = pattern(bytes.try_into().unwrap_or_default());
    }
    for (class, &bits) in classes.iter_mut().zip(row.iter()) {
        let m = bits & 0x7FFF_FFFF_FFFF_FFFF;
        *class = u8::from(m > 0)
            + u8::from(m > 0x000F_FFFF_FFFF_FFFF)
            + u8::from(m > 0x7FEF_FFFF_FFFF_FFFF)
            + u8::from(m > 0x7FF0_0000_0000_0000);
    }
}

/// Whether all samples can be held, a run of them at a time: within a run nothing ends
/// the loop.
fn all_held<T: Copy>(row: &[T], held: impl Fn(T) -> bool) -> bool {
    row.chunks(256)
        .all(|run| run.iter().fold(true, |all, &v| all & held(v)))
}

/// The first sample that code 1 or 3 cannot hold.
pub fn first_outside(code: u8, row: &[i32]) -> Option<usize> {
    let most: i32 = match code {
        1 => 32_767,
        3 => (1 << 30) - 1,
        _ => return None,
    };
    let least = if code == 1 { -32_768 } else { -most };
    let held = |v: i32| (v >= least) & (v <= most);
    match all_held(row, held) {
        true => None,
        false => row.iter().position(|&v| !held(v)),
    }
}

/// The first pattern that code 4 cannot hold.
pub fn first_wide(code: u8, row: &[u64]) -> Option<usize> {
    let held = |bits: u64| bits <= u64::from(u32::MAX);
    match code != 4 || all_held(row, held) {
        true => None,
        false => row.iter().position(|&bits| !held(bits)),
    }
}

/// The data bytes of samples that the code can hold, from the part's start on.
pub fn put_integers(code: u8, row: &[i32], high: bool, part: &mut [u8]) -> bool {
    let needed = match code {
        1 => 2 * row.len(),
        2 => 4 * row.len(),
        _ => 10 * row.len() / 4,
    };
    if part.len() < needed.next_multiple_of(4) {
        return false;
    }
    match (code, high) {
        (1, false) => to_words(row, part, u16::to_le_bytes),
        (1, true) => to_words(row, part, u16::to_be_bytes),
        (2, false) => to_longs(row, part, u32::to_le_bytes),
        (2, true) => to_longs(row, part, u32::to_be_bytes),
        (_, false) => to_groups(row, part, u16::to_le_bytes),
        (_, true) => to_groups(row, part, u16::to_be_bytes),
    }
    part[needed..needed.next_multiple_of(4)].fill(0);
    true
}

fn to_words(row: &[i32], part: &mut [u8], bytes_of: impl Fn(u16) -> [u8; 2]) {
    for (&sample, bytes) in row.iter().zip(part.chunks_exact_mut(2)) {
        bytes.copy_from_slice(&bytes_of(sample as u16));
    }
}

fn to_longs(row: &[i32], part: &mut [u8], bytes_of: impl Fn(u32) -> [u8; 4]) {
    for (&sample, bytes) in row.iter().zip(part.chunks_exact_mut(4)) {
        bytes.copy_from_slice(&bytes_of(sample as u32));
    }
}

fn to_groups(row: &[i32], part: &mut [u8], bytes_of: impl Fn(u16) -> [u8; 2]) {
    for (four, group) in row.chunks_exact(4).zip(part.chunks_exact_mut(10)) {
        let [a, b, c, d] = [0, 1, 2, 3].map(|k| float20_of(four[k]));
        let exponents = a.0 | b.0 << 4 | c.0 << 8 | d.0 << 12;
        let words = [exponents, a.1, b.1, c.1, d.1];
        for (word, bytes) in words.into_iter().zip(group.chunks_exact_mut(2)) {
            bytes.copy_from_slice(&bytes_of(word));
        }
    }
}

/// Exponent and mantissa.
fn float20_of(sample: i32) -> (u16, u16) {
    let magnitude = sample.unsigned_abs();
    let exponent = 17_u32.saturating_sub(magnitude.leading_zeros());
    let mantissa = (magnitude >> exponent) as u16;
    let sign = (sample >> 31) as u16;
    (exponent as u16, mantissa ^ sign)
}

/// The same of patterns that the code can hold.
pub fn put_bits(code: u8, row: &[u64], high: bool, part: &mut [u8]) -> bool {
    let size = if code == 4 { 4 } else { 8 };
    if part.len() < size * row.len() {
        return false;
    }
    match (code, high) {
        (4, false) => to_singles(row, part, u32::to_le_bytes),
        (4, true) => to_singles(row, part, u32::to_be_bytes),
        (_, false) => to_doubles(row, part, u64::to_le_bytes),
        (_, true) => to_doubles(row, part, u64::to_be_bytes),
    }
    true
}

fn to_singles(row: &[u64], part: &mut [u8], bytes_of: impl Fn(u32) -> [u8; 4]) {
    for (&bits, bytes) in row.iter().zip(part.chunks_exact_mut(4)) {
        bytes.copy_from_slice(&bytes_of(bits as u32));
    }
}

fn to_doubles(row: &[u64], part: &mut [u8], bytes_of: impl Fn(u64) -> [u8; 8]) {
    for (&bits, bytes) in row.iter().zip(part.chunks_exact_mut(8)) {
        bytes.copy_from_slice(&bytes_of(bits));
    }
}
