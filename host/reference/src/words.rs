//! Whole numbers of 2, 4 and 8 bytes in either byte order.
//!
//! Document 01, "The file block": "All whole numbers follow the byte order told
//! by bytes 0 and 1".

/// The byte order of a file.
#[derive(Clone, Copy, Debug, PartialEq, Eq, Hash)]
pub enum Order {
    /// 55 3A: low byte first.
    Low,
    /// 3A 55: high byte first.
    High,
}

/// A byte past the end reads as 0, which keeps reading total. The checks never
/// ask for such a byte.
fn byte_at(bytes: &[u8], place: usize) -> u8 {
    bytes.get(place).copied().unwrap_or(0)
}

/// The whole number in `size` bytes, each byte weighing 256 times the next lower.
fn number_at(bytes: &[u8], place: usize, size: usize, order: Order) -> u64 {
    let mut value = 0;
    for step in 0..size {
        // From the highest weight to the lowest.
        let index = match order {
            Order::High => step,
            Order::Low => size - 1 - step,
        };
        value = value * 256 + u64::from(byte_at(bytes, place.saturating_add(index)));
    }
    value
}

pub fn u16_at(bytes: &[u8], place: usize, order: Order) -> u16 {
    number_at(bytes, place, 2, order) as u16
}

pub fn u32_at(bytes: &[u8], place: usize, order: Order) -> u32 {
    number_at(bytes, place, 4, order) as u32
}

pub fn u64_at(bytes: &[u8], place: usize, order: Order) -> u64 {
    number_at(bytes, place, 8, order)
}

pub fn bytes_of_u16(value: u16, order: Order) -> [u8; 2] {
    match order {
        Order::Low => value.to_le_bytes(),
        Order::High => value.to_be_bytes(),
    }
}

pub fn bytes_of_u32(value: u32, order: Order) -> [u8; 4] {
    match order {
        Order::Low => value.to_le_bytes(),
        Order::High => value.to_be_bytes(),
    }
}

pub fn bytes_of_u64(value: u64, order: Order) -> [u8; 8] {
    match order {
        Order::Low => value.to_le_bytes(),
        Order::High => value.to_be_bytes(),
    }
}

/// Rounded up to a multiple of 4: where blocks start and how long they are.
pub(crate) fn round_up_4(value: usize) -> usize {
    value.div_ceil(4) * 4
}

/// Zeros to a multiple of 4.
pub(crate) fn pad_to_4(bytes: &mut Vec<u8>) {
    bytes.resize(round_up_4(bytes.len()), 0);
}

#[cfg(test)]
mod tests {
    use super::*;

    #[test]
    fn both_orders_by_hand() {
        let bytes = [0x22, 0x44, 0x01, 0x02, 0x03, 0x04, 0x05, 0x06];
        assert_eq!(u16_at(&bytes, 0, Order::Low), 0x4422);
        assert_eq!(u16_at(&bytes, 0, Order::High), 0x2244);
        assert_eq!(u32_at(&bytes, 2, Order::Low), 0x04030201);
        assert_eq!(u32_at(&bytes, 2, Order::High), 0x01020304);
        assert_eq!(u64_at(&bytes, 0, Order::Low), 0x0605040302014422);
        assert_eq!(u64_at(&bytes, 0, Order::High), 0x2244010203040506);
    }

    #[test]
    fn written_numbers_read_back() {
        for order in [Order::Low, Order::High] {
            for value in [0, 1, 0x1234, 0xFF00, 0xFFFF] {
                assert_eq!(u16_at(&bytes_of_u16(value, order), 0, order), value);
            }
            for value in [0, 1, 0x12345678, u32::MAX] {
                assert_eq!(u32_at(&bytes_of_u32(value, order), 0, order), value);
            }
            for value in [0, 1, 0x123456789ABCDEF0, u64::MAX] {
                assert_eq!(u64_at(&bytes_of_u64(value, order), 0, order), value);
            }
        }
    }

    #[test]
    fn bytes_past_the_end_are_zero() {
        assert_eq!(u32_at(&[7], 0, Order::Low), 7);
        assert_eq!(u64_at(&[7], usize::MAX, Order::High), 0);
    }

    #[test]
    fn rounding() {
        let rounded: Vec<usize> = (0..=5).map(round_up_4).collect();
        assert_eq!(rounded, [0, 4, 4, 4, 4, 8]);
    }
}
