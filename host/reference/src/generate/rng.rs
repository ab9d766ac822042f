//! A small seeded generator of numbers (splitmix64), the same on all machines.

/// The state; equal seeds give equal numbers.
#[derive(Clone, Debug)]
pub struct Rng {
    state: u64,
}

impl Rng {
    pub fn new(seed: u64) -> Rng {
        Rng { state: seed }
    }

    /// The next 64 bits.
    pub fn bits(&mut self) -> u64 {
        self.state = self.state.wrapping_add(0x9E37_79B9_7F4A_7C15);
        let mut z = self.state;
        z = (z ^ (z >> 30)).wrapping_mul(0xBF58_476D_1CE4_E5B9);
        z = (z ^ (z >> 27)).wrapping_mul(0x94D0_49BB_1331_11EB);
        z ^ (z >> 31)
    }

    /// A number from `low` to `high`, both included; `low` when there is no other.
    pub fn between(&mut self, low: usize, high: usize) -> usize {
        let choices = (high.saturating_sub(low) as u64).saturating_add(1);
        low + (self.bits() % choices) as usize
    }

    /// True once in `times`.
    pub fn one_in(&mut self, times: usize) -> bool {
        self.between(1, times) == 1
    }

    pub fn byte(&mut self) -> u8 {
        self.bits() as u8
    }

    /// So many bytes, half of the time all alike, so that zeros are frequent.
    pub fn junk(&mut self, count: usize) -> Vec<u8> {
        if self.one_in(2) {
            (0..count).map(|_| self.byte()).collect()
        } else {
            let alike = self.pick(&[0x00, 0x00, 0x20, 0xFF]);
            vec![alike; count]
        }
    }

    /// One of the choices; there is at least one.
    pub fn pick<T: Clone>(&mut self, choices: &[T]) -> T {
        choices[self.between(0, choices.len() - 1)].clone()
    }
}

#[cfg(test)]
mod tests {
    use super::*;

    /// The first numbers of splitmix64 from seed 0, as published with it.
    #[test]
    fn known_numbers() {
        let mut rng = Rng::new(0);
        assert_eq!(rng.bits(), 0xE220_A839_7B1D_CDAF);
        assert_eq!(rng.bits(), 0x6E78_9E6A_A1B9_65F4);
        assert_eq!(rng.bits(), 0x06C4_5D18_8009_454F);
    }

    #[test]
    fn between_includes_both_ends() {
        let mut rng = Rng::new(1);
        let drawn: std::collections::BTreeSet<usize> =
            (0..200).map(|_| rng.between(3, 6)).collect();
        assert_eq!(drawn, [3, 4, 5, 6].into());
        assert_eq!(rng.between(5, 2), 5);
    }
}
