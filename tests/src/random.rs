//! Bytes that look random and are the same in every run: splitmix64.

/// The generator: a counter, stirred for each number.
pub struct Random {
    counter: u64,
}

impl Random {
    /// Starts from a seed.
    pub fn new(seed: u64) -> Self {
        Random { counter: seed }
    }

    /// The next 64 bits.
    pub fn word(&mut self) -> u64 {
        self.counter = self.counter.wrapping_add(0x9e37_79b9_7f4a_7c15);
        let mut word = self.counter;
        word = (word ^ (word >> 30)).wrapping_mul(0xbf58_476d_1ce4_e5b9);
        word = (word ^ (word >> 27)).wrapping_mul(0x94d0_49bb_1331_11eb);
        word ^ (word >> 31)
    }

    /// A number below the limit, which is not zero.
    pub fn below(&mut self, limit: usize) -> usize {
        assert!(limit > 0, "no number is below zero");
        ((u128::from(self.word()) * limit as u128) >> 64) as usize
    }

    /// That many bytes.
    pub fn bytes(&mut self, count: usize) -> Vec<u8> {
        let mut bytes = Vec::with_capacity(count + 8);
        while bytes.len() < count {
            bytes.extend_from_slice(&self.word().to_le_bytes());
        }
        bytes.truncate(count);
        bytes
    }

    /// Sixteen bytes: a key or a block.
    pub fn block(&mut self) -> [u8; 16] {
        self.bytes(16).try_into().expect("sixteen bytes")
    }
}

#[cfg(test)]
mod tests {
    use super::*;

    /// The same seed gives the same bytes, another seed gives others.
    #[test]
    fn seeds() {
        assert_eq!(Random::new(5).bytes(50), Random::new(5).bytes(50));
        assert_ne!(Random::new(5).bytes(50), Random::new(6).bytes(50));
    }

    /// Lengths are as asked, and every byte and every number below a limit comes up.
    #[test]
    fn spread() {
        let mut random = Random::new(1);
        assert!((0..40).all(|count| random.bytes(count).len() == count));
        let bytes = random.bytes(10_000);
        assert!((0..=255).all(|byte| bytes.contains(&byte)));
        let numbers: Vec<usize> = (0..1_000).map(|_| random.below(17)).collect();
        assert!((0..17).all(|number| numbers.contains(&number)));
        assert!(numbers.iter().all(|&number| number < 17));
    }
}
