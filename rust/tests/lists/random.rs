//! Random numbers, the same for the same seed (splitmix64).

pub struct Random(u64);

impl Random {
    /// Other numbers for each seed and each text.
    pub fn new(seed: u64, text: &[u8]) -> Random {
        let mix = |sum: u64, byte: &u8| (sum ^ u64::from(*byte)).wrapping_mul(0x0100_0000_01b3);
        Random(text.iter().fold(seed, mix))
    }

    pub fn next(&mut self) -> u64 {
        self.0 = self.0.wrapping_add(0x9e37_79b9_7f4a_7c15);
        let mut z = self.0;
        z = (z ^ (z >> 30)).wrapping_mul(0xbf58_476d_1ce4_e5b9);
        z = (z ^ (z >> 27)).wrapping_mul(0x94d0_49bb_1331_11eb);
        z ^ (z >> 31)
    }

    pub fn below(&mut self, n: u64) -> u64 {
        self.next() % n
    }

    /// A length from 1 to `most`, short ones as often as long ones.
    pub fn length(&mut self, most: u64) -> usize {
        let within = [3, 30, most][self.below(3) as usize];
        1 + self.below(within) as usize
    }
}
