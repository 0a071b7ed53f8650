//! The one generator of pseudo-random numbers: splitmix64, from a fixed seed.

pub struct Random(u64);

impl Random {
    pub fn new(seed: u64) -> Random {
        Random(seed)
    }

    /// Any 64-bit number.
    pub fn number(&mut self) -> u64 {
        self.0 = self.0.wrapping_add(0x9e37_79b9_7f4a_7c15);
        let mut z = self.0;
        z = (z ^ (z >> 30)).wrapping_mul(0xbf58_476d_1ce4_e5b9);
        z = (z ^ (z >> 27)).wrapping_mul(0x94d0_49bb_1331_11eb);
        z ^ (z >> 31)
    }

    /// A number up to and with `most`.
    pub fn up_to(&mut self, most: u64) -> u64 {
        let scaled = u128::from(self.number()) * (u128::from(most) + 1);
        (scaled >> 64) as u64
    }

    /// A number up to and with `most`, each length in bits as often as the others.
    pub fn any_magnitude(&mut self, most: u64) -> u64 {
        let bits = u64::from(most.max(1).ilog2());
        let shift = self.up_to(bits);
        self.up_to(most >> shift)
    }

    /// So many bytes.
    pub fn bytes(&mut self, length: usize) -> Vec<u8> {
        let words = (0..length.div_ceil(8)).map(|_| self.number().to_le_bytes());
        let mut bytes: Vec<u8> = words.flatten().collect();
        bytes.truncate(length);
        bytes
    }
}
