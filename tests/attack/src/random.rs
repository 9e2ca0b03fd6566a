//! splitmix64: numbers that a seed gives again.

pub struct Random {
    state: u64,
}

impl Random {
    pub fn new(seed: u64) -> Random {
        Random { state: seed }
    }

    pub fn number(&mut self) -> u64 {
        self.state = self.state.wrapping_add(0x9E37_79B9_7F4A_7C15);
        let mut z = self.state;
        z = (z ^ (z >> 30)).wrapping_mul(0xBF58_476D_1CE4_E5B9);
        z = (z ^ (z >> 27)).wrapping_mul(0x94D0_49BB_1331_11EB);
        z ^ (z >> 31)
    }

    pub fn bit(&mut self) -> u8 {
        (self.number() >> 63) as u8
    }

    pub fn bytes(&mut self, length: usize) -> Vec<u8> {
        let mut bytes: Vec<u8> = (0..length.div_ceil(8))
            .flat_map(|_| self.number().to_le_bytes())
            .collect();
        bytes.truncate(length);
        bytes
    }

    /// So many strings one after another, each of so many bits, spare bits 0.
    pub fn strings(&mut self, how_many: usize, bits: usize) -> Vec<u8> {
        let length = bits.div_ceil(8);
        let mut strings = self.bytes(how_many * length);
        for string in strings.chunks_mut(length) {
            string[length - 1] &= 0xFF >> (8 * length - bits);
        }
        strings
    }
}
