//! Pseudorandom bytes and texts, the same in each run.

/// The state of Marsaglia's xorshift. A result is scrambled by a multiplication, as in xorshift64*.
pub struct Random(pub u64);

impl Random {
    /// A number below the limit.
    pub fn below(&mut self, limit: usize) -> usize {
        self.0 ^= self.0 << 13;
        self.0 ^= self.0 >> 7;
        self.0 ^= self.0 << 17;
        (self.0.wrapping_mul(0x2545_F491_4F6C_DD1D) >> 16) as usize % limit
    }

    /// Mostly few bytes, sometimes some thousand.
    pub fn bytes(&mut self) -> Vec<u8> {
        let limit = [4_000, 600, 140, 140, 40, 40, 40, 40][self.below(8)];
        (0..self.below(limit))
            .map(|_| self.below(256) as u8)
            .collect()
    }

    /// A text in both cases, with or without a prefix, sometimes with an invalid character or an odd length.
    pub fn text(&mut self) -> Vec<u8> {
        if self.below(8) == 0 {
            return self.bytes();
        }
        let mut text = ["", "", "0x", "0X"][self.below(4)].as_bytes().to_vec();
        text.extend(hex::encode(self.bytes()).bytes());
        text.iter_mut()
            .filter(|_| self.below(2) == 0)
            .for_each(|byte| byte.make_ascii_uppercase());
        if self.below(2) == 0 && !text.is_empty() {
            let position = self.below(text.len());
            text[position] = [b"/:@G`gxX0 "[self.below(10)], self.below(256) as u8][self.below(2)];
        }
        if self.below(8) == 0 {
            text.pop();
        }
        text
    }
}
