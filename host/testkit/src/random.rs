//! Drawn inputs.

/// Pseudo-random numbers (xorshift64*), the same for the same seed.
pub struct Random {
    state: u64,
}

impl Random {
    /// Zero is no state of the generator; any other seed is taken as it is.
    pub fn new(seed: u64) -> Random {
        Random { state: seed.max(1) }
    }

    pub fn number(&mut self) -> u64 {
        self.state ^= self.state >> 12;
        self.state ^= self.state << 25;
        self.state ^= self.state >> 27;
        self.state.wrapping_mul(0x2545_F491_4F6C_DD1D)
    }

    pub fn below(&mut self, bound: usize) -> usize {
        ((self.number() >> 32) as usize) % bound
    }

    pub fn number_below(&mut self, bound: u64) -> u64 {
        self.number() % bound
    }

    pub fn bytes(&mut self, length: usize) -> Vec<u8> {
        let mut bytes = vec![0; length];
        for part in bytes.chunks_mut(8) {
            part.copy_from_slice(&self.number().to_le_bytes()[..part.len()]);
        }
        bytes
    }

    pub fn pick<T: Copy>(&mut self, from: &[T]) -> T {
        from[self.below(from.len())]
    }

    /// The text with a byte changed, put in or left out, or with a piece of it said twice, once or a few times; a new byte
    /// is one of these most often.
    pub fn changed(&mut self, text: &[u8], bytes: &[u8]) -> Vec<u8> {
        let mut text = text.to_vec();
        for _ in 0..1 + self.below(3) {
            let at = self.below(text.len() + 1);
            let byte = if self.below(4) == 0 { self.number() as u8 } else { self.pick(bytes) };
            match self.below(4) {
                0 => text.insert(at, byte),
                1 if at < text.len() => text[at] = byte,
                2 if at < text.len() => drop(text.remove(at)),
                _ => {
                    let piece = text[at..text.len().min(at + 1 + self.below(9))].to_vec();
                    text.splice(at..at, piece);
                }
            }
        }
        text
    }
}
