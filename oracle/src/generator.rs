//! The numbers that both sides draw: x becomes (x * 1664525 + 1013904223) mod 2^32.

pub struct Generator(u32);

impl Generator {
    pub fn new(seed: u32) -> Generator {
        Generator(seed)
    }

    /// The next number below n: the high half of x, mod n.
    pub fn below(&mut self, n: u32) -> u32 {
        self.0 = self.0.wrapping_mul(1664525).wrapping_add(1013904223);
        (self.0 >> 16) % n
    }

    /// The next number of 16 bits.
    pub fn word(&mut self) -> u16 {
        self.below(65536) as u16
    }
}
