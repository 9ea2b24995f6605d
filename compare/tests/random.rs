//! A small source of numbers for the tests (xorshift*), the same in every run.
#![allow(dead_code)]

pub struct Random(u64);

impl Random {
    pub fn new(seed: u64) -> Random {
        Random(seed.wrapping_mul(0x9E37_79B9_7F4A_7C15) | 1)
    }

    pub fn draw(&mut self) -> u64 {
        self.0 ^= self.0 >> 12;
        self.0 ^= self.0 << 25;
        self.0 ^= self.0 >> 27;
        self.0.wrapping_mul(0x2545_F491_4F6C_DD1D)
    }

    pub fn below(&mut self, limit: u64) -> u64 {
        (self.draw() >> 16) % limit
    }

    pub fn bits(&mut self, count: usize) -> Vec<u8> {
        (0..count).map(|_| self.below(2) as u8).collect()
    }
}

#[test]
fn both_bits_come() {
    let bits = Random::new(1).bits(1000);
    let ones: u32 = bits.iter().map(|&bit| u32::from(bit)).sum();
    assert!((400..600).contains(&ones));
}
