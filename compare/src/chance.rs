//! Numbers by chance, the same for the same seed: xoshiro256**, started by splitmix64 (both by Blackman
//! and Vigna, public domain).

pub struct Chance {
    state: [u64; 4],
}

/// One step of splitmix64.
fn splitmix(state: &mut u64) -> u64 {
    *state = state.wrapping_add(0x9E37_79B9_7F4A_7C15);
    let mut z = *state;
    z = (z ^ (z >> 30)).wrapping_mul(0xBF58_476D_1CE4_E5B9);
    z = (z ^ (z >> 27)).wrapping_mul(0x94D0_49BB_1331_11EB);
    z ^ (z >> 31)
}

impl Chance {
    /// The numbers of case `index` of a run with this seed. They don't depend on the other cases.
    pub fn of_case(seed: u64, index: u64) -> Chance {
        let mut start = seed;
        let mut state = splitmix(&mut start) ^ index.wrapping_mul(0xD1B5_4A32_D192_ED03);
        Chance { state: std::array::from_fn(|_| splitmix(&mut state)) }
    }

    pub fn draw(&mut self) -> u64 {
        let state = &mut self.state;
        let result = state[1].wrapping_mul(5).rotate_left(7).wrapping_mul(9);
        let shifted = state[1] << 17;
        state[2] ^= state[0];
        state[3] ^= state[1];
        state[1] ^= state[2];
        state[0] ^= state[3];
        state[2] ^= shifted;
        state[3] = state[3].rotate_left(45);
        result
    }

    /// 0 to limit - 1; 0 if the limit is 0.
    pub fn below(&mut self, limit: usize) -> usize {
        ((u128::from(self.draw()) * limit as u128) >> 64) as usize
    }

    /// From `least` to `most`, both included.
    pub fn between(&mut self, least: i64, most: i64) -> i64 {
        let count = (i128::from(most) - i128::from(least) + 1).max(1) as u128;
        let step = ((u128::from(self.draw()) * count) >> 64) as i128;
        (i128::from(least) + step) as i64
    }

    /// True once in `many` times.
    pub fn once_in(&mut self, many: usize) -> bool {
        self.below(many) == 0
    }

    pub fn bit(&mut self) -> u8 {
        (self.draw() >> 63) as u8
    }

    pub fn bits(&mut self, count: usize) -> Vec<u8> {
        let mut bits = Vec::with_capacity(count);
        while bits.len() < count {
            let drawn = self.draw();
            bits.extend((0..64.min(count - bits.len())).map(|k| ((drawn >> k) & 1) as u8));
        }
        bits
    }

    pub fn bytes(&mut self, count: usize) -> Vec<u8> {
        let mut bytes = Vec::with_capacity(count);
        while bytes.len() < count {
            let drawn = self.draw().to_le_bytes();
            bytes.extend(&drawn[..8.min(count - bytes.len())]);
        }
        bytes
    }

    /// One of some things.
    pub fn of<T: Copy>(&mut self, things: &[T]) -> T {
        things[self.below(things.len())]
    }

    /// `count` different numbers below `limit`, or as many as there are.
    pub fn different(&mut self, count: usize, limit: usize) -> Vec<usize> {
        let mut all: Vec<usize> = (0..limit).collect();
        let count = count.min(limit);
        for i in 0..count {
            let j = i + self.below(limit - i);
            all.swap(i, j);
        }
        all.truncate(count);
        all
    }
}
