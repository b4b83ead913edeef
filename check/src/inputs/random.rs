//! A small generator of numbers (SplitMix64). The same seed gives the same run.

pub struct Random {
    state: u64,
}

impl Random {
    pub fn new(seed: u64) -> Random {
        Random { state: seed }
    }

    pub fn draw(&mut self) -> u64 {
        self.state = self.state.wrapping_add(0x9E37_79B9_7F4A_7C15);
        let mut z = self.state;
        z = (z ^ z >> 30).wrapping_mul(0xBF58_476D_1CE4_E5B9);
        z = (z ^ z >> 27).wrapping_mul(0x94D0_49BB_1331_11EB);
        z ^ z >> 31
    }

    /// A number from 0 to n - 1.
    pub fn below(&mut self, n: usize) -> usize {
        (self.draw() % n as u64) as usize
    }

    /// A number from low to high, both included.
    pub fn between(&mut self, low: usize, high: usize) -> usize {
        low + self.below(high - low + 1)
    }

    /// True once in n times.
    pub fn once_in(&mut self, n: usize) -> bool {
        self.below(n) == 0
    }

    pub fn pick<T: Copy>(&mut self, from: &[T]) -> T {
        from[self.below(from.len())]
    }

    pub fn octets(&mut self, n: usize) -> Vec<u8> {
        let mut octets = Vec::with_capacity(n + 8);
        while octets.len() < n {
            octets.extend(self.draw().to_be_bytes());
        }
        octets.truncate(n);
        octets
    }

    pub fn shuffle<T>(&mut self, list: &mut [T]) {
        for i in (1..list.len()).rev() {
            list.swap(i, self.below(i + 1));
        }
    }

    /// A mask of `width` bits with `ones` ones.
    pub fn mask(&mut self, width: usize, ones: usize) -> u64 {
        let mut places: Vec<usize> = (0..width).collect();
        self.shuffle(&mut places);
        places[..ones].iter().fold(0, |mask, place| mask | 1 << place)
    }

    pub fn flip(&mut self, octets: &mut [u8]) {
        if !octets.is_empty() {
            let bit = self.below(octets.len() * 8);
            octets[bit / 8] ^= 128 >> (bit % 8);
        }
    }
}
