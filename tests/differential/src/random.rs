//! splitmix64: a seed gives the same inputs on every machine.

pub struct Random(u64);

impl Random {
    pub fn new(seed: u64) -> Self {
        Random(seed)
    }

    pub fn word(&mut self) -> u64 {
        self.0 = self.0.wrapping_add(0x9E37_79B9_7F4A_7C15);
        let mut z = self.0;
        z = (z ^ (z >> 30)).wrapping_mul(0xBF58_476D_1CE4_E5B9);
        z = (z ^ (z >> 27)).wrapping_mul(0x94D0_49BB_1331_11EB);
        z ^ (z >> 31)
    }

    /// Below n, which is not 0.
    pub fn below(&mut self, n: usize) -> usize {
        (self.word() % n as u64) as usize
    }

    pub fn one_in(&mut self, n: usize) -> bool {
        self.below(n) == 0
    }

    pub fn byte(&mut self) -> u8 {
        self.word() as u8
    }

    pub fn of<T: Copy>(&mut self, l: &[T]) -> T {
        l[self.below(l.len())]
    }

    pub fn bytes(&mut self, n: usize) -> Vec<u8> {
        let mut l = Vec::with_capacity(n + 8);
        while l.len() < n {
            l.extend(self.word().to_le_bytes());
        }
        l.truncate(n);
        l
    }

    /// A number that is often small, often at a border.
    pub fn whole(&mut self) -> i32 {
        match self.below(8) {
            0 => i32::MIN + self.below(3) as i32,
            1 => i32::MAX - self.below(3) as i32,
            2 => self.word() as i32,
            _ => self.below(41) as i32 - 20,
        }
    }
}
