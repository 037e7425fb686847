//! A small generator of random numbers (splitmix64): the same seed, the same questions.

pub struct Random(u64);

impl Random {
    pub fn new(seed: u64) -> Random {
        Random(seed)
    }

    pub fn bits(&mut self) -> u64 {
        self.0 = self.0.wrapping_add(0x9e37_79b9_7f4a_7c15);
        let mut z = self.0;
        z = (z ^ (z >> 30)).wrapping_mul(0xbf58_476d_1ce4_e5b9);
        z = (z ^ (z >> 27)).wrapping_mul(0x94d0_49bb_1331_11eb);
        z ^ (z >> 31)
    }

    /// Below `count`, which is at least 1.
    pub fn below(&mut self, count: u64) -> u64 {
        self.bits() % count
    }

    pub fn index(&mut self, count: usize) -> usize {
        self.below(count as u64) as usize
    }

    /// From `least` to `most`.
    pub fn from_to(&mut self, least: u64, most: u64) -> u64 {
        least + self.below(most - least + 1)
    }

    /// True once in `times`.
    pub fn once_in(&mut self, times: u64) -> bool {
        self.below(times) == 0
    }

    pub fn one_of<T: Copy>(&mut self, list: &[T]) -> T {
        list[self.index(list.len())]
    }

    /// Faults put into a question: mostly none, often one, at times two to five that meet.
    pub fn put_faults<T>(&mut self, faults: &[fn(&mut Random, &mut T)], asked: &mut T) {
        let count = match self.below(20) {
            0..=10 => 0,
            11..=16 => 1,
            _ => self.from_to(2, 5),
        };
        for _ in 0..count {
            let fault = self.one_of(faults);
            fault(self, asked);
        }
    }

    /// At least 0.0 and below 1.0.
    pub fn fraction(&mut self) -> f64 {
        (self.bits() >> 11) as f64 / (1_u64 << 53) as f64
    }
}
