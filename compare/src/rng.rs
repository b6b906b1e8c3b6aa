//! Numbers that look random and are the same for the same seed (splitmix64).

pub struct Rng(u64);

impl Rng {
    /// The numbers for one file of a seed.
    pub fn new(seed: u64, file: u64) -> Self {
        let mut start = Rng(seed);
        let seed = start.next();
        Rng(seed ^ Rng(file).next())
    }

    pub fn next(&mut self) -> u64 {
        self.0 = self.0.wrapping_add(0x9e37_79b9_7f4a_7c15);
        let z = (self.0 ^ (self.0 >> 30)).wrapping_mul(0xbf58_476d_1ce4_e5b9);
        let z = (z ^ (z >> 27)).wrapping_mul(0x94d0_49bb_1331_11eb);
        z ^ (z >> 31)
    }

    /// A number below the bound, which is at least 1.
    pub fn below(&mut self, bound: usize) -> usize {
        (self.next() % bound as u64) as usize
    }

    /// A number in the range, both ends among them.
    pub fn within(&mut self, least: usize, most: usize) -> usize {
        least + self.below(most - least + 1)
    }

    /// True once in so many times.
    pub fn once_in(&mut self, times: usize) -> bool {
        self.below(times) == 0
    }

    pub fn pick<T: Copy>(&mut self, from: &[T]) -> T {
        from[self.below(from.len())]
    }

    /// So many different numbers below the bound, or all of them, rising.
    pub fn rising(&mut self, count: usize, bound: usize) -> Vec<usize> {
        let mut left: Vec<usize> = (0..bound).collect();
        while left.len() > count {
            left.remove(self.below(left.len()));
        }
        left
    }

    pub fn shuffle<T>(&mut self, list: &mut [T]) {
        for end in (1..list.len()).rev() {
            list.swap(end, self.below(end + 1));
        }
    }

    /// The list as it is, turned round, or mixed.
    pub fn reorder<T>(&mut self, list: &mut [T]) {
        match self.below(3) {
            0 => {}
            1 => list.reverse(),
            _ => self.shuffle(list),
        }
    }
}
