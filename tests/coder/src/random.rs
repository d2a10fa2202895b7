//! Pseudo-random numbers that a seed repeats (splitmix64).

pub struct Random {
    state: u64,
}

impl Random {
    /// The numbers of one case of a run: each case has its own, so that it can be repeated alone.
    pub fn of_case(seed: u64, case: u64) -> Random {
        let mut random = Random { state: seed };
        random.state = random.next().wrapping_add(case);
        random.next();
        random
    }

    pub fn next(&mut self) -> u64 {
        self.state = self.state.wrapping_add(0x9E37_79B9_7F4A_7C15);
        let mut z = self.state;
        z = (z ^ (z >> 30)).wrapping_mul(0xBF58_476D_1CE4_E5B9);
        z = (z ^ (z >> 27)).wrapping_mul(0x94D0_49BB_1331_11EB);
        z ^ (z >> 31)
    }

    /// A number below `bound`, which is above 0.
    pub fn below(&mut self, bound: usize) -> usize {
        (self.next() % bound as u64) as usize
    }

    /// A number from `low` to `high`, both included.
    pub fn within(&mut self, low: usize, high: usize) -> usize {
        low + self.below(high - low + 1)
    }

    /// True once in `times`.
    pub fn once_in(&mut self, times: usize) -> bool {
        self.below(times) == 0
    }

    pub fn pick<T: Clone>(&mut self, choices: &[T]) -> T {
        choices[self.below(choices.len())].clone()
    }

    pub fn bytes(&mut self, count: usize) -> Vec<u8> {
        (0..count).map(|_| self.next() as u8).collect()
    }

    /// `count` different numbers out of `numbers`, in any order; all of them where there are fewer.
    pub fn choose(&mut self, mut numbers: Vec<usize>, count: usize) -> Vec<usize> {
        for i in 0..numbers.len() {
            let other = self.within(i, numbers.len() - 1);
            numbers.swap(i, other);
        }
        numbers.truncate(count);
        numbers
    }
}
