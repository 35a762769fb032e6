//! A small generator of random numbers (splitmix64). Every case has its own, made from the seed and the number of the case.

pub struct Random {
    state: u64,
}

fn mix(mut z: u64) -> u64 {
    z = (z ^ (z >> 30)).wrapping_mul(0xBF58_476D_1CE4_E5B9);
    z = (z ^ (z >> 27)).wrapping_mul(0x94D0_49BB_1331_11EB);
    z ^ (z >> 31)
}

impl Random {
    pub fn new(seed: u64, case: u64) -> Random {
        let seed = mix(seed.wrapping_add(0x9E37_79B9_7F4A_7C15));
        Random { state: mix(seed ^ mix(case.wrapping_add(0xD1B5_4A32_D192_ED03))) }
    }

    pub fn next(&mut self) -> u64 {
        self.state = self.state.wrapping_add(0x9E37_79B9_7F4A_7C15);
        mix(self.state)
    }

    /// A number from 0 to `limit` - 1.
    pub fn below(&mut self, limit: usize) -> usize {
        (self.next() % limit as u64) as usize
    }

    /// A number from `first` to `last`, both included.
    pub fn between(&mut self, first: usize, last: usize) -> usize {
        first + self.below(last - first + 1)
    }

    /// True so many times in a hundred.
    pub fn percent(&mut self, times: usize) -> bool {
        self.below(100) < times
    }

    pub fn pick<T: Copy>(&mut self, choices: &[T]) -> T {
        choices[self.below(choices.len())]
    }

    /// A word: of any length, so that short ones are met as often as long ones.
    pub fn word(&mut self) -> u32 {
        self.next() as u32 >> self.below(32)
    }

    /// Rubbish, for lists that a call may not touch.
    pub fn rubbish(&mut self, length: usize) -> Vec<u16> {
        (0..length).map(|_| self.next() as u16).collect()
    }

    /// The same, of 32-bit numbers.
    pub fn wide_rubbish(&mut self, length: usize) -> Vec<u32> {
        (0..length).map(|_| self.next() as u32).collect()
    }

    pub fn shuffle<T>(&mut self, list: &mut [T]) {
        for at in (1..list.len()).rev() {
            list.swap(at, self.below(at + 1));
        }
    }
}
