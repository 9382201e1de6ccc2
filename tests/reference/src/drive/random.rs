//! Random numbers from a seed (splitmix64): the same seed gives the same list on every machine.

pub struct Random {
    state: u64,
}

impl Random {
    pub fn new(seed: u64) -> Random {
        Random { state: seed }
    }

    pub fn next(&mut self) -> u64 {
        self.state = self.state.wrapping_add(0x9E37_79B9_7F4A_7C15);
        let mut mixed = self.state;
        mixed = (mixed ^ mixed >> 30).wrapping_mul(0xBF58_476D_1CE4_E5B9);
        mixed = (mixed ^ mixed >> 27).wrapping_mul(0x94D0_49BB_1331_11EB);
        mixed ^ mixed >> 31
    }

    /// Below n; n is above 0.
    pub fn below(&mut self, n: usize) -> usize {
        (self.next() % n as u64) as usize
    }

    /// From 1 to n.
    pub fn up_to(&mut self, n: usize) -> usize {
        1 + self.below(n)
    }

    pub fn percent(&mut self, n: usize) -> bool {
        self.below(100) < n
    }

    pub fn pick<T: Copy>(&mut self, from: &[T]) -> T {
        from[self.below(from.len())]
    }

    /// A number below n that is as wanted, if there is one; the search starts anywhere.
    pub fn find(&mut self, n: usize, wanted: impl Fn(usize) -> bool) -> Option<usize> {
        let start = self.below(n);
        (start..n).chain(0..start).find(|&number| wanted(number))
    }
}
