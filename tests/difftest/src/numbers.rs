//! Numbers that look random and follow from a seed.

pub struct Numbers(u64);

impl Numbers {
    /// The run of numbers of a seed and a kind of cases, so that kinds don't disturb one another.
    pub fn new(seed: u64, kind: &str) -> Numbers {
        let mixed = kind.bytes().fold(seed, |mixed, octet| {
            (mixed ^ u64::from(octet)).wrapping_mul(0x0000_0100_0000_01B3)
        });
        Numbers(mixed)
    }

    /// Splitmix64.
    pub fn next(&mut self) -> u64 {
        self.0 = self.0.wrapping_add(0x9E37_79B9_7F4A_7C15);
        let mut mixed = self.0;
        mixed = (mixed ^ (mixed >> 30)).wrapping_mul(0xBF58_476D_1CE4_E5B9);
        mixed = (mixed ^ (mixed >> 27)).wrapping_mul(0x94D0_49BB_1331_11EB);
        mixed ^ (mixed >> 31)
    }

    /// A number below the bound, which isn't 0.
    pub fn below(&mut self, bound: usize) -> usize {
        (self.next() % bound as u64) as usize
    }

    /// Once in so many times.
    pub fn once_in(&mut self, times: usize) -> bool {
        self.below(times) == 0
    }

    /// One of them; there must be one.
    pub fn of<T: Copy>(&mut self, all: &[T]) -> T {
        all[self.below(all.len())]
    }

    /// Mostly a small number, below the bound.
    pub fn small(&mut self, bound: usize) -> usize {
        let top = 1 + self.below(bound);
        self.below(top)
    }

    pub fn octet(&mut self) -> u8 {
        self.next() as u8
    }
}
