//! Random numbers that a seed fixes (splitmix64), so that every run can be had again.

/// A source of random numbers.
pub struct Rng(u64);

impl Rng {
    /// The numbers of one run of one part of the comparison.
    pub fn of(seed: u64, part: u64, run: u64) -> Self {
        let mut mixed = Rng(seed ^ part.rotate_left(48));
        Rng(mixed.draw() ^ run)
    }

    fn draw(&mut self) -> u64 {
        self.0 = self.0.wrapping_add(0x9E37_79B9_7F4A_7C15);
        let mut z = self.0;
        z = (z ^ (z >> 30)).wrapping_mul(0xBF58_476D_1CE4_E5B9);
        z = (z ^ (z >> 27)).wrapping_mul(0x94D0_49BB_1331_11EB);
        z ^ (z >> 31)
    }

    /// A number under `n`, which is not 0.
    pub fn below(&mut self, n: usize) -> usize {
        (self.draw() % n as u64) as usize
    }

    /// A number from `low` to `high`, both among them.
    pub fn between(&mut self, low: usize, high: usize) -> usize {
        low + self.below(high - low + 1)
    }

    /// True that often in a hundred.
    pub fn percent(&mut self, n: usize) -> bool {
        self.below(100) < n
    }

    /// One of several.
    pub fn pick<T: Copy>(&mut self, of: &[T]) -> T {
        of[self.below(of.len())]
    }

    /// One of several, if there is one.
    pub fn pick_any<T: Copy>(&mut self, of: &[T]) -> Option<T> {
        (!of.is_empty()).then(|| self.pick(of))
    }

    /// Any character.
    pub fn byte(&mut self) -> u8 {
        self.draw() as u8
    }

    /// Any word.
    pub fn word(&mut self) -> u16 {
        self.draw() as u16
    }

    /// Any pattern of 32 bits.
    pub fn long(&mut self) -> u32 {
        self.draw() as u32
    }

    /// True half the time.
    pub fn flip(&mut self) -> bool {
        self.draw() & 1 == 1
    }

    /// Random characters all over.
    pub fn fill(&mut self, part: &mut [u8]) {
        for eight in part.chunks_mut(8) {
            let drawn = self.draw().to_le_bytes();
            eight.copy_from_slice(&drawn[..eight.len()]);
        }
    }

    /// So many random characters.
    pub fn bytes(&mut self, n: usize) -> Vec<u8> {
        let mut made = vec![0; n];
        self.fill(&mut made);
        made
    }
}
