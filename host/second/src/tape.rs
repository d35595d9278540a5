//! The tape, and one draw.

/// Words from place 0 on, how many of them were read, and how many of these were skipped.
pub struct Tape<'a> {
    words: std::iter::Enumerate<std::slice::Iter<'a, u32>>,
    read: usize,
    skipped: usize,
}

impl<'a> Tape<'a> {
    pub fn new(words: &'a [u32]) -> Self {
        Tape { words: words.iter().enumerate(), read: 0, skipped: 0 }
    }

    pub fn used(&self) -> usize {
        self.read
    }

    /// The low L bits of the first word that has them below the modulus.
    pub fn draw(&mut self, modulus: u64) -> Option<u64> {
        let mut bits = 0;
        while (1u64 << bits) < modulus {
            bits += 1;
        }
        let (read, skipped) = (&mut self.read, &mut self.skipped);
        self.words.find_map(|(place, &word)| {
            *read = place + 1;
            let low = u64::from(word) & ((1 << bits) - 1);
            *skipped += usize::from(low >= modulus);
            (low < modulus).then_some(low)
        })
    }

    pub fn draws(&mut self, count: usize, modulus: u64) -> Option<Vec<u64>> {
        (0..count).map(|_| self.draw(modulus)).collect()
    }

    /// A draw below each of the limits. It reads a word for each of them, beside the skipped ones.
    pub fn drawn(&mut self, limits: &[u64]) -> Option<Vec<u32>> {
        let (read, skipped) = (self.read, self.skipped);
        let draws: Vec<u32> = limits.iter().map(|&limit| Some(self.draw(limit)? as u32)).collect::<Option<_>>()?;
        assert_eq!(self.read - read, draws.len() + self.skipped - skipped);
        Some(draws)
    }
}

/// What the steps make of these draws, which they read as a tape. They skip none of them and leave none.
pub fn on_draws<T>(draws: &[u32], steps: impl FnOnce(&mut Tape) -> Option<T>) -> T {
    let mut tape = Tape::new(draws);
    let made = steps(&mut tape).expect("there are enough draws");
    assert_eq!((tape.read, tape.skipped), (draws.len(), 0));
    made
}
