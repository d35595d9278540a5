//! The tape of random words.

pub struct Tape<'a> {
    words: &'a [u32],
    pub at: usize,
}

impl<'a> Tape<'a> {
    pub fn new(words: &'a [u32]) -> Self {
        Tape { words, at: 0 }
    }

    /// The low bits of the next word that has them below m.
    pub fn draw(&mut self, m: u32) -> Option<u32> {
        let mask = u32::MAX >> (m - 1).leading_zeros();
        while let Some(word) = self.words.get(self.at) {
            self.at += 1;
            let r = word & mask;
            if r < m {
                return Some(r);
            }
        }
        None
    }
}
