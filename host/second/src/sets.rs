//! q, and what the parameter sets of document 01 carry.

pub const Q: u64 = 8380417;

#[derive(Clone, Copy)]
pub struct Set {
    pub gamma1: u64,
    pub gamma2: u64,
    pub mu: u32,
    kinds: [Kind; 2],
}

/// The bound, the reach and the shift of the verdict.
#[derive(Clone, Copy)]
pub struct Kind {
    pub a: u64,
    pub b: u64,
    pub rho: u32,
}

pub fn set(number: u32) -> Option<Set> {
    let (gamma1, gamma2, mu, kinds) = match number {
        44 => (131072, 95232, 18, [(130994, 131150, 8), (95154, 95232, 7)]),
        65 => (524288, 261888, 20, [(524092, 524484, 9), (261692, 261888, 8)]),
        87 => (524288, 261888, 20, [(524168, 524408, 8), (261768, 261888, 7)]),
        _ => return None,
    };
    Some(Set { gamma1, gamma2, mu, kinds: kinds.map(|(a, b, rho)| Kind { a, b, rho }) })
}

/// The kind of a set, if both numbers are in range.
pub fn kind_of(set_number: u32, kind_number: u32) -> Option<Kind> {
    set(set_number)?.kind(kind_number)
}

impl Set {
    pub fn kind(&self, number: u32) -> Option<Kind> {
        match number {
            1 => Some(self.kinds[0]),
            2 => Some(self.kinds[1]),
            _ => None,
        }
    }

    /// δ.
    pub fn high_parts(&self) -> u64 {
        (Q - 1) / (2 * self.gamma2)
    }
}
