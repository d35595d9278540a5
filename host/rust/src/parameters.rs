//! What the parameter sets carry: for choosing inputs and reading outputs. The gadgets take the bare numbers of a set and a kind.

/// The modulus q of ML-DSA.
pub const Q: u32 = 8380417;

/// The coefficients of a polynomial.
pub const COEFFICIENTS: usize = 256;

/// The constants of a parameter set.
#[derive(Clone, Copy, Debug, PartialEq, Eq)]
pub struct Set {
    /// A mask's coefficients are from −γ1 + 1 to γ1.
    pub gamma1: u32,
    /// A low part is from −γ2 to γ2.
    pub gamma2: u32,
    /// δ: a high part is from 0 to δ − 1.
    pub delta: u32,
    kinds: [Kind; 2],
}

/// The constants of the verdict, by set and kind.
#[derive(Clone, Copy, Debug, PartialEq, Eq)]
pub struct Kind {
    /// The bound: a number is accepted if its size is below a.
    pub a: u32,
    /// The reach: the verdict is right for numbers from −b to b.
    pub b: u32,
    /// The shift ρ: widening goes from q to 2^ρ·q.
    pub rho: u32,
}

impl Set {
    /// The parameter set 44, 65 or 87.
    ///
    /// ```
    /// use xechanopu::parameters::Set;
    /// assert_eq!(Set::of(44).unwrap().gamma1, 131072);
    /// assert_eq!(Set::of(45), None);
    /// ```
    pub fn of(number: u32) -> Option<Set> {
        let (gamma1, gamma2, delta, kinds) = match number {
            44 => (131072, 95232, 44, [(130994, 131150, 8), (95154, 95232, 7)]),
            65 => (524288, 261888, 16, [(524092, 524484, 9), (261692, 261888, 8)]),
            87 => (524288, 261888, 16, [(524168, 524408, 8), (261768, 261888, 7)]),
            _ => return None,
        };
        Some(Set { gamma1, gamma2, delta, kinds: kinds.map(|(a, b, rho)| Kind { a, b, rho }) })
    }

    /// The kind 1, which is for the coefficients of z, or 2, which is for those of r̃.
    ///
    /// ```
    /// use xechanopu::parameters::Set;
    /// assert_eq!(Set::of(65).unwrap().kind(1).unwrap().rho, 9);
    /// ```
    pub fn kind(&self, number: u32) -> Option<Kind> {
        match number {
            1 => Some(self.kinds[0]),
            2 => Some(self.kinds[1]),
            _ => None,
        }
    }
}
