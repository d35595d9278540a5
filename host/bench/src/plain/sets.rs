//! The parameter sets.

#[derive(Clone, Copy)]
pub struct Kind {
    pub a: u32,
    pub b: u32,
    pub rho: u32,
}

#[derive(Clone, Copy)]
pub struct Set {
    pub gamma1: u32,
    pub gamma2: u32,
    pub delta: u32,
    pub mu: u32,
    pub kinds: [Kind; 2],
}

const fn kind(a: u32, b: u32, rho: u32) -> Kind {
    Kind { a, b, rho }
}

pub const SET_44: Set =
    Set { gamma1: 131072, gamma2: 95232, delta: 44, mu: 18, kinds: [kind(130994, 131150, 8), kind(95154, 95232, 7)] };

pub const SET_65: Set = Set {
    gamma1: 524288,
    gamma2: 261888,
    delta: 16,
    mu: 20,
    kinds: [kind(524092, 524484, 9), kind(261692, 261888, 8)],
};

pub const SET_87: Set = Set {
    gamma1: 524288,
    gamma2: 261888,
    delta: 16,
    mu: 20,
    kinds: [kind(524168, 524408, 8), kind(261768, 261888, 7)],
};

pub fn set(number: u32) -> Option<Set> {
    match number {
        44 => Some(SET_44),
        65 => Some(SET_65),
        87 => Some(SET_87),
        _ => None,
    }
}
