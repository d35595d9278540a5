//! Words below a modulus, with conditional subtraction in place of a divide.

pub const Q: u32 = 8380417;

/// The share counts end here.
pub const MOST: usize = 8;

/// The modulus may have 32 bits, and then the sum has 33.
pub fn add(a: u32, b: u32, m: u32) -> u32 {
    let left = m - b;
    if a < left {
        a + b
    } else {
        a - left
    }
}

pub fn sub(a: u32, b: u32, m: u32) -> u32 {
    if a >= b {
        a - b
    } else {
        a + (m - b)
    }
}

pub fn neg(a: u32, m: u32) -> u32 {
    if a == 0 {
        0
    } else {
        m - a
    }
}

/// The remainder by a constant, which compiles to a multiplication.
pub fn mod_q(x: u64) -> u32 {
    (x % u64::from(Q)) as u32
}

pub fn mul_q(a: u32, b: u32) -> u32 {
    mod_q(u64::from(a) * u64::from(b))
}

/// α of n shares: the smallest number with 2^α ≥ n.
pub fn alpha(n: usize) -> u32 {
    usize::BITS - (n - 1).leading_zeros()
}
