//! Boolean shares to arithmetic ones, mod 2^k and mod q.

use super::steps::{refresh_boolean, shift};
use super::tape::Tape;
use super::words::{alpha, mod_q, MOST, Q};

fn psi(x: u32, u: u32, mask: u32) -> u32 {
    (x ^ u).wrapping_sub(u) & mask
}

/// The rule on s shares, which it overwrites. Its s − 1 results go to `out`.
fn rule(shares: &mut [u32], k: u32, tape: &mut Tape, out: &mut [u32]) -> Option<()> {
    let s = shares.len();
    if s == 2 {
        out[0] = shares[0] ^ shares[1];
        return Some(());
    }
    refresh_boolean(shares, k, tape)?;
    let mask = (1 << k) - 1;
    let (&mut x, u) = shares.split_first_mut()?;
    let z = &mut [0; MOST][..s - 1];
    for (z, &u) in z.iter_mut().zip(u.iter()) {
        *z = psi(x, u, mask);
    }
    if s % 2 == 1 {
        z[0] ^= x;
    }
    let of_z = &mut [0; MOST][..s - 2];
    rule(u, k, tape, &mut out[..s - 2])?;
    rule(z, k, tape, of_z)?;
    for (x, y) in out[..s - 3].iter_mut().zip(of_z.iter()) {
        *x = (*x + y) & mask;
    }
    out[s - 2] = of_z[s - 3];
    Some(())
}

/// A zero share is appended.
pub fn to_arithmetic(shares: &mut [u32], k: u32, tape: &mut Tape) -> Option<()> {
    let n = shares.len();
    let mut words = [0; MOST + 1];
    words[..n].copy_from_slice(shares);
    rule(&mut words[..n + 1], k, tape, shares)
}

pub fn to_mod_q(shares: &mut [u32], mu: u32, tape: &mut Tape) -> Option<()> {
    let n = shares.len();
    let a = alpha(n);
    let k = mu + a;
    to_arithmetic(shares, k, tape)?;
    let e = &mut [0; MOST][..n];
    for (e, x) in e.iter_mut().zip(shares.iter()) {
        *e = x >> mu;
    }
    e[0] += n as u32 - 1;
    shift(e, Q, a, tape)?;
    for (x, &e) in shares.iter_mut().zip(e.iter()) {
        *x = mod_q(u64::from(*x) + (u64::from(Q - e) << k));
    }
    Some(())
}
