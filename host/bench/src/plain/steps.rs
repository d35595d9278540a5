//! Refreshes, halvings and what is made of them, in place on slices of shares.

use super::tape::Tape;
use super::words::{add, neg, sub, MOST};

pub fn refresh(shares: &mut [u32], m: u32, tape: &mut Tape) -> Option<()> {
    let (last, others) = shares.split_last_mut()?;
    let mut end = *last;
    for x in others {
        let r = tape.draw(m)?;
        *x = add(*x, r, m);
        end = sub(end, r, m);
    }
    *last = end;
    Some(())
}

pub fn refresh_boolean(shares: &mut [u32], k: u32, tape: &mut Tape) -> Option<()> {
    let (last, others) = shares.split_last_mut()?;
    let mut end = *last;
    for x in others {
        let r = tape.draw(1 << k)?;
        *x ^= r;
        end ^= r;
    }
    *last = end;
    Some(())
}

/// One more parity joins the shares of the sum's parity.
fn join(a: &mut [u32], p: u32, m: u32) {
    if p == 1 {
        for x in a.iter_mut() {
            *x = neg(*x, m);
        }
    }
    a[0] = add(a[0], p, m);
}

/// From 2m to m.
fn halve(shares: &mut [u32], m: u32, tape: &mut Tape) -> Option<()> {
    let (n, double) = (shares.len(), 2 * m);
    let a = &mut [0; MOST][..n];
    a[0] = shares[0] % 2;
    for x in &shares[1..] {
        refresh(a, double, tape)?;
        join(a, x % 2, double);
    }
    for (x, &a) in shares.iter_mut().zip(a.iter()) {
        *x = sub(*x, a, double);
    }
    let (last, others) = shares.split_last_mut()?;
    let mut end = *last;
    for x in others {
        end = add(end, *x % 2, double);
        *x /= 2;
    }
    *last = end / 2;
    Some(())
}

/// From 2^t·m to m.
pub fn shift(shares: &mut [u32], m: u32, t: u32, tape: &mut Tape) -> Option<()> {
    for i in (0..t).rev() {
        halve(shares, m << i, tape)?;
    }
    Some(())
}

/// Arithmetic shares mod 2^k become Boolean ones.
pub fn to_boolean(shares: &mut [u32], k: u32, tape: &mut Tape) -> Option<()> {
    let bits = &mut [0; MOST][..shares.len()];
    for b in 0..k {
        if b > 0 {
            halve(shares, 1 << (k - b), tape)?;
        }
        for (bits, x) in bits.iter_mut().zip(shares.iter()) {
            *bits |= x % 2 << b;
        }
    }
    shares.copy_from_slice(bits);
    Some(())
}

/// The sum of the shares.
pub fn open(shares: &[u32], m: u32) -> u32 {
    shares.iter().fold(0, |sum, &x| add(sum, x, m))
}
