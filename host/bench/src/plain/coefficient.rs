//! Sampling, widening, Decompose and the verdict on the shares of one coefficient.

use super::convert::to_mod_q;
use super::sets::{Kind, Set};
use super::steps::{open, refresh, shift};
use super::tape::Tape;
use super::words::{add, alpha, mod_q, mul_q, neg, sub, MOST, Q};

/// One coefficient of a mask, closed.
pub fn sample(shares: &mut [u32], set: &Set, tape: &mut Tape) -> Option<()> {
    for x in shares.iter_mut() {
        *x = tape.draw(1 << set.mu)?;
    }
    to_mod_q(shares, set.mu, tape)?;
    shares[0] = sub(shares[0], set.gamma1 - 1, Q);
    refresh(shares, Q, tape)
}

/// The carries of shares below q: floor(x·c / q) of each, n − 1 added to the first, shifted by t to m.
fn carries(e: &mut [u32], shares: &[u32], c: u32, m: u32, t: u32, tape: &mut Tape) -> Option<()> {
    for (e, &x) in e.iter_mut().zip(shares) {
        *e = (u64::from(x) * u64::from(c) / u64::from(Q)) as u32;
    }
    e[0] = add(e[0], shares.len() as u32 - 1, m << t);
    shift(e, m, t, tape)
}

pub fn widen(shares: &mut [u32], kind: Kind, tape: &mut Tape) -> Option<()> {
    let (n, wide) = (shares.len(), Q << kind.rho);
    let t = alpha(n) + 1;
    shares[0] = add(shares[0], kind.b, Q);
    let e = &mut [0; MOST][..n];
    carries(e, shares, 1 << t, 1 << kind.rho, t, tape)?;
    for (x, &e) in shares.iter_mut().zip(e.iter()) {
        *x = sub(*x, Q * e, wide);
    }
    shares[0] = sub(shares[0], kind.b, wide);
    Some(())
}

/// The shares become those of the low part; the high part is answered.
pub fn decompose(shares: &mut [u32], set: &Set, tape: &mut Tape) -> Option<u32> {
    let t = 23 + alpha(shares.len());
    let words = &mut [0; MOST][..shares.len()];
    words.copy_from_slice(shares);
    words[0] = add(words[0], set.gamma2, Q);
    let e = &mut [0; MOST][..shares.len()];
    carries(e, words, set.delta << t, set.delta, t, tape)?;
    refresh(e, set.delta, tape)?;
    let high = open(e, set.delta);
    shares[0] = sub(shares[0], 2 * set.gamma2 * high, Q);
    Some(high)
}

fn side(shares: &mut [u32], kind: Kind, tape: &mut Tape) -> Option<()> {
    shares[0] = sub(shares[0], kind.a, Q << kind.rho);
    shift(shares, Q, kind.rho, tape)
}

/// The product mod q, in the place of l.
fn product(l: &mut [u32], r: &[u32], tape: &mut Tape) -> Option<()> {
    let n = l.len();
    let out = &mut [0; MOST][..n];
    for i in 0..n {
        out[i] = mul_q(l[i], r[i]);
    }
    for i in 0..n {
        for j in i + 1..n {
            let v = tape.draw(Q)?;
            let cross = u64::from(l[i]) * u64::from(r[j]) + u64::from(l[j]) * u64::from(r[i]);
            out[i] = add(out[i], v, Q);
            out[j] = add(out[j], mod_q(cross + u64::from(Q - v)), Q);
        }
    }
    l.copy_from_slice(out);
    Some(())
}

/// What the verdict opens.
pub fn judge(shares: &mut [u32], kind: Kind, tape: &mut Tape) -> Option<u32> {
    let n = shares.len();
    widen(shares, kind, tape)?;
    let left = &mut [0; MOST][..n];
    left.copy_from_slice(shares);
    side(left, kind, tape)?;
    for x in shares.iter_mut() {
        *x = neg(*x, Q << kind.rho);
    }
    side(shares, kind, tape)?;
    refresh(left, Q, tape)?;
    product(left, shares, tape)?;
    for _ in 0..n {
        let c = tape.draw(Q - 1)? + 1;
        for x in left.iter_mut() {
            *x = mul_q(*x, c);
        }
        refresh(left, Q, tape)?;
    }
    Some(open(left, Q))
}
