//! Widening and Decompose of document 01, with their closing refreshes, and FIPS 204's Decompose. All draws of a call are taken
//! before any step is made.

use crate::conversions::alpha;
use crate::sets::{Kind, Set, Q};
use crate::steps::{centred, reduced, refresh_sum, shift_by, value};
use crate::tape::{on_draws, Tape};

/// What the draws of some steps are below: those of `bits` halvings, the last of them from twice `modulus` to `modulus`, and those of a
/// refresh modulo each of `refreshed`.
pub fn limits(n: usize, modulus: u64, bits: u32, refreshed: &[u64]) -> Vec<u64> {
    let d = n - 1;
    let halvings = (1..=bits).rev().flat_map(|left| vec![modulus << left; d * d]);
    halvings.chain(refreshed.iter().flat_map(|&modulus| vec![modulus; d])).collect()
}

/// The shares with a number added to the first, modulo q.
fn moved(shares: &[u64], by: i64) -> Vec<u64> {
    let mut shares = shares.to_vec();
    shares[0] = (shares[0] as i64 + by).rem_euclid(Q as i64) as u64;
    shares
}

/// Shares of about the sum of the shares, times `factor` over q. No floor reaches the modulus of the shift that follows.
fn scaled(shares: &[u64], factor: u64, modulus: u64) -> Vec<u64> {
    let mut floors: Vec<u64> = shares.iter().map(|x| x * factor / Q).collect();
    floors[0] += shares.len() as u64 - 1;
    assert!(floors.iter().all(|&floor| floor < modulus));
    floors
}

/// The sum of the words, which begin with b more, is too large by a multiple of q. The shift gives the factor; and the multiple is
/// taken away together with b. The wide shares are not reduced yet.
pub fn widened(kind: Kind, shares: &[u64], tape: &mut Tape) -> Option<Vec<i128>> {
    let bits = alpha(shares.len()) + 1;
    let words = moved(shares, kind.b as i64);
    let modulus = 1 << (bits + kind.rho);
    let over = shift_by(&scaled(&words, 1 << bits, modulus), modulus, bits, tape)?;
    let mut wide: Vec<i128> = words.iter().zip(over).map(|(&x, e)| i128::from(x) - i128::from(Q * e)).collect();
    wide[0] -= i128::from(kind.b);
    Some(wide)
}

pub fn widen(kind: Kind, shares: &[u64], tape: &mut Tape) -> Option<Vec<u64>> {
    let (n, modulus) = (shares.len(), Q << kind.rho);
    let limits = limits(n, 1 << kind.rho, alpha(n) + 1, &[modulus]);
    assert_eq!(limits.len(), (alpha(n) as usize + 1) * (n - 1).pow(2) + n - 1);
    let steps = |tape: &mut Tape| refresh_sum(&reduced(&widened(kind, shares, tape)?, modulus), modulus, tape);
    let wide = on_draws(&tape.drawn(&limits)?, steps);
    let size = centred(shares, Q);
    if size.unsigned_abs() <= kind.b {
        assert_eq!(centred(&wide, modulus), size);
    }
    Some(wide)
}

/// FIPS 204's Decompose of a residue: the high part, and the low part as a signed number.
pub fn plain(set: Set, residue: u64) -> (u64, i64) {
    let (r, half) = (residue as i64, set.gamma2 as i64);
    let low = half - (half - r).rem_euclid(2 * half);
    if r - low == Q as i64 - 1 {
        return (0, low - 1);
    }
    (((r - low) / (2 * half)) as u64, low)
}

/// The high part, and the low part in shares.
type Parts = (u64, Vec<u64>);

fn decompose_steps(set: Set, shares: &[u64], tape: &mut Tape) -> Option<Parts> {
    let (parts, bits) = (set.high_parts(), alpha(shares.len()) + 23);
    let modulus = parts << bits;
    let floors = scaled(&moved(shares, set.gamma2 as i64), modulus, modulus);
    let fresh = refresh_sum(&shift_by(&floors, modulus, bits, tape)?, parts, tape)?;
    let high = value(&fresh, parts);
    let low = moved(shares, -(2 * set.gamma2 as i64 * high as i64));
    Some((high, refresh_sum(&low, Q, tape)?))
}

pub fn decompose(set: Set, shares: &[u64], tape: &mut Tape) -> Option<Parts> {
    let (n, parts) = (shares.len(), set.high_parts());
    let limits = limits(n, parts, alpha(n) + 23, &[parts, Q]);
    assert_eq!(limits.len(), (alpha(n) as usize + 23) * (n - 1).pow(2) + 2 * (n - 1));
    let (high, low) = on_draws(&tape.drawn(&limits)?, |tape| decompose_steps(set, shares, tape));
    assert_eq!((high, centred(&low, Q)), plain(set, value(shares, Q)));
    Some((high, low))
}
