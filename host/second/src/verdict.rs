//! The verdict of document 01. All draws of a call are taken before any step is made.

use crate::coefficients::{limits, widened};
use crate::conversions::alpha;
use crate::sets::{Kind, Q};
use crate::steps::{centred, reduced, refresh_sum, shift_by, value};
use crate::tape::{on_draws, Tape};

/// What the draws of a call are below: those of the widening, of the left side, of the right side and the refresh after it, of the
/// product, and of the zero test, which draws a scalar and a refresh n times.
fn all_limits(kind: Kind, n: usize) -> Vec<u64> {
    let (d, bits) = (n - 1, alpha(n) + 1);
    let widening = limits(n, 1 << kind.rho, bits, &[]);
    let (left, right) = (limits(n, Q, kind.rho, &[]), limits(n, Q, kind.rho, &[Q]));
    let zero_test = [vec![Q - 1], vec![Q; d]].concat().repeat(n);
    let all = [widening, left, right, vec![Q; n * d / 2], zero_test].concat();
    assert_eq!(all.len(), (bits + 2 * kind.rho) as usize * d * d + d + n * d / 2 + n * n);
    all
}

/// The widened shares with this sign, a taken from the first, shifted by ρ.
fn side(kind: Kind, sign: i128, wide: &[i128], tape: &mut Tape) -> Option<Vec<u64>> {
    let mut shares: Vec<i128> = wide.iter().map(|x| sign * x).collect();
    shares[0] -= i128::from(kind.a);
    let modulus = Q << kind.rho;
    shift_by(&reduced(&shares, modulus), modulus, kind.rho, tape)
}

/// Share i gets its product with itself, both products with each earlier share, the draws that it has with later ones, and the
/// negatives of those that it has with earlier ones.
fn product(left: &[u64], right: &[u64], tape: &mut Tape) -> Option<Vec<u64>> {
    let n = left.len();
    let mut draws = vec![vec![0; n]; n];
    for (i, j) in (0..n).flat_map(|i| (i + 1..n).map(move |j| (i, j))) {
        draws[i][j] = i128::from(tape.draw(Q)?);
        draws[j][i] = -draws[i][j];
    }
    let times = |i: usize, j: usize| i128::from(left[i] * right[j]);
    let crossed = |i: usize| (0..i).map(|j| times(i, j) + times(j, i)).sum::<i128>();
    let shares: Vec<i128> = (0..n).map(|i| times(i, i) + crossed(i) + draws[i].iter().sum::<i128>()).collect();
    let shares = reduced(&shares, Q);
    assert_eq!(value(&shares, Q), value(left, Q) * value(right, Q) % Q);
    Some(shares)
}

/// A draw of a refresh is multiplied by all scalars that come after it, a share by all of them. All are drawn first; then what each
/// share ends as is put together, and the sum of these is reduced.
fn zero_test(shares: &[u64], tape: &mut Tape) -> Option<u64> {
    let n = shares.len();
    let mut scalars = Vec::new();
    let mut rows = vec![shares.iter().map(|&x| i128::from(x)).collect::<Vec<i128>>()];
    for _ in 0..n {
        scalars.push(tape.draw(Q - 1)? + 1);
        let added: Vec<i128> = tape.draws(n - 1, Q)?.into_iter().map(i128::from).collect();
        let taken = -added.iter().sum::<i128>();
        rows.push([added, vec![taken]].concat());
    }
    let weights: Vec<i128> = (0..=n).map(|after| i128::from(times_all(1, &scalars[after..]))).collect();
    let end = |i: usize| rows.iter().zip(&weights).map(|(row, weight)| row[i] * weight).sum::<i128>();
    let ends: Vec<i128> = (0..n).map(end).collect();
    Some(value(&reduced(&ends, Q), Q))
}

/// A residue times all scalars.
fn times_all(residue: u64, scalars: &[u64]) -> u64 {
    scalars.iter().fold(residue, |x, scalar| x * scalar % Q)
}

fn steps(kind: Kind, shares: &[u64], tape: &mut Tape) -> Option<u64> {
    let wide = widened(kind, shares, tape)?;
    let left = side(kind, 1, &wide, tape)?;
    let right = side(kind, -1, &wide, tape)?;
    let fresh = refresh_sum(&left, Q, tape)?;
    zero_test(&product(&fresh, &right, tape)?, tape)
}

/// The product of both sides without shares, of a number within the reach. At a size from a to b one side is 0, since b − a is below
/// 2^ρ; below a none is.
fn plain(kind: Kind, number: i64) -> u64 {
    let side = |x: i64| (x - kind.a as i64).rem_euclid((Q << kind.rho) as i64) as u64 >> kind.rho;
    side(number) * side(-number) % Q
}

/// Whether the number is accepted, and the number that was opened.
pub fn verdict(kind: Kind, shares: &[u64], tape: &mut Tape) -> Option<(bool, u64)> {
    let n = shares.len();
    let draws = tape.drawn(&all_limits(kind, n))?;
    let opened = on_draws(&draws, |tape| steps(kind, shares, tape));
    let number = centred(shares, Q);
    if number.unsigned_abs() <= kind.b {
        let zero_test = &draws[draws.len() - n * n..];
        let scalars: Vec<u64> = zero_test.chunks(n).map(|drawn| u64::from(drawn[0]) + 1).collect();
        assert_eq!(opened, times_all(plain(kind, number), &scalars));
        assert_eq!(opened != 0, number.unsigned_abs() < kind.a);
    }
    Some((opened != 0, opened))
}
