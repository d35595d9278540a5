//! Sampling of document 01, with its closing refresh. All draws are taken before any step is made.

use crate::conversions::{alpha, conversion_draws, sum_mod_q};
use crate::sets::{Set, Q};
use crate::steps::{centred, refresh_sum};
use crate::tape::{on_draws, Tape};

pub const COEFFICIENTS: usize = 256;

/// What the draws of a coefficient are below, in their order: those of the Boolean shares, of the conversion to a sum, of the
/// shift, and of the closing refresh.
fn limits(set: Set, n: usize) -> Vec<u64> {
    let d = n - 1;
    let alpha = alpha(n);
    let mut runs = vec![(n, 1 << set.mu), (conversion_draws(n), 1 << (set.mu + alpha))];
    runs.extend((1..=alpha).rev().map(|left| (d * d, Q << left)));
    runs.push((d, Q));
    let limits: Vec<u64> = runs.iter().flat_map(|&(count, limit)| vec![limit; count]).collect();
    assert_eq!(limits.len(), 3 * (1 << d) - 3 + n + alpha as usize * d * d);
    limits
}

fn steps(set: Set, n: usize, tape: &mut Tape) -> Option<Vec<u64>> {
    let mut shares = sum_mod_q(&tape.draws(n, 1 << set.mu)?, set.mu, tape)?;
    shares[0] = (shares[0] + Q + 1 - set.gamma1) % Q;
    refresh_sum(&shares, Q, tape)
}

/// The coefficient of these draws.
fn made(set: Set, n: usize, draws: &[u32]) -> Vec<u64> {
    let shares = on_draws(draws, |tape| steps(set, n, tape));
    let (mask, gamma1) = (draws[..n].iter().fold(0, |x, share| x ^ share), set.gamma1 as i64);
    assert_eq!(centred(&shares, Q), i64::from(mask) - (gamma1 - 1));
    assert!((1 - gamma1..=gamma1).contains(&centred(&shares, Q)));
    shares
}

pub fn coefficient(set: Set, n: usize, tape: &mut Tape) -> Option<Vec<u64>> {
    Some(made(set, n, &tape.drawn(&limits(set, n))?))
}

/// All draws of all coefficients first. Then each place of the slice has its share looked up.
pub fn polynomial(set: Set, n: usize, tape: &mut Tape) -> Option<Vec<u64>> {
    let draws: Vec<Vec<u32>> = (0..COEFFICIENTS).map(|_| tape.drawn(&limits(set, n))).collect::<Option<_>>()?;
    let rows: Vec<Vec<u64>> = draws.iter().map(|draws| made(set, n, draws)).collect();
    Some((0..COEFFICIENTS * n).map(|place| rows[place / n][place % n]).collect())
}
