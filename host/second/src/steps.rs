//! The steps of document 01 on arithmetic shares, and both refreshes, on vectors and wide integers.

use crate::tape::Tape;

/// What arithmetic shares recombine to.
pub fn value(shares: &[u64], modulus: u64) -> u64 {
    shares.iter().sum::<u64>() % modulus
}

/// The same as a signed number: a residue above half of the modulus is itself less the modulus.
pub fn centred(shares: &[u64], modulus: u64) -> i64 {
    let residue = value(shares, modulus);
    residue as i64 - if residue > modulus / 2 { modulus as i64 } else { 0 }
}

/// Each number modulo the modulus.
pub fn reduced(numbers: &[i128], modulus: u64) -> Vec<u64> {
    numbers.iter().map(|x| x.rem_euclid(i128::from(modulus)) as u64).collect()
}

/// All draws first; then each share but the last has its draw added, and the last has their sum taken away.
pub fn refresh_sum(shares: &[u64], modulus: u64, tape: &mut Tape) -> Option<Vec<u64>> {
    let (last, others) = shares.split_last()?;
    let draws = tape.draws(others.len(), modulus)?;
    let taken = draws.iter().fold(i128::from(*last), |x, &r| x - i128::from(r));
    let added = others.iter().zip(&draws).map(|(x, r)| (x + r) % modulus);
    Some(added.chain([taken.rem_euclid(i128::from(modulus)) as u64]).collect())
}

/// The same with exclusive or.
pub fn refresh_xor(shares: &[u64], width: u32, tape: &mut Tape) -> Option<Vec<u64>> {
    let draws = tape.draws(shares.len() - 1, 1 << width)?;
    Some(refreshed_xor(shares, &draws))
}

/// What `refresh_xor` gives with these draws.
pub fn refreshed_xor(shares: &[u64], draws: &[u64]) -> Vec<u64> {
    let taken = draws.iter().fold(0, |x, r| x ^ r);
    shares.iter().zip(draws.iter().chain([&taken])).map(|(x, r)| x ^ r).collect()
}

/// Shares of the parity of the sum, not reduced. All of them are negated whenever an odd share joins, so a draw or a parity
/// counts with the sign that the odd shares after it give. The draws of a refresh come before the share that joins, its
/// parity after.
fn parity_of_sum(shares: &[u64], modulus: u64, tape: &mut Tape) -> Option<Vec<i128>> {
    let others = shares.len() - 1;
    let draws: Vec<Vec<u64>> = (0..others).map(|_| tape.draws(others, modulus)).collect::<Option<_>>()?;
    let parity = |i: usize| i128::from(shares[i] % 2);
    let sign = |from: usize| (from..=others).map(|i| 1 - 2 * parity(i)).product::<i128>();
    let parities: i128 = (0..=others).map(|i| parity(i) * sign(i + 1)).sum();
    let drawn = |share: usize| (1..=others).map(|i| i128::from(draws[i - 1][share]) * sign(i)).sum::<i128>();
    let mut sums: Vec<i128> = (0..others).map(drawn).collect();
    sums.push(-sums.iter().sum::<i128>());
    sums[0] += parities;
    Some(sums)
}

/// From shares below the modulus, which is even, to shares of half the value below half of it. The parities move all at once.
pub fn halving(shares: &[u64], modulus: u64, tape: &mut Tape) -> Option<Vec<u64>> {
    let sums = parity_of_sum(shares, modulus, tape)?;
    let even: Vec<i128> = shares.iter().zip(sums).map(|(&x, a)| i128::from(x) - a).collect();
    let even = reduced(&even, modulus);
    let (last, others) = even.split_last()?;
    let moved: u64 = others.iter().map(|x| x % 2).sum();
    let halves: Vec<u64> = others.iter().copied().chain([(last + moved) % modulus]).map(|x| x / 2).collect();
    assert_eq!(value(&halves, modulus / 2), value(shares, modulus) / 2);
    Some(halves)
}

pub fn shift_by(shares: &[u64], modulus: u64, t: u32, tape: &mut Tape) -> Option<Vec<u64>> {
    (0..t).try_fold(shares.to_vec(), |shares, done| halving(&shares, modulus >> done, tape))
}
