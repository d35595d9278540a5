//! The conversions of document 01, without their closing refreshes.

use crate::sets::Q;
use crate::steps::{halving, refreshed_xor, shift_by, value};
use crate::tape::Tape;

/// What Boolean shares recombine to.
fn boolean_value(shares: &[u64]) -> u64 {
    shares.iter().fold(0, |x, share| x ^ share)
}

/// All shifts first, by 0 to width - 1; then each share's parities are read off as the bits of a word, the highest first.
pub fn bits_of_sum(shares: &[u64], width: u32, tape: &mut Tape) -> Option<Vec<u64>> {
    let mut shifts = vec![shares.to_vec()];
    for left in (2..=width).rev() {
        shifts.push(halving(shifts.last()?, 1 << left, tape)?);
    }
    let word = |share: usize| shifts.iter().rev().fold(0, |word, shares| 2 * word + shares[share] % 2);
    let words: Vec<u64> = (0..shares.len()).map(word).collect();
    assert_eq!(boolean_value(&words), value(shares, 1 << width));
    Some(words)
}

/// A list that the rule is applied to, and the draws for it and for all lists that come of it.
struct List<'a> {
    shares: Vec<u64>,
    draws: &'a [u64],
}

fn psi(x: u64, u: u64, width: u32) -> u64 {
    (i128::from(x ^ u) - i128::from(u)).rem_euclid(1 << width) as u64
}

/// U and Z. The draws that the list leaves are U's and then Z's, equally many since the two are equally long.
fn shorter<'a>(list: &List<'a>, width: u32) -> [List<'a>; 2] {
    let (own, left) = list.draws.split_at(list.shares.len() - 1);
    let (draws_of_u, draws_of_z) = left.split_at(left.len() / 2);
    let fresh = refreshed_xor(&list.shares, own);
    let (first, u) = (fresh[0], fresh[1..].to_vec());
    let mut z: Vec<u64> = u.iter().map(|&u| psi(first, u, width)).collect();
    if fresh.len() % 2 == 1 {
        z[0] ^= first;
    }
    [List { shares: u, draws: draws_of_u }, List { shares: z, draws: draws_of_z }]
}

/// The draws of the conversion from Boolean.
pub fn conversion_draws(n: usize) -> usize {
    3 * (1 << (n - 1)) - n - 2
}

/// The smallest number of bits with room for n values.
pub fn alpha(n: usize) -> u32 {
    n.next_power_of_two().trailing_zeros()
}

/// All lists of two shares, those of U before those of Z, each as its exclusive or. All draws are taken first; none is left.
fn leaves(shares: &[u64], width: u32, tape: &mut Tape) -> Option<Vec<u64>> {
    let n = shares.len();
    let draws = tape.draws(conversion_draws(n), 1 << width)?;
    let mut lists = vec![List { shares: [shares, &[0]].concat(), draws: &draws }];
    for _ in 1..n {
        lists = lists.iter().flat_map(|list| shorter(list, width)).collect();
    }
    assert!(lists.iter().all(|list| list.shares.len() == 2 && list.draws.is_empty()));
    Some(lists.iter().map(|list| boolean_value(&list.shares)).collect())
}

/// A leaf's place, in binary, is the way to it: 0 for U, 1 for Z, the last choice lowest. Where two results meet, U's last share
/// keeps its place, Z's goes one place on, and no other share moves: so a leaf ends in the share, counted from 0,
/// that is numbered by how many 1s its place ends with in binary.
pub fn sum_of_boolean(shares: &[u64], width: u32, tape: &mut Tape) -> Option<Vec<u64>> {
    let mut sums = vec![0; shares.len()];
    for (place, leaf) in leaves(shares, width, tape)?.iter().enumerate() {
        sums[place.trailing_ones() as usize] += leaf;
    }
    let words: Vec<u64> = sums.iter().map(|sum| sum % (1 << width)).collect();
    assert_eq!(value(&words, 1 << width), boolean_value(shares));
    Some(words)
}

/// The sum of the words is too large by a multiple of 2^wider. The shift gives the factor, and the multiple is taken away modulo
/// q. The tops stay far below the shift's modulus.
pub fn sum_mod_q(shares: &[u64], width: u32, tape: &mut Tape) -> Option<Vec<u64>> {
    let alpha = alpha(shares.len());
    let wider = width + alpha;
    let words = sum_of_boolean(shares, wider, tape)?;
    let mut tops: Vec<u64> = words.iter().map(|x| x >> width).collect();
    tops[0] += shares.len() as u64 - 1;
    let over = shift_by(&tops, Q << alpha, alpha, tape)?;
    let less = |x: u64, e: u64| (i128::from(x) - (i128::from(e) << wider)).rem_euclid(i128::from(Q)) as u64;
    let residues: Vec<u64> = words.iter().zip(over).map(|(&x, e)| less(x, e)).collect();
    assert_eq!(value(&residues, Q), boolean_value(shares));
    Some(residues)
}
