//! The lines of the program `residues`, which runs Decompose in shares: here they come from FIPS 204's Decompose alone, without
//! shares or a tape.

use crate::coefficients::plain;
use crate::inputs::{mix, words_after};
use crate::sets::{self, Set, Q};

/// All residues, in order.
fn all() -> Vec<u64> {
    (0..Q).collect()
}

/// Nine residues around each multiple of γ2, which are the ends and the middles of the residues with one high part; and some others.
fn some(number: u32, set: Set, n: u32) -> Vec<u64> {
    let multiples = (0..2 * set.high_parts()).map(|j| j * set.gamma2);
    let around = multiples.flat_map(|r| (0..9).map(move |i| (r + Q + i - 4) % Q));
    around.chain(words_after(mix(number, n)).take(10000).map(|word| u64::from(word) % Q)).collect()
}

/// The high part and the low residue. Together they are the residue; and the low part lies in −γ2 < r0 ≤ γ2, but for −γ2 at the
/// residue q − γ2, where FIPS 204 takes one more off.
fn parts(set: Set, residue: u64) -> [u64; 2] {
    let (high, low) = plain(set, residue);
    let (q, half) = (Q as i64, set.gamma2 as i64);
    assert!(high < set.high_parts());
    assert_eq!((high as i64 * 2 * half + low).rem_euclid(q), residue as i64);
    assert!((1 - half..=half).contains(&low) || (low == -half && residue == Q - set.gamma2));
    [high, low.rem_euclid(q) as u64]
}

fn line(number: u32, n: u32) {
    let set = sets::set(number).expect("it is a set");
    let residues = if n == 2 { all() } else { some(number, set, n) };
    let sum = residues.iter().flat_map(|&r| parts(set, r)).fold(0, |sum, part| mix(sum, part as u32));
    println!("{number} {n} {} 0 {sum}", residues.len());
}

pub fn print() {
    for number in [44, 65, 87] {
        for n in 2..=8 {
            line(number, n);
        }
    }
}
