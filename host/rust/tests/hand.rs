//! The cases by hand of document 01, on the C face. Those of a draw and of Ψ are seen in a call that has them as a step.

mod common;

use common::{centred, residue, Random};
use xechanopu::parameters::Q;
use xechanopu::*;

/// The words used and the two words of `out`, which begin as 7.
type Two = (Result<usize, Refusal>, [u32; 2]);

fn two(call: impl FnOnce(&mut [u32]) -> Result<usize, Refusal>) -> Two {
    let mut out = [7; 2];
    let used = call(&mut out);
    (used, out)
}

#[test]
fn a_draw_below_q() {
    // The draw is added to share 1 and taken from share 2.
    let drawn = |tape: &[u32]| two(|out| refresh(&[0, 0], tape, Q, out));
    assert_eq!(drawn(&[8380417, 8380416]), (Ok(2), [8380416, 1]));
    assert_eq!(drawn(&[8388608]), (Ok(1), [0, 0]));
    assert_eq!(drawn(&[8380417]), (Err(Refusal::TapeEnded), [7, 7]));
}

#[test]
fn psi_of_5_and_3() {
    // With draws of 0 the second output share is Ψ(5,3) ⊕ 5 ⊕ Ψ(5,0), and Ψ(5,0) is 5.
    assert_eq!(two(|out| to_arithmetic(&[5, 3], &[0; 3], 4, out)), (Ok(3), [3, 3]));
}

#[test]
fn a_shift() {
    let halved = |tape: &[u32]| two(|out| shift(&[7, 8], tape, 10, 1, out));
    assert_eq!(halved(&[3, 4]), (Ok(2), [0, 2]));
    assert_eq!(halved(&[12, 3, 6, 4]), (Ok(4), [0, 2]));
    assert_eq!(halved(&[12, 3, 6]), (Err(Refusal::TapeEnded), [7, 7]));
}

#[test]
fn conversions() {
    assert_eq!(two(|out| to_arithmetic(&[6, 3], &[1, 2, 7], 4, out)), (Ok(3), [9, 12]));
    assert_eq!(two(|out| to_boolean(&[6, 7], &[0, 0, 3], 3, out)), (Ok(3), [7, 2]));
}

#[test]
fn sampling() {
    assert_eq!(two(|out| sample(&[0; 6], 2, 44, out)), (Ok(6), [8249346, 0]));
}

#[test]
fn decompose_in_shares() {
    let cases = [(95232, 0, 95232), (95233, 1, -95231), (8380416, 0, -1), (8285185, 0, -95232), (8285184, 43, 95232)];
    let mut random = Random::new(1);
    for n in 2..=8 {
        for (value, high, low) in cases {
            let shares = random.shares_of(value, n, u64::from(Q));
            let mut out = vec![7; n];
            let told = decompose(&shares, &random.words(4096), 44, &mut out).expect("the tape suffices");
            assert_eq!((told.high, centred(&out)), (high, low), "{value} in {n} shares");
        }
    }
}

#[test]
fn verdict_in_shares() {
    let cases = [(130993, true), (-130993, true), (130994, false), (-130994, false), (131150, false)];
    let mut random = Random::new(2);
    for n in 2..=8 {
        for (number, accepted) in cases {
            let shares = random.shares_of(residue(number), n, u64::from(Q));
            let told = verdict(&shares, &random.words(4096), 44, 1).expect("the tape suffices");
            assert_eq!((told.accepted, told.opened != 0), (accepted, accepted), "{number} in {n} shares");
        }
    }
}

#[test]
fn draws_of_a_verdict() {
    // No word of zeros is skipped.
    for (n, draws) in [(2, 24), (8, 1079)] {
        assert_eq!(verdict(&vec![0; n], &[0; 2000], 44, 1).map(|told| told.used), Ok(draws));
    }
}

#[test]
fn refused_counts_and_shares() {
    for n in [1, 9] {
        assert_eq!(refresh(&vec![0; n], &[0; 9], Q, &mut vec![7; n]), Err(Refusal::ShareCount));
    }
    assert_eq!(two(|out| refresh(&[Q, 0], &[0; 9], Q, out)), (Err(Refusal::Share), [7, 7]));
}

#[test]
fn the_self_test() {
    assert_eq!(self_test(), Ok(()));
}
