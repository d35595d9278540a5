//! The gadgets of document 01 as a Rust programmer would write them: in place on slices, with arrays on the stack. What the library is held
//! against, in its answers and in its time.

mod coefficient;
mod convert;
mod sets;
mod steps;
mod tape;
mod words;

use crate::answers::{Answer, Decomposed, Judged};
use sets::{set, Set};
use tape::Tape;
use words::{MOST, Q};

const COEFFICIENTS: usize = 256;

fn refused(number: u32) -> Answer {
    Answer { number, used: 0 }
}

/// The checks on what has no shares, or the number of the first that fails.
fn check(n: usize, room: usize, expected: usize, in_range: bool) -> u32 {
    if !(2..=MOST).contains(&n) {
        1
    } else if room != expected {
        2
    } else if !in_range {
        3
    } else {
        0
    }
}

/// All checks. The bound is looked at only if the parameters are in range.
fn check_shares(shares: &[u32], room: usize, in_range: bool, bound: u32) -> u32 {
    match check(shares.len(), room, shares.len(), in_range) {
        0 if shares.iter().any(|&x| x >= bound) => 4,
        number => number,
    }
}

/// Runs the steps on a copy of checked shares. `out` changes only where the tape sufficed.
fn run(
    shares: &[u32],
    tape: &[u32],
    out: &mut [u32],
    steps: impl FnOnce(&mut [u32], &mut Tape) -> Option<()>,
) -> Answer {
    let copy = &mut [0; MOST][..shares.len()];
    copy.copy_from_slice(shares);
    let mut tape = Tape::new(tape);
    if steps(copy, &mut tape).is_none() {
        return refused(5);
    }
    out.copy_from_slice(copy);
    Answer { number: 0, used: tape.at }
}

fn power(k: u32) -> u32 {
    1 << (k % 32)
}

#[inline(never)]
pub fn refresh(shares: &[u32], tape: &[u32], modulus: u32, out: &mut [u32]) -> Answer {
    match check_shares(shares, out.len(), modulus >= 2, modulus) {
        0 => run(shares, tape, out, |x, tape| steps::refresh(x, modulus, tape)),
        number => refused(number),
    }
}

#[inline(never)]
pub fn refresh_boolean(shares: &[u32], tape: &[u32], width: u32, out: &mut [u32]) -> Answer {
    match check_shares(shares, out.len(), (1..32).contains(&width), power(width)) {
        0 => run(shares, tape, out, |x, tape| steps::refresh_boolean(x, width, tape)),
        number => refused(number),
    }
}

#[inline(never)]
pub fn shift(shares: &[u32], tape: &[u32], modulus: u32, t: u32, out: &mut [u32]) -> Answer {
    let in_range = (1..32).contains(&t) && modulus % power(t) == 0 && modulus >> t >= 2;
    match check_shares(shares, out.len(), in_range, modulus) {
        0 => run(shares, tape, out, |x, tape| {
            steps::shift(x, modulus >> t, t, tape)?;
            steps::refresh(x, modulus >> t, tape)
        }),
        number => refused(number),
    }
}

#[inline(never)]
pub fn to_boolean(shares: &[u32], tape: &[u32], k: u32, out: &mut [u32]) -> Answer {
    match check_shares(shares, out.len(), (1..32).contains(&k), power(k)) {
        0 => run(shares, tape, out, |x, tape| {
            steps::to_boolean(x, k, tape)?;
            steps::refresh_boolean(x, k, tape)
        }),
        number => refused(number),
    }
}

#[inline(never)]
pub fn to_arithmetic(shares: &[u32], tape: &[u32], k: u32, out: &mut [u32]) -> Answer {
    match check_shares(shares, out.len(), (1..32).contains(&k), power(k)) {
        0 => run(shares, tape, out, |x, tape| {
            convert::to_arithmetic(x, k, tape)?;
            steps::refresh(x, power(k), tape)
        }),
        number => refused(number),
    }
}

#[inline(never)]
pub fn to_mod_q(shares: &[u32], tape: &[u32], mu: u32, out: &mut [u32]) -> Answer {
    match check_shares(shares, out.len(), (1..=20).contains(&mu), power(mu)) {
        0 => run(shares, tape, out, |x, tape| {
            convert::to_mod_q(x, mu, tape)?;
            steps::refresh(x, Q, tape)
        }),
        number => refused(number),
    }
}

/// The set and the kind in it, if both are known.
fn kind_of(number: u32, kind: u32) -> Option<sets::Kind> {
    match kind {
        1 | 2 => Some(set(number)?.kinds[kind as usize - 1]),
        _ => None,
    }
}

#[inline(never)]
pub fn sample(tape: &[u32], n: usize, number: u32, out: &mut [u32]) -> Answer {
    let set = set(number);
    match (check(n, out.len(), n, set.is_some()), set) {
        (0, Some(set)) => run(&[0; MOST][..n], tape, out, |x, tape| coefficient::sample(x, &set, tape)),
        (refusal, _) => refused(refusal),
    }
}

/// The polynomial is made in its place, and wiped where the tape ends.
fn polynomial(tape: &[u32], n: usize, set: &Set, out: &mut [u32]) -> Answer {
    let mut tape = Tape::new(tape);
    for row in out.chunks_exact_mut(n) {
        if coefficient::sample(row, set, &mut tape).is_none() {
            out.fill(0);
            return refused(5);
        }
    }
    Answer { number: 0, used: tape.at }
}

#[inline(never)]
pub fn sample_polynomial(tape: &[u32], n: usize, number: u32, out: &mut [u32]) -> Answer {
    let set = set(number);
    match (check(n, out.len(), n.wrapping_mul(COEFFICIENTS), set.is_some()), set) {
        (0, Some(set)) => polynomial(tape, n, &set, out),
        (refusal, _) => refused(refusal),
    }
}

#[inline(never)]
pub fn widen(shares: &[u32], tape: &[u32], number: u32, kind: u32, out: &mut [u32]) -> Answer {
    let kind = kind_of(number, kind);
    match (check_shares(shares, out.len(), kind.is_some(), Q), kind) {
        (0, Some(kind)) => run(shares, tape, out, |x, tape| {
            coefficient::widen(x, kind, tape)?;
            steps::refresh(x, Q << kind.rho, tape)
        }),
        (refusal, _) => refused(refusal),
    }
}

#[inline(never)]
pub fn decompose(shares: &[u32], tape: &[u32], number: u32, out: &mut [u32]) -> Decomposed {
    let set = set(number);
    let mut high = 0;
    let told = match (check_shares(shares, out.len(), set.is_some(), Q), set) {
        (0, Some(set)) => run(shares, tape, out, |x, tape| {
            high = coefficient::decompose(x, &set, tape)?;
            steps::refresh(x, Q, tape)
        }),
        (refusal, _) => refused(refusal),
    };
    if told.number != 0 {
        high = 0;
    }
    Decomposed { number: told.number, high, used: told.used }
}

#[inline(never)]
pub fn verdict(shares: &[u32], tape: &[u32], number: u32, kind: u32) -> Judged {
    let refused = |number| Judged { number, verdict: 0, opened: 0, used: 0 };
    let kind = kind_of(number, kind);
    match (check_shares(shares, shares.len(), kind.is_some(), Q), kind) {
        (0, Some(kind)) => {
            let copy = &mut [0; MOST][..shares.len()];
            copy.copy_from_slice(shares);
            let mut tape = Tape::new(tape);
            match coefficient::judge(copy, kind, &mut tape) {
                Some(opened) => Judged { number: 0, verdict: u32::from(opened != 0), opened, used: tape.at },
                None => refused(5),
            }
        }
        (refusal, _) => refused(refusal),
    }
}
