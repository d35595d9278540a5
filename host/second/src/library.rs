//! The gadgets of document 01: the refusals in their order, the steps, and the closing refresh.

use crate::coefficients;
use crate::conversions::{bits_of_sum, sum_mod_q, sum_of_boolean};
use crate::sampling;
use crate::sets::{self, Q};
use crate::steps::{refresh_sum, refresh_xor, shift_by};
use crate::tape::Tape;
use crate::verdict;

/// What a caller gets back. `fields` are those between the number and the words used: Decompose's high part, or the verdict and the
/// opened number. `out` is what the output slice then holds, `None` where it stays unchanged.
pub struct Answer {
    pub number: u32,
    pub fields: Vec<u32>,
    pub used: usize,
    pub out: Option<Vec<u32>>,
}

/// The first of the numbers 1 to 4 that applies. `limit` is what the shares are below, `None` if a parameter is out of range.
fn refusal(shares: &[u32], room: usize, limit: Option<u64>) -> Option<u32> {
    let count = shares.len();
    let wrong_share = shares.iter().any(|&x| Some(u64::from(x)) >= limit);
    first(&[(1, wrong_count(count)), (2, room != count), (3, limit.is_none()), (4, wrong_share)])
}

/// The same for a sampler, which has no shares to look at and writes `rows` times as many words as the stated count.
fn sampler_refusal(count: usize, room: usize, rows: usize, set: Option<sets::Set>) -> Option<u32> {
    let wrong_room = room as u128 != rows as u128 * count as u128;
    first(&[(1, wrong_count(count)), (2, wrong_room), (3, set.is_none())])
}

fn wrong_count(count: usize) -> bool {
    !(2..=8).contains(&count)
}

/// The first number whose test fails.
fn first(tests: &[(u32, bool)]) -> Option<u32> {
    tests.iter().find(|(_, fails)| *fails).map(|(number, _)| *number)
}

/// The answer of a call: a refusal, number 5 if the steps met the tape's end, or their shares.
fn answer(refused: Option<u32>, tape: &[u32], steps: impl FnOnce(&mut Tape) -> Option<Vec<u64>>) -> Answer {
    let refuse = |number| Answer { number, fields: Vec::new(), used: 0, out: None };
    if let Some(number) = refused {
        return refuse(number);
    }
    let mut tape = Tape::new(tape);
    match steps(&mut tape) {
        None => refuse(5),
        Some(words) => {
            let out = Some(words.iter().map(|&x| x as u32).collect());
            Answer { number: 0, fields: Vec::new(), used: tape.used(), out }
        }
    }
}

fn wide(shares: &[u32]) -> Vec<u64> {
    shares.iter().copied().map(u64::from).collect()
}

/// What shares of a width are below, if it is in range.
fn power(width: u32, widest: u32) -> Option<u64> {
    (1..=widest).contains(&width).then(|| 1 << width)
}

pub fn refresh(shares: &[u32], tape: &[u32], modulus: u32, room: usize) -> Answer {
    let limit = (modulus >= 2).then_some(u64::from(modulus));
    let steps = |tape: &mut Tape| refresh_sum(&wide(shares), u64::from(modulus), tape);
    answer(refusal(shares, room, limit), tape, steps)
}

pub fn refresh_boolean(shares: &[u32], tape: &[u32], width: u32, room: usize) -> Answer {
    let steps = |tape: &mut Tape| refresh_xor(&wide(shares), width, tape);
    answer(refusal(shares, room, power(width, 31)), tape, steps)
}

pub fn shift(shares: &[u32], tape: &[u32], modulus: u32, t: u32, room: usize) -> Answer {
    let in_range = (1..=31).contains(&t) && modulus.trailing_zeros() >= t && modulus >> t >= 2;
    let limit = in_range.then_some(u64::from(modulus));
    let steps = |tape: &mut Tape| {
        let modulus = u64::from(modulus);
        refresh_sum(&shift_by(&wide(shares), modulus, t, tape)?, modulus >> t, tape)
    };
    answer(refusal(shares, room, limit), tape, steps)
}

pub fn to_boolean(shares: &[u32], tape: &[u32], width: u32, room: usize) -> Answer {
    let steps = |tape: &mut Tape| refresh_xor(&bits_of_sum(&wide(shares), width, tape)?, width, tape);
    answer(refusal(shares, room, power(width, 31)), tape, steps)
}

pub fn to_arithmetic(shares: &[u32], tape: &[u32], width: u32, room: usize) -> Answer {
    let steps = |tape: &mut Tape| refresh_sum(&sum_of_boolean(&wide(shares), width, tape)?, 1 << width, tape);
    answer(refusal(shares, room, power(width, 31)), tape, steps)
}

pub fn to_mod_q(shares: &[u32], tape: &[u32], width: u32, room: usize) -> Answer {
    let steps = |tape: &mut Tape| refresh_sum(&sum_mod_q(&wide(shares), width, tape)?, Q, tape);
    answer(refusal(shares, room, power(width, 20)), tape, steps)
}

pub fn sample(tape: &[u32], n: usize, set: u32, room: usize) -> Answer {
    let set = sets::set(set);
    let steps = |tape: &mut Tape| sampling::coefficient(set?, n, tape);
    answer(sampler_refusal(n, room, 1, set), tape, steps)
}

pub fn sample_polynomial(tape: &[u32], n: usize, set: u32, room: usize) -> Answer {
    let known = sets::set(set);
    let steps = |tape: &mut Tape| sampling::polynomial(known?, n, tape);
    let told = answer(sampler_refusal(n, room, sampling::COEFFICIENTS, known), tape, steps);
    if told.number == 5 {
        return Answer { out: Some(vec![0; room]), ..told };
    }
    if let Some(words) = &told.out {
        assert_eq!(one_by_one(&tape[..told.used], n, set), *words);
    }
    told
}

/// A polynomial made by `sample`, each coefficient on the part of the tape that those before it leave. None of it is left over.
fn one_by_one(tape: &[u32], n: usize, set: u32) -> Vec<u32> {
    let mut left = tape;
    let mut words = Vec::new();
    for _ in 0..sampling::COEFFICIENTS {
        let told = sample(left, n, set, n);
        left = &left[told.used..];
        words.extend(told.out.unwrap_or_default());
    }
    assert!(left.is_empty());
    words
}

pub fn widen(shares: &[u32], tape: &[u32], set: u32, kind: u32, room: usize) -> Answer {
    let kind = sets::kind_of(set, kind);
    let steps = |tape: &mut Tape| coefficients::widen(kind?, &wide(shares), tape);
    answer(refusal(shares, room, kind.map(|_| Q)), tape, steps)
}

/// The high part stays 0 unless all steps were made.
pub fn decompose(shares: &[u32], tape: &[u32], set: u32, room: usize) -> Answer {
    let set = sets::set(set);
    let mut high = 0;
    let steps = |tape: &mut Tape| {
        let (opened, low) = coefficients::decompose(set?, &wide(shares), tape)?;
        high = opened as u32;
        Some(low)
    };
    let told = answer(refusal(shares, room, set.map(|_| Q)), tape, steps);
    Answer { fields: vec![high], ..told }
}

/// The same of the verdict and the opened number; there are no shares to write, so the room is always right.
pub fn verdict(shares: &[u32], tape: &[u32], set: u32, kind: u32) -> Answer {
    let kind = sets::kind_of(set, kind);
    let mut fields = [0, 0];
    let steps = |tape: &mut Tape| {
        let (accepted, opened) = verdict::verdict(kind?, &wide(shares), tape)?;
        fields = [u32::from(accepted), opened as u32];
        Some(Vec::new())
    };
    let told = answer(refusal(shares, shares.len(), kind.map(|_| Q)), tape, steps);
    assert_eq!(fields[0] == 0, fields[1] == 0);
    Answer { fields: fields.to_vec(), ..told }
}
