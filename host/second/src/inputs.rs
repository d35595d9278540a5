//! The calls of docs/CASES.md.

use crate::library::{self, Answer};
use crate::parameters::{
    decompose_edges, ends, modulus, modulus_and_t, narrow_width, power, set, set_and_kind, verdict_edges,
    widening_edges, width, Aim, Pair,
};
use crate::sets::{self, Q};

pub struct Input {
    /// The share count; a sampler is told it, and has no shares.
    pub n: usize,
    pub shares: Vec<u32>,
    pub tape: Vec<u32>,
    pub parameters: Pair,
    /// The output slice is the first `room` words of an array of `array`.
    pub room: usize,
    pub array: usize,
}

enum Shares {
    Arithmetic,
    Boolean,
    None,
}

/// How long the rounds of a gadget are.
pub struct Size {
    pub rounds: u32,
    tape: usize,
    array: usize,
    room: fn(usize, u32) -> usize,
}

const SHORT: Size = Size { rounds: 600, tape: 4096, array: 10, room: short_room };
const LONG: Size = Size { rounds: 48, tape: 140000, array: 2560, room: long_room };
const NO_SLICE: Size = Size { array: 0, room: |_, _| 0, ..SHORT };

pub struct Gadget {
    id: u32,
    pub name: &'static str,
    pub size: Size,
    parameters: fn(u32, u32) -> Pair,
    bound: fn(u32) -> u32,
    shares: Shares,
    aim: fn(&Aim) -> u32,
    /// How many words the further tapes have, beside those of all gadgets.
    cuts: fn(usize, usize) -> Vec<usize>,
    call: fn(&Input, &[u32]) -> Answer,
}

pub const REFRESH: Gadget = Gadget {
    id: 1,
    name: "refresh",
    size: SHORT,
    parameters: modulus,
    bound: |m| m,
    shares: Shares::Arithmetic,
    aim: ends,
    cuts: no_cuts,
    call: |input, tape| library::refresh(&input.shares, tape, input.parameters.0, input.room),
};

pub const REFRESH_BOOLEAN: Gadget = Gadget {
    id: 2,
    name: "refresh_boolean",
    size: SHORT,
    parameters: width,
    bound: power,
    shares: Shares::Boolean,
    aim: ends,
    cuts: no_cuts,
    call: |input, tape| library::refresh_boolean(&input.shares, tape, input.parameters.0, input.room),
};

pub const SHIFT: Gadget = Gadget {
    id: 3,
    name: "shift",
    size: SHORT,
    parameters: modulus_and_t,
    bound: |m| m,
    shares: Shares::Arithmetic,
    aim: ends,
    cuts: no_cuts,
    call: |input, tape| library::shift(&input.shares, tape, input.parameters.0, input.parameters.1, input.room),
};

pub const TO_BOOLEAN: Gadget = Gadget {
    id: 4,
    name: "to_boolean",
    size: SHORT,
    parameters: width,
    bound: power,
    shares: Shares::Arithmetic,
    aim: ends,
    cuts: no_cuts,
    call: |input, tape| library::to_boolean(&input.shares, tape, input.parameters.0, input.room),
};

pub const TO_ARITHMETIC: Gadget = Gadget {
    id: 5,
    name: "to_arithmetic",
    size: SHORT,
    parameters: width,
    bound: power,
    shares: Shares::Boolean,
    aim: ends,
    cuts: no_cuts,
    call: |input, tape| library::to_arithmetic(&input.shares, tape, input.parameters.0, input.room),
};

pub const TO_MOD_Q: Gadget = Gadget {
    id: 6,
    name: "to_mod_q",
    size: SHORT,
    parameters: narrow_width,
    bound: power,
    shares: Shares::Boolean,
    aim: ends,
    cuts: no_cuts,
    call: |input, tape| library::to_mod_q(&input.shares, tape, input.parameters.0, input.room),
};

pub const SAMPLE: Gadget = Gadget {
    id: 7,
    name: "sample",
    size: SHORT,
    parameters: set,
    bound: |_| 0,
    shares: Shares::None,
    aim: ends,
    cuts: first_cuts,
    call: |input, tape| library::sample(tape, input.n, input.parameters.0, input.room),
};

pub const SAMPLE_POLYNOMIAL: Gadget = Gadget {
    id: 8,
    name: "sample_polynomial",
    size: LONG,
    parameters: set,
    bound: |_| 0,
    shares: Shares::None,
    aim: ends,
    cuts: first_cuts,
    call: |input, tape| library::sample_polynomial(tape, input.n, input.parameters.0, input.room),
};

pub const WIDEN: Gadget = Gadget {
    id: 9,
    name: "widen",
    size: SHORT,
    parameters: set_and_kind,
    bound: |_| Q as u32,
    shares: Shares::Arithmetic,
    aim: widening_edges,
    cuts: last_cuts,
    call: |input, tape| library::widen(&input.shares, tape, input.parameters.0, input.parameters.1, input.room),
};

pub const DECOMPOSE: Gadget = Gadget {
    id: 10,
    name: "decompose",
    size: SHORT,
    parameters: set_and_kind,
    bound: |_| Q as u32,
    shares: Shares::Arithmetic,
    aim: decompose_edges,
    cuts: last_cuts,
    call: |input, tape| library::decompose(&input.shares, tape, input.parameters.0, input.room),
};

pub const VERDICT: Gadget = Gadget {
    id: 11,
    name: "verdict",
    size: NO_SLICE,
    parameters: set_and_kind,
    bound: |_| Q as u32,
    shares: Shares::Arithmetic,
    aim: verdict_edges,
    cuts: verdict_cuts,
    call: |input, tape| library::verdict(&input.shares, tape, input.parameters.0, input.parameters.1),
};

pub const GADGETS: [Gadget; 11] = [
    REFRESH,
    REFRESH_BOOLEAN,
    SHIFT,
    TO_BOOLEAN,
    TO_ARITHMETIC,
    TO_MOD_Q,
    SAMPLE,
    SAMPLE_POLYNOMIAL,
    WIDEN,
    DECOMPOSE,
    VERDICT,
];

/// Document 01's cases by hand.
pub fn by_hand() -> Vec<(Gadget, Input)> {
    let case = |gadget, shares: &[u32], parameters, tape: &[u32]| {
        (gadget, Input { n: 2, shares: shares.to_vec(), tape: tape.to_vec(), parameters, room: 2, array: 2 })
    };
    vec![
        case(SHIFT, &[7, 8], (10, 1), &[3, 4]),
        case(SHIFT, &[7, 8], (10, 1), &[12, 3, 6, 4]),
        case(SHIFT, &[7, 8], (10, 1), &[12, 3, 6]),
        case(TO_BOOLEAN, &[6, 7], (3, 0), &[0, 0, 3]),
        case(TO_ARITHMETIC, &[6, 3], (4, 0), &[1, 2, 7]),
        case(SAMPLE, &[], (44, 0), &[0; 6]),
    ]
}

/// Document 01's cases of Decompose: the residue, and the parts that the page gives it. They are run in shares.
pub const DECOMPOSE_BY_HAND: [(u32, (u32, i64)); 5] =
    [(95232, (0, 95232)), (95233, (1, -95231)), (8380416, (0, -1)), (8285185, (0, -95232)), (8285184, (43, 95232))];

/// n shares of the residue, from the words after x.
fn shares_of(residue: u32, n: usize, x: u32) -> Vec<u32> {
    let mut shares: Vec<u32> = words_after(x).take(n).map(|word| word % Q as u32).collect();
    shares[n - 1] = left_of_sum(residue, &shares[..n - 1], Q as u32);
    shares
}

/// Decompose, set 44, in n shares of the residue.
pub fn decompose_shared(residue: u32, n: usize) -> Input {
    let (tape, x) = DECOMPOSE.tape(n, residue);
    Input { n, shares: shares_of(residue, n, x), tape, parameters: (44, 0), room: n, array: n }
}

/// Document 01's cases of the verdict: the number, and the verdict that the page gives it. They are run in shares.
pub const VERDICT_BY_HAND: [(i64, u32); 5] = [(130993, 1), (-130993, 1), (130994, 0), (-130994, 0), (131150, 0)];

/// The verdict, set 44, kind 1, in n shares of the residue, on a tape of zeros.
pub fn verdict_on_zeros(residue: u32, n: usize) -> Input {
    let shares = shares_of(residue, n, mix(mix(VERDICT.id, n as u32), residue));
    Input { n, shares, tape: vec![0; VERDICT.size.tape], parameters: (44, 1), room: 0, array: 0 }
}

/// The numbers on both sides of the bound, the last within the reach, and those in the middle between.
pub fn verdict_numbers(parameters: Pair) -> [i64; 8] {
    let kind = sets::kind_of(parameters.0, parameters.1).expect("they are a set and a kind");
    let (a, b) = (kind.a as i64, kind.b as i64);
    let middle = (a + b) / 2;
    [a - 1, 1 - a, a, -a, b, -b, middle, -middle]
}

/// The verdict in n shares of the residue.
pub fn verdict_shared(parameters: Pair, residue: u32, n: usize) -> Input {
    let seed = mix(mix(parameters.0, parameters.1), mix(n as u32, residue));
    let (tape, x) = tape_after(seed, VERDICT.size.tape);
    Input { n, shares: shares_of(residue, n, x), tape, parameters, room: 0, array: 0 }
}

/// A sampler's calls with a stated share count far above the largest. Some counts are 0 or 2 in 8, 16 or 32 bits, or have the
/// 256-fold of 0 or 2 in 64; and some slices have the lengths for 0 or 2 shares.
pub fn far() -> Vec<Input> {
    let powers = [8, 16, 32, 56].map(|bits| 1 << bits);
    let counts = [11].into_iter().chain(powers.into_iter().flat_map(|n| [n, n + 2])).chain([usize::MAX]);
    let case = |n, room| Input { n, shares: Vec::new(), tape: vec![0; 6], parameters: (44, 0), room, array: 2560 };
    counts.flat_map(|n| [0, 2, 512, 2560].map(|room| case(n, room))).collect()
}

pub fn mix(sum: u32, v: u32) -> u32 {
    sum.wrapping_mul(16777619).wrapping_add(v)
}

/// xorshift: the words after `x`.
pub fn words_after(x: u32) -> impl Iterator<Item = u32> {
    std::iter::successors(Some(x), |&x| {
        let a = x ^ (x << 13);
        let b = a ^ (a >> 17);
        Some(b ^ (b << 5))
    })
    .skip(1)
}

/// A tape, and the last of its words.
fn tape_after(seed: u32, words: usize) -> (Vec<u32>, u32) {
    let tape: Vec<u32> = words_after(seed).take(words).collect();
    let x = tape[words - 1];
    (tape, x)
}

fn short_room(n: usize, round: u32) -> usize {
    match round % 7 {
        3 => n / 2,
        5 => 10,
        _ => n,
    }
}

fn long_room(n: usize, round: u32) -> usize {
    let right = 256 * n;
    [right, n, right.saturating_sub(1), (right + 1).min(2560), 0, 2560][round as usize / 8]
}

fn no_cuts(_: usize, _: usize) -> Vec<usize> {
    Vec::new()
}

/// A sampler first draws a word for each share.
fn first_cuts(n: usize, used: usize) -> Vec<usize> {
    vec![n, n - 1, used / 256, 0]
}

/// Without the words of the closing refresh, and of the refresh before it, if none of them was skipped.
fn last_cuts(n: usize, used: usize) -> Vec<usize> {
    vec![used - (n - 1), used - 2 * (n - 1), 0]
}

/// Without the words of the zero test's last refresh, of all of it, of the product before it, and of the refresh of the left side,
/// if none of them was skipped.
fn verdict_cuts(n: usize, used: usize) -> Vec<usize> {
    let d = n - 1;
    let before = used - n * n - n * d / 2;
    vec![used - d, used - n * n, before, before - d, 0]
}

/// What the other shares leave of the value to the last one.
fn left_of_sum(value: u32, others: &[u32], bound: u32) -> u32 {
    let left = others.iter().fold(i128::from(value), |left, &share| left - i128::from(share));
    left.rem_euclid(i128::from(bound)) as u32
}

fn left_of_xor(value: u32, others: &[u32]) -> u32 {
    others.iter().fold(value, |left, share| left ^ share)
}

impl Gadget {
    /// Replaces the last share, so that the shares recombine to the value.
    fn complete(&self, shares: &mut [u32], bound: u32, value: u32) {
        if let Some((last, others)) = shares.split_last_mut() {
            *last = match self.shares {
                Shares::Arithmetic => left_of_sum(value, others, bound),
                _ => left_of_xor(value, others),
            }
        }
    }

    fn shares(&self, n: usize, parameters: Pair, round: u32, x: u32) -> Vec<u32> {
        if matches!(self.shares, Shares::None) {
            return Vec::new();
        }
        let bound = (self.bound)(parameters.0);
        let mut shares: Vec<u32> = words_after(x).take(n).map(|w| w.checked_rem(bound).unwrap_or(w)).collect();
        if bound >= 2 && round % 3 == 1 {
            let aim = Aim { parameters, bound, turn: round as usize / 3, x };
            self.complete(&mut shares, bound, (self.aim)(&aim));
        }
        if round % 5 == 4 {
            shares.iter_mut().take(1).for_each(|share| *share = bound);
        }
        shares
    }

    /// A round's tape, and the last of its words.
    fn tape(&self, n: usize, round: u32) -> (Vec<u32>, u32) {
        tape_after(mix(mix(self.id, n as u32), round), self.size.tape)
    }

    pub fn input(&self, n: usize, round: u32) -> Input {
        let (tape, x) = self.tape(n, round);
        let parameters = (self.parameters)(round, x);
        let shares = self.shares(n, parameters, round, x);
        Input { n, shares, tape, parameters, room: (self.size.room)(n, round), array: self.size.array }
    }

    /// The call on the first `words` words of the tape.
    pub fn call(&self, input: &Input, words: usize) -> Answer {
        (self.call)(input, &input.tape[..words])
    }

    /// How many words the further tapes have, if the first call used some.
    pub fn cuts(&self, n: usize, used: usize) -> Vec<usize> {
        [vec![used, used - 1, used.saturating_sub(n), used / 2], (self.cuts)(n, used)].concat()
    }
}
