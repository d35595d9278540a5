//! The gadgets by name, with the parameters that they are timed with, and one call of any of them.

use crate::side::Side;

const Q: u32 = 8380417;

#[derive(Clone, Copy, PartialEq)]
pub enum Gadget {
    Refresh,
    RefreshBoolean,
    Shift,
    ToBoolean,
    ToArithmetic,
    ToModQ,
    Sample,
    SamplePolynomial,
    Widen,
    Decompose,
    Verdict,
}

pub use Gadget::*;

pub const ALL: [Gadget; 11] = [
    Refresh,
    RefreshBoolean,
    Shift,
    ToBoolean,
    ToArithmetic,
    ToModQ,
    Sample,
    SamplePolynomial,
    Widen,
    Decompose,
    Verdict,
];

/// The parameters of a call. A gadget with one goes by the first.
#[derive(Clone, Copy)]
pub struct Pair(pub u32, pub u32);

/// Everything that a call answers; what a gadget does not answer is 0.
#[derive(Clone, Copy, Debug, Default, PartialEq)]
pub struct Told {
    pub number: u32,
    pub parts: [u32; 2],
    pub used: usize,
}

fn log2(n: u64) -> u64 {
    u64::from(64 - (n - 1).leading_zeros())
}

impl Gadget {
    pub fn name(self) -> &'static str {
        match self {
            Refresh => "refresh",
            RefreshBoolean => "refresh_boolean",
            Shift => "shift",
            ToBoolean => "to_boolean",
            ToArithmetic => "to_arithmetic",
            ToModQ => "to_mod_q",
            Sample => "sample",
            SamplePolynomial => "sample_polynomial",
            Widen => "widen",
            Decompose => "decompose",
            Verdict => "verdict",
        }
    }

    /// What the gadget is timed with.
    pub fn timed_with(self) -> Pair {
        match self {
            Refresh => Pair(Q, 0),
            RefreshBoolean | ToBoolean | ToArithmetic => Pair(20, 0),
            ToModQ => Pair(18, 0),
            Shift => Pair(Q << 8, 8),
            Sample | SamplePolynomial | Decompose => Pair(44, 0),
            Widen | Verdict => Pair(44, 1),
        }
    }

    /// What the shares are below, if the parameters are in range.
    pub fn bound(self, p: Pair) -> u32 {
        match self {
            Refresh | Shift => p.0,
            RefreshBoolean | ToBoolean | ToArithmetic | ToModQ => 1 << (p.0 % 32),
            _ => Q,
        }
    }

    /// How many words the output slice has.
    pub fn room(self, n: usize) -> usize {
        match self {
            SamplePolynomial => 256 * n,
            Verdict => 0,
            _ => n,
        }
    }

    /// The draws of a call with the parameters that the gadget is timed with, as document 01 has them.
    pub fn draws(self, shares: usize) -> u64 {
        let n = shares as u64;
        let (d, a) = (n - 1, log2(n));
        let conversion = 3 * (1 << d) - n - 2;
        match self {
            Refresh | RefreshBoolean => d,
            Shift => 8 * d * d + d,
            ToBoolean => 19 * d * d + d,
            ToArithmetic => conversion + d,
            ToModQ => conversion + a * d * d + d,
            Sample => n + ToModQ.draws(shares),
            SamplePolynomial => 256 * Sample.draws(shares),
            Widen => (a + 1) * d * d + d,
            Decompose => (23 + a) * d * d + 2 * d,
            Verdict => (a + 17) * d * d + d + n * d / 2 + n * n,
        }
    }

    /// One call, with everything that it answers.
    pub fn call<S: Side>(self, shares: &[u32], tape: &[u32], p: Pair, out: &mut [u32]) -> Told {
        let answer = match self {
            Refresh => S::refresh(shares, tape, p.0, out),
            RefreshBoolean => S::refresh_boolean(shares, tape, p.0, out),
            Shift => S::shift(shares, tape, p.0, p.1, out),
            ToBoolean => S::to_boolean(shares, tape, p.0, out),
            ToArithmetic => S::to_arithmetic(shares, tape, p.0, out),
            ToModQ => S::to_mod_q(shares, tape, p.0, out),
            Sample => S::sample(tape, shares.len(), p.0, out),
            SamplePolynomial => S::sample_polynomial(tape, shares.len(), p.0, out),
            Widen => S::widen(shares, tape, p.0, p.1, out),
            Decompose => {
                let r = S::decompose(shares, tape, p.0, out);
                return Told { number: r.number, parts: [r.high, 0], used: r.used };
            }
            Verdict => {
                let r = S::verdict(shares, tape, p.0, p.1);
                return Told { number: r.number, parts: [r.verdict, r.opened], used: r.used };
            }
        };
        Told { number: answer.number, parts: [0, 0], used: answer.used }
    }
}
