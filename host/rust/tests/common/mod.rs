//! One shape for the calls of all gadgets, so that a test can go over all of them.

// Each test file takes what it needs.
#![allow(dead_code)]

use xechanopu::parameters::{COEFFICIENTS, Q};
use xechanopu::{draws, face, Refusal};

#[derive(Clone, Copy, Debug, PartialEq, Eq)]
pub enum Gadget {
    Refresh,
    RefreshBoolean,
    Shift,
    ToArithmetic,
    ToBoolean,
    ToModQ,
    Sample,
    SamplePolynomial,
    Widen,
    Decompose,
    Verdict,
}

use Gadget::*;

pub const GADGETS: [Gadget; 11] = [
    Refresh,
    RefreshBoolean,
    Shift,
    ToArithmetic,
    ToBoolean,
    ToModQ,
    Sample,
    SamplePolynomial,
    Widen,
    Decompose,
    Verdict,
];

/// A gadget's parameters; the second is not looked at where it has but one.
pub type Pair = (u32, u32);

#[derive(Clone, Debug)]
pub struct Call {
    pub gadget: Gadget,
    /// The share count that a sampler is told.
    pub n: usize,
    pub shares: Vec<u32>,
    pub tape: Vec<u32>,
    pub parameters: Pair,
    /// The output slice before the call; empty for the verdict.
    pub out: Vec<u32>,
}

/// What a call gives back. `fields` are those between the number and the words used; `out` is the output slice after the call.
#[derive(Debug, PartialEq, Eq)]
pub struct Told {
    pub number: u32,
    pub fields: Vec<u32>,
    pub used: u64,
    pub out: Vec<u32>,
}

impl Gadget {
    pub fn is_sampler(self) -> bool {
        matches!(self, Sample | SamplePolynomial)
    }

    pub fn is_boolean(self) -> bool {
        matches!(self, RefreshBoolean | ToArithmetic | ToModQ)
    }

    /// Whether this gadget can answer the number.
    pub fn can_answer(self, number: u32) -> bool {
        !(number == 2 && self == Verdict || number == 4 && self.is_sampler())
    }

    /// How many words the output slice has for n shares.
    pub fn room(self, n: usize) -> usize {
        match self {
            SamplePolynomial => COEFFICIENTS * n,
            Verdict => 0,
            _ => n,
        }
    }

    /// What the shares are below, for parameters in range.
    pub fn limit(self, parameters: Pair) -> u64 {
        match self {
            Refresh | Shift => u64::from(parameters.0),
            RefreshBoolean | ToArithmetic | ToBoolean | ToModQ => 1 << parameters.0,
            _ => u64::from(Q),
        }
    }

    pub fn draws(self, n: usize, parameters: Pair) -> Result<usize, Refusal> {
        match self {
            Refresh | RefreshBoolean => draws::refresh(n),
            Shift => draws::shift(n, parameters.1),
            ToArithmetic => draws::to_arithmetic(n),
            ToBoolean => draws::to_boolean(n, parameters.0),
            ToModQ => draws::to_mod_q(n),
            Sample => draws::sample(n),
            SamplePolynomial => draws::sample_polynomial(n),
            Widen => draws::widen(n),
            Decompose => draws::decompose(n),
            Verdict => draws::verdict(n, parameters.0, parameters.1),
        }
    }

    /// Parameters in range, both ends among them.
    pub fn good_parameters(self) -> Vec<Pair> {
        let alone = |numbers: &[u32]| numbers.iter().map(|&number| (number, 0)).collect();
        match self {
            Refresh => alone(&[2, 3, Q, u32::MAX]),
            RefreshBoolean | ToArithmetic | ToBoolean => alone(&[1, 2, 23, 31]),
            Shift => vec![(4, 1), (10, 1), (3 << 30, 30), (1 << 31, 30), (Q << 9, 9), (u32::MAX - 1, 1)],
            ToModQ => alone(&[1, 18, 20]),
            Sample | SamplePolynomial | Decompose => alone(&[44, 65, 87]),
            Widen | Verdict => [44, 65, 87].iter().flat_map(|&set| [(set, 1), (set, 2)]).collect(),
        }
    }

    /// Parameters out of range, some of them in range if bits were dropped.
    pub fn bad_parameters(self) -> Vec<Pair> {
        let alone = |numbers: &[u32]| numbers.iter().map(|&number| (number, 0)).collect();
        match self {
            Refresh => alone(&[0, 1]),
            RefreshBoolean | ToArithmetic | ToBoolean => alone(&[0, 32, 33, 256 + 8, u32::MAX]),
            Shift => {
                vec![(10, 0), (10, 2), (2, 1), (0, 1), (9, 1), (1 << 31, 31), (3 << 30, 31), (4, 32), (4, 33), (4, 257)]
            }
            ToModQ => alone(&[0, 21, 32, 33, 256 + 18, u32::MAX]),
            Sample | SamplePolynomial | Decompose => {
                alone(&[0, 1, 43, 45, 64, 66, 86, 88, 44 + 256, 65 + (1 << 16), u32::MAX])
            }
            Widen | Verdict => {
                vec![(0, 1), (45, 1), (44 + 256, 2), (44, 0), (65, 3), (87, 257), (44, u32::MAX), (0, 0)]
            }
        }
    }
}

impl Call {
    /// What the C face tells, having also made the call on the safe face, which must tell the same.
    pub fn told(&self) -> Told {
        let told = self.on_face();
        assert_eq!(told, self.on_safe_face(), "the two faces differ on {self:?}");
        told
    }

    fn on_face(&self) -> Told {
        let Call { n, shares, tape, parameters: (p, r), .. } = self;
        let mut out = self.out.clone();
        let shared = match self.gadget {
            Refresh => face::refresh(shares, tape, *p, &mut out),
            RefreshBoolean => face::refresh_boolean(shares, tape, *p, &mut out),
            Shift => face::shift(shares, tape, *p, *r, &mut out),
            ToArithmetic => face::to_arithmetic(shares, tape, *p, &mut out),
            ToBoolean => face::to_boolean(shares, tape, *p, &mut out),
            ToModQ => face::to_mod_q(shares, tape, *p, &mut out),
            Sample => face::sample(tape, *n, *p, &mut out),
            SamplePolynomial => face::sample_polynomial(tape, *n, *p, &mut out),
            Widen => face::widen(shares, tape, *p, *r, &mut out),
            Decompose => {
                let face::Decomposed { number, high, used } = face::decompose(shares, tape, *p, &mut out);
                return Told { number, fields: vec![high], used, out };
            }
            Verdict => {
                let face::Judged { number, verdict, opened, used } = face::verdict(shares, tape, *p, *r);
                return Told { number, fields: vec![verdict, opened], used, out };
            }
        };
        Told { number: shared.number, fields: Vec::new(), used: shared.used, out }
    }

    fn on_safe_face(&self) -> Told {
        let mut out = self.out.clone();
        let (fields, answer) = self.safe_answer(&mut out);
        let number = answer.err().map_or(0, Refusal::number);
        Told { number, fields, used: answer.unwrap_or(0) as u64, out }
    }

    /// The fields, which are 0 in a refusal, and the words used.
    fn safe_answer(&self, out: &mut [u32]) -> (Vec<u32>, Result<usize, Refusal>) {
        let Call { n, shares, tape, parameters: (p, r), .. } = self;
        let used = match self.gadget {
            Refresh => xechanopu::refresh(shares, tape, *p, out),
            RefreshBoolean => xechanopu::refresh_boolean(shares, tape, *p, out),
            Shift => xechanopu::shift(shares, tape, *p, *r, out),
            ToArithmetic => xechanopu::to_arithmetic(shares, tape, *p, out),
            ToBoolean => xechanopu::to_boolean(shares, tape, *p, out),
            ToModQ => xechanopu::to_mod_q(shares, tape, *p, out),
            Sample => xechanopu::sample(tape, *n, *p, out),
            SamplePolynomial => xechanopu::sample_polynomial(tape, *n, *p, out),
            Widen => xechanopu::widen(shares, tape, *p, *r, out),
            Decompose => {
                let told = xechanopu::decompose(shares, tape, *p, out);
                return (vec![told.map_or(0, |told| told.high)], told.map(|told| told.used));
            }
            Verdict => {
                let told = xechanopu::verdict(shares, tape, *p, *r);
                let fields = told.map_or([0, 0], |told| [u32::from(told.accepted), told.opened]);
                return (fields.to_vec(), told.map(|told| told.used));
            }
        };
        (Vec::new(), used)
    }
}

/// xorshift: a fixed seed gives the same words on every run.
pub struct Random(u64);

impl Random {
    pub fn new(seed: u64) -> Self {
        Random(seed)
    }

    pub fn word(&mut self) -> u32 {
        self.0 ^= self.0 << 13;
        self.0 ^= self.0 >> 7;
        self.0 ^= self.0 << 17;
        (self.0.wrapping_mul(0x2545F4914F6CDD1D) >> 32) as u32
    }

    pub fn words(&mut self, count: usize) -> Vec<u32> {
        (0..count).map(|_| self.word()).collect()
    }

    /// A number below the limit, which is at least 1.
    pub fn below(&mut self, limit: usize) -> usize {
        self.word() as usize % limit
    }

    pub fn one_in(&mut self, count: usize) -> bool {
        self.below(count) == 0
    }

    pub fn pick<T: Copy>(&mut self, choices: &[T]) -> T {
        choices[self.below(choices.len())]
    }

    /// n words below the limit, the last of them such that they sum up to the value.
    pub fn shares_of(&mut self, value: u64, n: usize, limit: u64) -> Vec<u32> {
        let mut shares: Vec<u32> = (1..n).map(|_| (u64::from(self.word()) % limit) as u32).collect();
        let sum = shares.iter().map(|&share| u64::from(share)).sum::<u64>() % limit;
        shares.push(((value + limit - sum) % limit) as u32);
        shares
    }

    /// The same by exclusive or; the limit is a power of two.
    pub fn boolean_shares_of(&mut self, value: u64, n: usize, limit: u64) -> Vec<u32> {
        let mut shares: Vec<u32> = (1..n).map(|_| (u64::from(self.word()) % limit) as u32).collect();
        shares.push(shares.iter().fold(value as u32, |left, share| left ^ share));
        shares
    }
}

/// The residue modulo q of a signed number.
pub fn residue(number: i64) -> u64 {
    number.rem_euclid(i64::from(Q)) as u64
}

/// The signed number that shares modulo q stand for.
pub fn centred(shares: &[u32]) -> i64 {
    let sum = shares.iter().map(|&share| i64::from(share)).sum::<i64>() % i64::from(Q);
    if sum > i64::from(Q / 2) {
        sum - i64::from(Q)
    } else {
        sum
    }
}
