//! Time per call. Both sides take turns in short rounds, and of each side the fastest round counts: whatever else the machine does can only add.

use crate::gadget::{Gadget, Gadget::*, Pair};
use crate::random::Random;
use crate::side::{Library, Plain, Side};
use std::hint::black_box;
use std::time::{Duration, Instant};

const PASSES: usize = 5;
const ROUNDS: usize = 40;
const ROUND: Duration = Duration::from_micros(1500);
const INPUTS: usize = 512;

/// Per call, in nanoseconds, and the words read.
pub struct Times {
    pub library: f64,
    pub plain: f64,
    pub words: f64,
}

/// Shares and tape, another part of both for each call.
struct Pool {
    n: usize,
    p: Pair,
    shares: Vec<[u32; 8]>,
    tape: Vec<u32>,
    out: Vec<u32>,
}

impl Pool {
    fn new(gadget: Gadget, n: usize) -> Self {
        let mut random = Random::new(0xd1b5_4a32_d192_ed03);
        let p = gadget.timed_with();
        let bound = gadget.bound(p);
        let shares = (0..INPUTS).map(|_| std::array::from_fn(|_| random.below(bound))).collect();
        let tape = random.words(INPUTS + 2 * gadget.draws(n) as usize + 64);
        Pool { n, p, shares, tape, out: vec![0; gadget.room(n)] }
    }

    /// The words that so many calls read.
    fn calls(&mut self, count: usize, call: impl Fn(&[u32], &[u32], Pair, &mut [u32]) -> usize) -> usize {
        (0..count)
            .map(|i| {
                let shares = &self.shares[i % INPUTS][..self.n];
                let tape = &self.tape[i % INPUTS..];
                call(black_box(shares), black_box(tape), black_box(self.p), black_box(&mut self.out))
            })
            .sum()
    }

    /// The same of a gadget. Each has a loop of its own, so that only its call is timed.
    fn run<S: Side>(&mut self, gadget: Gadget, count: usize) -> usize {
        let n = self.n;
        match gadget {
            Refresh => self.calls(count, |x, tape, p, out| S::refresh(x, tape, p.0, out).used),
            RefreshBoolean => self.calls(count, |x, tape, p, out| S::refresh_boolean(x, tape, p.0, out).used),
            Shift => self.calls(count, |x, tape, p, out| S::shift(x, tape, p.0, p.1, out).used),
            ToBoolean => self.calls(count, |x, tape, p, out| S::to_boolean(x, tape, p.0, out).used),
            ToArithmetic => self.calls(count, |x, tape, p, out| S::to_arithmetic(x, tape, p.0, out).used),
            ToModQ => self.calls(count, |x, tape, p, out| S::to_mod_q(x, tape, p.0, out).used),
            Sample => self.calls(count, |_, tape, p, out| S::sample(tape, n, p.0, out).used),
            SamplePolynomial => self.calls(count, |_, tape, p, out| S::sample_polynomial(tape, n, p.0, out).used),
            Widen => self.calls(count, |x, tape, p, out| S::widen(x, tape, p.0, p.1, out).used),
            Decompose => self.calls(count, |x, tape, p, out| S::decompose(x, tape, p.0, out).used),
            Verdict => self.calls(count, |x, tape, p, _| S::verdict(x, tape, p.0, p.1).used),
        }
    }

    fn timed<S: Side>(&mut self, gadget: Gadget, count: usize) -> Duration {
        let start = Instant::now();
        black_box(self.run::<S>(gadget, count));
        start.elapsed()
    }
}

/// So many calls that a round of the slower side takes its time.
fn calls_per_round(pool: &mut Pool, gadget: Gadget) -> usize {
    let mut count = 1;
    while pool.timed::<Library>(gadget, count).max(pool.timed::<Plain>(gadget, count)) < ROUND / 2 {
        count *= 2;
    }
    count
}

impl Times {
    fn fastest(self, other: Times) -> Times {
        Times { library: self.library.min(other.library), plain: self.plain.min(other.plain), words: self.words }
    }
}

/// Gadgets with share counts, all of them in several passes: a machine can be slow for seconds, and in one pass that would fall on a few of them alone.
pub fn times(points: &[(Gadget, usize)]) -> Vec<Times> {
    let pass = || points.iter().map(|&(gadget, n)| time(gadget, n));
    (1..PASSES)
        .fold(pass().collect(), |all: Vec<Times>, _| all.into_iter().zip(pass()).map(|(x, y)| x.fastest(y)).collect())
}

fn time(gadget: Gadget, n: usize) -> Times {
    let mut pool = Pool::new(gadget, n);
    let count = calls_per_round(&mut pool, gadget);
    let (mut library, mut plain) = (Duration::MAX, Duration::MAX);
    for _ in 0..ROUNDS {
        library = library.min(pool.timed::<Library>(gadget, count));
        plain = plain.min(pool.timed::<Plain>(gadget, count));
    }
    let per_call = |whole: Duration| whole.as_secs_f64() * 1e9 / count as f64;
    let words = pool.run::<Library>(gadget, count) as f64 / count as f64;
    Times { library: per_call(library), plain: per_call(plain), words }
}
