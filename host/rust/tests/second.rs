//! The C face and the safe one, held word for word to the independent second over random calls: good ones, every refusal, and
//! short tapes. The seeds are fixed, so every run makes the same calls.

mod common;

use common::Gadget::*;
use common::{residue, Call, Gadget, Pair, Random, Told, GADGETS};
use second::{library, sets};
use std::collections::BTreeSet;
use xechanopu::parameters::{Set, Q};

const CALLS: usize = 10_000;
/// Of the polynomial sampler, which is 256 samplings.
const LONG_CALLS: usize = 100;

fn told_by_second(call: &Call) -> Told {
    let Call { n, shares, tape, parameters: (p, r), out, .. } = call;
    let room = out.len();
    let answer = match call.gadget {
        Refresh => library::refresh(shares, tape, *p, room),
        RefreshBoolean => library::refresh_boolean(shares, tape, *p, room),
        Shift => library::shift(shares, tape, *p, *r, room),
        ToArithmetic => library::to_arithmetic(shares, tape, *p, room),
        ToBoolean => library::to_boolean(shares, tape, *p, room),
        ToModQ => library::to_mod_q(shares, tape, *p, room),
        Sample => library::sample(tape, *n, *p, room),
        SamplePolynomial => library::sample_polynomial(tape, *n, *p, room),
        Widen => library::widen(shares, tape, *p, *r, room),
        Decompose => library::decompose(shares, tape, *p, room),
        Verdict => library::verdict(shares, tape, *p, *r),
    };
    let library::Answer { number, fields, used, out: left } = answer;
    Told { number, fields, used: used as u64, out: left.unwrap_or_else(|| out.clone()) }
}

fn good_parameters(gadget: Gadget, random: &mut Random) -> Pair {
    if random.one_in(4) {
        return random.pick(&gadget.good_parameters());
    }
    match gadget {
        Refresh => ((random.word() >> random.below(30)).max(2), 0),
        Shift => {
            let t = 1 + random.below(30) as u32;
            let most = u32::MAX >> t;
            ((2 + random.word() % (most - 1)) << t, t)
        }
        RefreshBoolean | ToArithmetic | ToBoolean => (1 + random.below(31) as u32, 0),
        ToModQ => (1 + random.below(20) as u32, 0),
        _ => (random.pick(&[44, 65, 87]), 1 + random.below(2) as u32),
    }
}

/// A value that shares below the limit can have: often one at which the answer changes.
fn value(gadget: Gadget, parameters: Pair, limit: u64, random: &mut Random) -> u64 {
    let any = u64::from(random.word()) % limit;
    if random.one_in(3) {
        return any;
    }
    if !matches!(gadget, Widen | Decompose | Verdict) {
        return random.pick(&[0, 1, limit - 1, limit / 2, any]);
    }
    let set = Set::of(parameters.0).or(Set::of(44)).expect("44 is a set");
    let kind = set.kind(parameters.1).or(set.kind(1)).expect("1 is a kind");
    let high_ends = set.gamma2 * (2 * random.below(set.delta as usize) as u32 + 1);
    let edge = random.pick(&[kind.a, kind.b, set.gamma2, high_ends, Q / 2, 0]);
    let number = i64::from(edge) + random.pick(&[-1, 0, 1]);
    residue(random.pick(&[number, -number]))
}

fn shares(call: &Call, limit: u64, random: &mut Random) -> Vec<u32> {
    if call.gadget.is_sampler() {
        return Vec::new();
    }
    let value = value(call.gadget, call.parameters, limit, random);
    let mut shares = if call.gadget.is_boolean() {
        random.boolean_shares_of(value, call.n, limit)
    } else {
        random.shares_of(value, call.n, limit)
    };
    shares.truncate(call.n);
    if call.n > 0 && random.one_in(12) {
        shares[random.below(call.n)] = random.pick(&[limit as u32, u32::MAX]);
    }
    shares
}

/// A tape of random words, of zeros, or of words some of which are close to q. It often ends at or before the last draw.
fn tape(call: &Call, random: &mut Random) -> Vec<u32> {
    let draws = call.gadget.draws(call.n, call.parameters).unwrap_or(8);
    let short = random.one_in(4);
    let words = if short { random.below(draws + draws / 16 + 2) } else { 3 * draws + 100 };
    match random.below(16) {
        0 => vec![0; words],
        1 | 2 => (0..words).map(|_| tricky_word(random)).collect(),
        _ => random.words(words),
    }
}

fn tricky_word(random: &mut Random) -> u32 {
    let any = random.word();
    random.pick(&[0, Q - 2, Q - 1, Q, 1 << 23, 2 * Q - 1, 2 * Q, any, any, any, any, u32::MAX])
}

fn random_call(gadget: Gadget, random: &mut Random) -> Call {
    let n = if random.one_in(24) { random.pick(&[0, 1, 9, 10]) } else { 2 + random.below(7) };
    let good = good_parameters(gadget, random);
    let parameters = if random.one_in(12) { random.pick(&gadget.bad_parameters()) } else { good };
    let mut room = gadget.room(n);
    if gadget != Verdict && random.one_in(12) {
        room = random.pick(&[0, room / 2, room + 1, room.saturating_sub(1), 10]);
    }
    let mut call = Call { gadget, n, shares: Vec::new(), tape: Vec::new(), parameters, out: random.words(room) };
    call.shares = shares(&call, gadget.limit(good), random);
    call.tape = tape(&call, random);
    if gadget.is_sampler() && random.one_in(100) {
        call.n = random.pick(&[11, (1 << 32) + 2, (1 << 56) + 2, usize::MAX]);
    }
    call
}

/// How often each number was answered; of the successes, the share counts, the parameters, and the first field with them.
#[derive(Default)]
struct Seen {
    numbers: [usize; 6],
    counts: BTreeSet<usize>,
    parameters: BTreeSet<Pair>,
    fields: BTreeSet<(Pair, u32)>,
}

impl Seen {
    fn note(&mut self, call: &Call, told: &Told) {
        self.numbers[told.number as usize] += 1;
        if told.number == 0 {
            self.counts.insert(call.n);
            self.parameters.insert(call.parameters);
            self.fields.extend(told.fields.first().map(|&field| (call.parameters, field)));
        }
    }

    /// Every number that the gadget can answer came, no other did, most calls were no refusals, and every share count was there.
    fn covers(&self, gadget: Gadget) {
        for (number, times) in (0..).zip(self.numbers) {
            assert_eq!(times > 0, gadget.can_answer(number), "{gadget:?} {:?}", self.numbers);
        }
        assert!(2 * self.numbers[0] > self.numbers.iter().sum(), "{gadget:?} {:?}", self.numbers);
        assert!(self.counts.iter().copied().eq(2..=8), "{gadget:?} {:?}", self.counts);
    }

    fn sets(&self) -> Vec<u32> {
        let sets: BTreeSet<u32> = self.parameters.iter().map(|pair| pair.0).collect();
        sets.into_iter().collect()
    }
}

/// Makes the calls on both, compares them, and notes what came out.
fn compare(gadget: Gadget, calls: usize, seed: u64) -> Seen {
    let (mut random, mut seen) = (Random::new(seed), Seen::default());
    for _ in 0..calls {
        let call = random_call(gadget, &mut random);
        let told = call.told();
        assert_eq!(told, told_by_second(&call), "left is the library, right the second, on {call:?}");
        seen.note(&call, &told);
    }
    seen.covers(gadget);
    seen
}

#[test]
fn gadgets_between_sharings() {
    for (gadget, seed) in [Refresh, RefreshBoolean, Shift, ToArithmetic, ToBoolean, ToModQ].into_iter().zip(1..) {
        compare(gadget, CALLS, seed);
    }
}

#[test]
fn samplers() {
    assert_eq!(compare(Sample, CALLS, 11).sets(), [44, 65, 87]);
    assert_eq!(compare(SamplePolynomial, LONG_CALLS, 12).sets(), [44, 65, 87]);
}

#[test]
fn widen() {
    let seen = compare(Widen, CALLS, 13);
    assert_eq!(seen.parameters.len(), 3 * 2, "every set and kind");
}

#[test]
fn decompose() {
    let seen = compare(Decompose, CALLS, 21);
    let highs: BTreeSet<(u32, u32)> = seen.fields.iter().map(|&((set, _), high)| (set, high)).collect();
    assert_eq!(highs.len(), 44 + 16 + 16, "every high part of every set comes out");
}

#[test]
fn verdict() {
    let seen = compare(Verdict, CALLS, 31);
    assert_eq!(seen.fields.len(), 3 * 2 * 2, "every set and kind accepts and rejects");
}

#[test]
fn parameters() {
    for number in 0..100 {
        let ours = Set::of(number).map(|set| (set.gamma1, set.gamma2, set.delta));
        let theirs = sets::set(number).map(|set| (set.gamma1 as u32, set.gamma2 as u32, set.high_parts() as u32));
        assert_eq!(ours, theirs);
        for kind in 0..4 {
            let ours = Set::of(number).and_then(|set| set.kind(kind)).map(|kind| (kind.a, kind.b, kind.rho));
            let theirs = sets::kind_of(number, kind).map(|kind| (kind.a as u32, kind.b as u32, kind.rho));
            assert_eq!(ours, theirs);
        }
    }
}

/// Calls that differ from this one, which used so many words, in one place: a word of the tape, a share, the end of the tape.
fn planted(call: &Call, used: usize, random: &mut Random) -> [Call; 3] {
    let mut calls = [call.clone(), call.clone(), call.clone()];
    calls[0].tape[random.below(used)] ^= 1;
    calls[1].shares.iter_mut().take(1).for_each(|share| *share /= 2);
    calls[2].tape.truncate(used - 1);
    calls
}

/// If the second is told another call than the library, the comparison sees it.
#[test]
fn a_planted_difference_is_seen() {
    for gadget in GADGETS.into_iter().filter(|&gadget| gadget != SamplePolynomial) {
        let (mut random, mut seen) = (Random::new(41), [false; 3]);
        for _ in 0..200 {
            let call = random_call(gadget, &mut random);
            let told = call.told();
            if told.number == 0 {
                let differs = planted(&call, told.used as usize, &mut random).map(|call| told != told_by_second(&call));
                assert!(differs[2], "a shorter tape is refused");
                (0..3).for_each(|i| seen[i] |= differs[i]);
            }
        }
        assert_eq!(seen, [true, !gadget.is_sampler(), true], "{gadget:?}");
    }
}
