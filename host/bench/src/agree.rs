//! Both sides on many random calls: the same answers, word for word.

use crate::gadget::{Gadget, Gadget::*, Pair};
use crate::random::Random;
use crate::side::{Library, Plain};

/// Mostly in range.
fn parameters(gadget: Gadget, random: &mut Random) -> Pair {
    let set = [44, 65, 87, 44, 65, 87, 44, 45][random.below(8) as usize];
    match gadget {
        Refresh => Pair(random.word() >> random.below(32), 0),
        RefreshBoolean | ToBoolean | ToArithmetic => Pair(random.below(33), 0),
        ToModQ => Pair(random.below(22), 0),
        Shift => {
            let t = random.below(33);
            let zeros = t.min(31);
            Pair((random.word() >> random.below(32 - zeros)) >> zeros << zeros, t)
        }
        _ => Pair(set, 1 + random.below(9) % 3 % 2 + random.below(40) / 39),
    }
}

/// Mostly long enough.
fn tape_length(gadget: Gadget, n: usize, random: &mut Random) -> usize {
    let draws = gadget.draws(n.clamp(2, 8)) as usize;
    match random.below(8) {
        0 => random.below(draws as u32 + 1) as usize,
        1 => draws,
        _ => 4 * draws + 64,
    }
}

fn room(gadget: Gadget, n: usize, random: &mut Random) -> usize {
    match random.below(32) {
        0 => gadget.room(n) + 1,
        1 => gadget.room(n) / 2,
        _ => gadget.room(n),
    }
}

/// One random call. Shares are mostly below their bound.
fn one(gadget: Gadget, n: usize, random: &mut Random) {
    let p = parameters(gadget, random);
    let bound = gadget.bound(p).saturating_add(u32::from(random.below(16) == 0));
    let shares: Vec<u32> = (0..n).map(|_| random.below(bound)).collect();
    let length = tape_length(gadget, n, random);
    let tape = random.words(length);
    let room = room(gadget, n, random);
    let mut out = random.words(room);
    let mut plain_out = out.clone();
    let told = gadget.call::<Library>(&shares, &tape, p, &mut out);
    let plain = gadget.call::<Plain>(&shares, &tape, p, &mut plain_out);
    assert!(
        told == plain && out == plain_out,
        "{} with parameters {} and {}, shares {shares:?} and a tape of {length} words: the library answers {told:?} with {out:?}, the plain implementation {plain:?} with {plain_out:?}.",
        gadget.name(), p.0, p.1,
    );
}

/// Panics with a sentence if an answer differs; says how many calls were made.
pub fn check(gadgets: &[Gadget]) -> usize {
    let mut random = Random::new(0x9e37_79b9_7f4a_7c15);
    let mut calls = 0;
    for &gadget in gadgets {
        let rounds = if gadget == SamplePolynomial { 20 } else { 1500 };
        for n in 1..10 {
            for _ in 0..rounds {
                one(gadget, n, &mut random);
            }
            calls += rounds;
        }
    }
    calls
}
