//! The parameters that docs/CASES.md gives a round, and the values that some rounds aim at.

use crate::sets::{self, Q};

/// A gadget's parameters; the second is 0 where it has but one.
pub type Pair = (u32, u32);

pub fn modulus(round: u32, x: u32) -> Pair {
    ([2, 3, 8380417, u32::MAX, (1 << 31) + 1, x, round / 8 % 2, x % 1000 + 2][round as usize % 8], 0)
}

pub fn width(round: u32, x: u32) -> Pair {
    ([1, 31, 8, 23, (round / 8 + 1) % 31 + 1, x % 31 + 1, round / 8 % 2 * 32, x][round as usize % 8], 0)
}

/// The widths μ.
pub fn narrow_width(round: u32, x: u32) -> Pair {
    let any = x % 20 + 1;
    ([1, 20, 18, round / 8 % 2 * 21, round / 8 % 20 + 1, any, any, x][round as usize % 8], 0)
}

pub fn power(k: u32) -> u32 {
    1 << (k % 32)
}

pub fn modulus_and_t(round: u32, x: u32) -> Pair {
    let times_power = |odd: u32, j: u32| (odd << j, j);
    [
        (u32::MAX - 1, 1),
        (1 << 31, x % 31 + 1),
        (3 << 30, x % 30 + 1),
        times_power(8380417, x % 9 + 1),
        times_power(x / 8 % 1000 * 2 + 3, x % 8 + 1),
        (x, round / 8 % 34),
        (1 << ((x % 31 + 2) % 32), x % 31 + 1),
        (x % 6 * 2, x / 6 % 3),
    ][round as usize % 8]
}

/// Numbers that are no parameter set, some of them one in fewer bits.
const NO_SET: [u32; 12] = [0, 1, 43, 45, 64, 66, 86, 88, 44 + (1 << 8), 65 + (1 << 16), 87 + (1 << 31), u32::MAX];

/// Parameter sets, and numbers that are none.
pub fn set(round: u32, x: u32) -> Pair {
    ([44, 65, 87, 44, 65, 87, NO_SET[round as usize / 8 % 12], x][round as usize % 8], 0)
}

/// Numbers that are no kind, some of them one in fewer bits.
const NO_KIND: [u32; 6] = [0, 3, 1 + (1 << 8), 2 + (1 << 16), 1 + (1 << 31), u32::MAX];

/// Sets and kinds. Where one of the two is out of its range, it is the kind in every other round.
pub fn set_and_kind(round: u32, x: u32) -> Pair {
    let known = |i: u32| [44, 65, 87][i as usize % 3];
    let turn = round / 8;
    match round % 8 {
        6 if turn % 2 == 1 => (known(turn / 12), NO_KIND[turn as usize / 2 % 6]),
        6 => (NO_SET[turn as usize / 2 % 12], turn / 2 % 2 + 1),
        7 => (known(x), x / 3 % 4),
        i => (known(i), i % 2 + 1),
    }
}

/// What the shares of a round recombine to if it aims.
pub struct Aim {
    pub parameters: Pair,
    pub bound: u32,
    pub turn: usize,
    pub x: u32,
}

/// The smallest values, and the largest.
pub fn ends(aim: &Aim) -> u32 {
    [0, 1, aim.bound - 1][aim.turn % 3]
}

/// Those too; both sides of the ends of −size .. size; and both sides of the end of 0 .. last.
fn edges(aim: &Aim, size: u64, last: u64) -> u32 {
    [0, 1, Q - 1, size, size + 1, last, last + 1, Q - size, Q - size - 1][aim.turn % 9] as u32
}

/// A call with a number that is no set is refused: its rounds aim as those of set 87, and those of a number that is no kind as
/// those of kind 2.
fn set_of(aim: &Aim) -> sets::Set {
    sets::set(aim.parameters.0).or(sets::set(87)).expect("87 is a set")
}

fn kind_of(aim: &Aim) -> sets::Kind {
    let set = set_of(aim);
    set.kind(aim.parameters.1).or(set.kind(2)).expect("2 is a kind")
}

/// The reach, and the largest number.
pub fn widening_edges(aim: &Aim) -> u32 {
    edges(aim, kind_of(aim).b, (Q - 1) / 2)
}

/// Both sides of the ends of what is accepted, of what is kept, and of the numbers; and 0.
pub fn verdict_edges(aim: &Aim) -> u32 {
    let (sets::Kind { a, b, .. }, half) = (kind_of(aim), Q / 2);
    [0, a - 1, a, b, b + 1, half, half + 1, Q - a + 1, Q - a, Q - b, Q - b - 1][aim.turn % 11] as u32
}

/// Where the high part 0 ends, and where one does that x chooses.
pub fn decompose_edges(aim: &Aim) -> u32 {
    let set = set_of(aim);
    let high = u64::from(aim.x) % set.high_parts();
    edges(aim, set.gamma2, 2 * set.gamma2 * high + set.gamma2)
}
