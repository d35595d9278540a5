//! The two sides that are held against each other: the library through its face for C, and the plain implementation.

use crate::answers::{Answer, Decomposed, Judged};
use crate::plain;

/// Every public gadget.
pub trait Side {
    fn refresh(shares: &[u32], tape: &[u32], modulus: u32, out: &mut [u32]) -> Answer;
    fn refresh_boolean(shares: &[u32], tape: &[u32], width: u32, out: &mut [u32]) -> Answer;
    fn shift(shares: &[u32], tape: &[u32], modulus: u32, t: u32, out: &mut [u32]) -> Answer;
    fn to_boolean(shares: &[u32], tape: &[u32], k: u32, out: &mut [u32]) -> Answer;
    fn to_arithmetic(shares: &[u32], tape: &[u32], k: u32, out: &mut [u32]) -> Answer;
    fn to_mod_q(shares: &[u32], tape: &[u32], mu: u32, out: &mut [u32]) -> Answer;
    fn sample(tape: &[u32], n: usize, set: u32, out: &mut [u32]) -> Answer;
    fn sample_polynomial(tape: &[u32], n: usize, set: u32, out: &mut [u32]) -> Answer;
    fn widen(shares: &[u32], tape: &[u32], set: u32, kind: u32, out: &mut [u32]) -> Answer;
    fn decompose(shares: &[u32], tape: &[u32], set: u32, out: &mut [u32]) -> Decomposed;
    fn verdict(shares: &[u32], tape: &[u32], set: u32, kind: u32) -> Judged;
}

type In = *const u32;
type Out = *mut u32;

// A slice goes in as a pointer and a length.
#[rustfmt::skip]
extern "C" {
    fn xe_refresh(shares: In, n: usize, tape: In, words: usize, modulus: u32, out: Out, room: usize) -> Answer;
    fn xe_refresh_boolean(shares: In, n: usize, tape: In, words: usize, width: u32, out: Out, room: usize) -> Answer;
    fn xe_shift(shares: In, n: usize, tape: In, words: usize, modulus: u32, t: u32, out: Out, room: usize) -> Answer;
    fn xe_to_boolean(shares: In, n: usize, tape: In, words: usize, k: u32, out: Out, room: usize) -> Answer;
    fn xe_to_arithmetic(shares: In, n: usize, tape: In, words: usize, k: u32, out: Out, room: usize) -> Answer;
    fn xe_to_mod_q(shares: In, n: usize, tape: In, words: usize, mu: u32, out: Out, room: usize) -> Answer;
    fn xe_sample(tape: In, words: usize, n: usize, set: u32, out: Out, room: usize) -> Answer;
    fn xe_sample_polynomial(tape: In, words: usize, n: usize, set: u32, out: Out, room: usize) -> Answer;
    fn xe_widen(shares: In, n: usize, tape: In, words: usize, set: u32, kind: u32, out: Out, room: usize) -> Answer;
    fn xe_decompose(shares: In, n: usize, tape: In, words: usize, set: u32, out: Out, room: usize) -> Decomposed;
    fn xe_verdict(shares: In, n: usize, tape: In, words: usize, set: u32, kind: u32) -> Judged;
}

/// Calls a function of the library with each slice taken apart.
macro_rules! call {
    ($name:ident, $out:ident, [$($slice:ident),*], $($word:ident),*) => {
        unsafe { call!(@ $name, [$($slice),*], ($($word),*), ($out.as_mut_ptr(), $out.len())) }
    };
    (@ $name:ident, [$shares:ident, $tape:ident], ($($word:ident),*), ($($last:expr),*)) => {
        $name($shares.as_ptr(), $shares.len(), $tape.as_ptr(), $tape.len(), $($word,)* $($last),*)
    };
    (@ $name:ident, [$tape:ident], ($($word:ident),*), ($($last:expr),*)) => {
        $name($tape.as_ptr(), $tape.len(), $($word,)* $($last),*)
    };
}

pub struct Library;

impl Side for Library {
    fn refresh(shares: &[u32], tape: &[u32], modulus: u32, out: &mut [u32]) -> Answer {
        call!(xe_refresh, out, [shares, tape], modulus)
    }
    fn refresh_boolean(shares: &[u32], tape: &[u32], width: u32, out: &mut [u32]) -> Answer {
        call!(xe_refresh_boolean, out, [shares, tape], width)
    }
    fn shift(shares: &[u32], tape: &[u32], modulus: u32, t: u32, out: &mut [u32]) -> Answer {
        call!(xe_shift, out, [shares, tape], modulus, t)
    }
    fn to_boolean(shares: &[u32], tape: &[u32], k: u32, out: &mut [u32]) -> Answer {
        call!(xe_to_boolean, out, [shares, tape], k)
    }
    fn to_arithmetic(shares: &[u32], tape: &[u32], k: u32, out: &mut [u32]) -> Answer {
        call!(xe_to_arithmetic, out, [shares, tape], k)
    }
    fn to_mod_q(shares: &[u32], tape: &[u32], mu: u32, out: &mut [u32]) -> Answer {
        call!(xe_to_mod_q, out, [shares, tape], mu)
    }
    fn sample(tape: &[u32], n: usize, set: u32, out: &mut [u32]) -> Answer {
        call!(xe_sample, out, [tape], n, set)
    }
    fn sample_polynomial(tape: &[u32], n: usize, set: u32, out: &mut [u32]) -> Answer {
        call!(xe_sample_polynomial, out, [tape], n, set)
    }
    fn widen(shares: &[u32], tape: &[u32], set: u32, kind: u32, out: &mut [u32]) -> Answer {
        call!(xe_widen, out, [shares, tape], set, kind)
    }
    fn decompose(shares: &[u32], tape: &[u32], set: u32, out: &mut [u32]) -> Decomposed {
        call!(xe_decompose, out, [shares, tape], set)
    }
    fn verdict(shares: &[u32], tape: &[u32], set: u32, kind: u32) -> Judged {
        unsafe { xe_verdict(shares.as_ptr(), shares.len(), tape.as_ptr(), tape.len(), set, kind) }
    }
}

pub struct Plain;

impl Side for Plain {
    fn refresh(shares: &[u32], tape: &[u32], modulus: u32, out: &mut [u32]) -> Answer {
        plain::refresh(shares, tape, modulus, out)
    }
    fn refresh_boolean(shares: &[u32], tape: &[u32], width: u32, out: &mut [u32]) -> Answer {
        plain::refresh_boolean(shares, tape, width, out)
    }
    fn shift(shares: &[u32], tape: &[u32], modulus: u32, t: u32, out: &mut [u32]) -> Answer {
        plain::shift(shares, tape, modulus, t, out)
    }
    fn to_boolean(shares: &[u32], tape: &[u32], k: u32, out: &mut [u32]) -> Answer {
        plain::to_boolean(shares, tape, k, out)
    }
    fn to_arithmetic(shares: &[u32], tape: &[u32], k: u32, out: &mut [u32]) -> Answer {
        plain::to_arithmetic(shares, tape, k, out)
    }
    fn to_mod_q(shares: &[u32], tape: &[u32], mu: u32, out: &mut [u32]) -> Answer {
        plain::to_mod_q(shares, tape, mu, out)
    }
    fn sample(tape: &[u32], n: usize, set: u32, out: &mut [u32]) -> Answer {
        plain::sample(tape, n, set, out)
    }
    fn sample_polynomial(tape: &[u32], n: usize, set: u32, out: &mut [u32]) -> Answer {
        plain::sample_polynomial(tape, n, set, out)
    }
    fn widen(shares: &[u32], tape: &[u32], set: u32, kind: u32, out: &mut [u32]) -> Answer {
        plain::widen(shares, tape, set, kind, out)
    }
    fn decompose(shares: &[u32], tape: &[u32], set: u32, out: &mut [u32]) -> Decomposed {
        plain::decompose(shares, tape, set, out)
    }
    fn verdict(shares: &[u32], tape: &[u32], set: u32, kind: u32) -> Judged {
        plain::verdict(shares, tape, set, kind)
    }
}
