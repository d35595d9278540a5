//! The C face as include/xechanopu.h declares it, with slices in the place of pointers and lengths. Every field of an answer is
//! here, also those of a refusal; the functions at the root of the crate say the same as a `Result`.
//!
//! All `unsafe` of this crate is in this module. Each call lends slices for its time only; `&mut` keeps `out` apart from the
//! slices that are read.

/// `xe_shared`: the answer of a gadget that leaves shares in `out`.
#[repr(C)]
#[derive(Clone, Copy, Debug, PartialEq, Eq)]
pub struct Shared {
    /// 0, or why the call was refused.
    pub number: u32,
    /// Tape words read, skipped ones included.
    pub used: u64,
}

/// `xe_decomposed`: the answer of Decompose.
#[repr(C)]
#[derive(Clone, Copy, Debug, PartialEq, Eq)]
pub struct Decomposed {
    /// 0, or why the call was refused.
    pub number: u32,
    /// The high part.
    pub high: u32,
    /// Tape words read, skipped ones included.
    pub used: u64,
}

/// `xe_judged`: the answer of the verdict.
#[repr(C)]
#[derive(Clone, Copy, Debug, PartialEq, Eq)]
pub struct Judged {
    /// 0, or why the call was refused.
    pub number: u32,
    /// 1 accepts, 0 rejects; 0 in a refusal too, where nothing was judged.
    pub verdict: u32,
    /// The one number that is opened.
    pub opened: u32,
    /// Tape words read, skipped ones included.
    pub used: u64,
}

type Read = *const u32;
type Write = *mut u32;

/// A gadget with one parameter: the shares, the tape, the parameter, `out`; each slice a pointer and its length in words.
type One = unsafe extern "C" fn(Read, usize, Read, usize, u32, Write, usize) -> Shared;

/// The same with two parameters.
type Two = unsafe extern "C" fn(Read, usize, Read, usize, u32, u32, Write, usize) -> Shared;

/// A sampler: the tape, the stated n, the set, `out`.
type Sampler = unsafe extern "C" fn(Read, usize, usize, u32, Write, usize) -> Shared;

extern "C" {
    fn xe_refresh(s: Read, n: usize, t: Read, words: usize, modulus: u32, out: Write, len: usize) -> Shared;
    fn xe_refresh_boolean(s: Read, n: usize, t: Read, words: usize, width: u32, out: Write, len: usize) -> Shared;
    fn xe_shift(s: Read, n: usize, t: Read, words: usize, modulus: u32, by: u32, out: Write, len: usize) -> Shared;
    fn xe_to_arithmetic(s: Read, n: usize, t: Read, words: usize, k: u32, out: Write, len: usize) -> Shared;
    fn xe_to_boolean(s: Read, n: usize, t: Read, words: usize, k: u32, out: Write, len: usize) -> Shared;
    fn xe_to_mod_q(s: Read, n: usize, t: Read, words: usize, mu: u32, out: Write, len: usize) -> Shared;
    fn xe_sample(t: Read, words: usize, n: usize, set: u32, out: Write, len: usize) -> Shared;
    fn xe_sample_polynomial(t: Read, words: usize, n: usize, set: u32, out: Write, len: usize) -> Shared;
    fn xe_widen(s: Read, n: usize, t: Read, words: usize, set: u32, kind: u32, out: Write, len: usize) -> Shared;
    fn xe_decompose(s: Read, n: usize, t: Read, words: usize, set: u32, out: Write, len: usize) -> Decomposed;
    fn xe_verdict(s: Read, n: usize, t: Read, words: usize, set: u32, kind: u32) -> Judged;
    fn xe_self_test() -> u32;
}

// Safety, of every call below: a slice's pointer is aligned, not null and valid for its length, `out` overlaps nothing else since
// it is borrowed alone, and the library keeps no pointer after the call.

fn one(gadget: One, shares: &[u32], tape: &[u32], parameter: u32, out: &mut [u32]) -> Shared {
    unsafe { gadget(shares.as_ptr(), shares.len(), tape.as_ptr(), tape.len(), parameter, out.as_mut_ptr(), out.len()) }
}

fn two(gadget: Two, shares: &[u32], tape: &[u32], both: (u32, u32), out: &mut [u32]) -> Shared {
    let (first, second) = both;
    unsafe {
        gadget(shares.as_ptr(), shares.len(), tape.as_ptr(), tape.len(), first, second, out.as_mut_ptr(), out.len())
    }
}

fn sampled(sampler: Sampler, tape: &[u32], n: usize, set: u32, out: &mut [u32]) -> Shared {
    unsafe { sampler(tape.as_ptr(), tape.len(), n, set, out.as_mut_ptr(), out.len()) }
}

/// `xe_refresh`.
pub fn refresh(shares: &[u32], tape: &[u32], modulus: u32, out: &mut [u32]) -> Shared {
    one(xe_refresh, shares, tape, modulus, out)
}

/// `xe_refresh_boolean`.
pub fn refresh_boolean(shares: &[u32], tape: &[u32], width: u32, out: &mut [u32]) -> Shared {
    one(xe_refresh_boolean, shares, tape, width, out)
}

/// `xe_shift`.
pub fn shift(shares: &[u32], tape: &[u32], modulus: u32, t: u32, out: &mut [u32]) -> Shared {
    two(xe_shift, shares, tape, (modulus, t), out)
}

/// `xe_to_arithmetic`.
pub fn to_arithmetic(shares: &[u32], tape: &[u32], k: u32, out: &mut [u32]) -> Shared {
    one(xe_to_arithmetic, shares, tape, k, out)
}

/// `xe_to_boolean`.
pub fn to_boolean(shares: &[u32], tape: &[u32], k: u32, out: &mut [u32]) -> Shared {
    one(xe_to_boolean, shares, tape, k, out)
}

/// `xe_to_mod_q`.
pub fn to_mod_q(shares: &[u32], tape: &[u32], mu: u32, out: &mut [u32]) -> Shared {
    one(xe_to_mod_q, shares, tape, mu, out)
}

/// `xe_sample`.
pub fn sample(tape: &[u32], n: usize, set: u32, out: &mut [u32]) -> Shared {
    sampled(xe_sample, tape, n, set, out)
}

/// `xe_sample_polynomial`.
pub fn sample_polynomial(tape: &[u32], n: usize, set: u32, out: &mut [u32]) -> Shared {
    sampled(xe_sample_polynomial, tape, n, set, out)
}

/// `xe_widen`.
pub fn widen(shares: &[u32], tape: &[u32], set: u32, kind: u32, out: &mut [u32]) -> Shared {
    two(xe_widen, shares, tape, (set, kind), out)
}

/// `xe_decompose`.
pub fn decompose(shares: &[u32], tape: &[u32], set: u32, out: &mut [u32]) -> Decomposed {
    unsafe { xe_decompose(shares.as_ptr(), shares.len(), tape.as_ptr(), tape.len(), set, out.as_mut_ptr(), out.len()) }
}

/// `xe_verdict`.
pub fn verdict(shares: &[u32], tape: &[u32], set: u32, kind: u32) -> Judged {
    unsafe { xe_verdict(shares.as_ptr(), shares.len(), tape.as_ptr(), tape.len(), set, kind) }
}

/// `xe_self_test`.
pub fn self_test() -> u32 {
    unsafe { xe_self_test() }
}
