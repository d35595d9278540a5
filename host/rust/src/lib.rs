//! Masked gadgets for ML-DSA (FIPS 204), proved. This crate is a safe face over the library's C one; the library is written and
//! proved in Rattle, and `rt lib` in crates/capi makes the archive that is linked.
//!
//! **Sharings.** A secret is held in n shares, 32-bit words, n from 2 to 8. An arithmetic sharing modulo M has words below M, and
//! its value is their sum modulo M. A Boolean sharing of width k has words below 2^k, and its value is their exclusive or. A
//! negative number x is the residue M − |x|. q is [`Q`](parameters::Q).
//!
//! **The tape.** `tape` is a slice of random words. Every call reads it from its first word, so hand each call fresh words and
//! wipe them afterwards. A draw below M takes the low bits of the next word, and skips the word if they are not below M. [`draws`]
//! has the count of draws; skipped words come on top, and README.md says how many words to spare.
//!
//! **Answers.** A call gives back the count of tape words that it read, or a [`Refusal`]. A refusal leaves `out` as it was, but
//! for one: where the tape ends, [`sample_polynomial`] sets all of `out` to 0.
//!
//! **Not promised.** Nothing is claimed about time, power, or an observer who sees values inside a call, and what a call leaves on
//! the stack is not cleared. README.md says what is proved.
//!
//! ```
//! use xechanopu::{shift, Refusal};
//!
//! // 7 + 8 is 5 modulo 10; half of it, rounded down, is 2 modulo 5. These words are by hand: use random ones.
//! let mut out = [0; 2];
//! assert_eq!(shift(&[7, 8], &[3, 4], 10, 1, &mut out), Ok(2));
//! assert_eq!(out, [0, 2]);
//! assert_eq!(shift(&[7, 8], &[3], 10, 1, &mut out), Err(Refusal::TapeEnded));
//! ```

#![deny(missing_docs)]
#![deny(unsafe_code)]

pub mod draws;
#[allow(unsafe_code)]
pub mod face;
pub mod parameters;
mod refusal;

pub use refusal::Refusal;

/// What [`decompose`] opens, and the words that it used.
#[derive(Clone, Copy, Debug, PartialEq, Eq)]
pub struct Decomposed {
    /// The high part, from 0 to δ − 1. It is no longer secret.
    pub high: u32,
    /// Tape words read, skipped ones included.
    pub used: usize,
}

/// What [`verdict`] tells, and the words that it used.
#[derive(Clone, Copy, Debug, PartialEq, Eq)]
pub struct Judged {
    /// Whether the coefficient is accepted.
    pub accepted: bool,
    /// The one number that is opened: 0 if the coefficient is rejected, else from 1 to q − 1.
    pub opened: u32,
    /// Tape words read, skipped ones included.
    pub used: usize,
}

/// A count of words of a slice, which fits.
fn count(used: u64) -> usize {
    used as usize
}

fn shared(answer: face::Shared) -> Result<usize, Refusal> {
    Refusal::check(answer.number)?;
    Ok(count(answer.used))
}

/// New arithmetic shares modulo `modulus` of the same value; `modulus` from 2 to 4294967295. `out` has the length of `shares`.
pub fn refresh(shares: &[u32], tape: &[u32], modulus: u32, out: &mut [u32]) -> Result<usize, Refusal> {
    shared(face::refresh(shares, tape, modulus, out))
}

/// New Boolean shares of width `width` of the same value; `width` from 1 to 31. `out` has the length of `shares`.
pub fn refresh_boolean(shares: &[u32], tape: &[u32], width: u32, out: &mut [u32]) -> Result<usize, Refusal> {
    shared(face::refresh_boolean(shares, tape, width, out))
}

/// From arithmetic shares of x modulo `modulus` to such of ⌊x / 2^t⌋ modulo `modulus` / 2^t; `t` from 1 to 31, 2^t divides
/// `modulus`, and `modulus` / 2^t is at least 2. `out` has the length of `shares`.
pub fn shift(shares: &[u32], tape: &[u32], modulus: u32, t: u32, out: &mut [u32]) -> Result<usize, Refusal> {
    shared(face::shift(shares, tape, modulus, t, out))
}

/// From Boolean shares of width `k` to arithmetic ones modulo 2^k of the same value; `k` from 1 to 31. `out` has the length of
/// `shares`.
///
/// ```
/// let mut out = [0; 2];
/// xechanopu::to_arithmetic(&[6, 3], &[1, 2, 7], 4, &mut out)?;
/// assert_eq!(out, [9, 12]); // 6 ⊕ 3 = 5 = 9 + 12 modulo 16
/// # Ok::<(), xechanopu::Refusal>(())
/// ```
pub fn to_arithmetic(shares: &[u32], tape: &[u32], k: u32, out: &mut [u32]) -> Result<usize, Refusal> {
    shared(face::to_arithmetic(shares, tape, k, out))
}

/// From arithmetic shares modulo 2^k to Boolean ones of width `k` of the same value; `k` from 1 to 31. `out` has the length of
/// `shares`.
///
/// ```
/// let mut out = [0; 2];
/// xechanopu::to_boolean(&[6, 7], &[0, 0, 3], 3, &mut out)?;
/// assert_eq!(out, [7, 2]); // 6 + 7 = 5 modulo 8, and 7 ⊕ 2 = 5
/// # Ok::<(), xechanopu::Refusal>(())
/// ```
pub fn to_boolean(shares: &[u32], tape: &[u32], k: u32, out: &mut [u32]) -> Result<usize, Refusal> {
    shared(face::to_boolean(shares, tape, k, out))
}

/// From Boolean shares of width `mu` to arithmetic ones modulo q of the same value; `mu` from 1 to 20. `out` has the length of
/// `shares`.
pub fn to_mod_q(shares: &[u32], tape: &[u32], mu: u32, out: &mut [u32]) -> Result<usize, Refusal> {
    shared(face::to_mod_q(shares, tape, mu, out))
}

/// One coefficient of a mask in `n` arithmetic shares modulo q: a number from −γ1 + 1 to γ1 that comes from the tape and that
/// nobody holds. The set is 44, 65 or 87. `out` has `n` words.
///
/// ```
/// let mut out = [7; 2];
/// assert_eq!(xechanopu::sample(&[0; 6], 2, 44, &mut out), Ok(6));
/// assert_eq!(out, [8249346, 0]); // −131071, which is −γ1 + 1
/// ```
pub fn sample(tape: &[u32], n: usize, set: u32, out: &mut [u32]) -> Result<usize, Refusal> {
    shared(face::sample(tape, n, set, out))
}

/// The 256 coefficients of a mask, on one tape. `out` has 256·n words, coefficient c in the n words from place c·n. Where the tape
/// ends, all of `out` is set to 0.
pub fn sample_polynomial(tape: &[u32], n: usize, set: u32, out: &mut [u32]) -> Result<usize, Refusal> {
    shared(face::sample_polynomial(tape, n, set, out))
}

/// From arithmetic shares of x modulo q to such of the same x modulo 2^ρ·q, for x from −b to b. The set is 44, 65 or 87, the kind
/// 1 (z) or 2 (r̃). `out` has the length of `shares`.
///
/// A number beyond the reach b cannot be seen and is not refused: `out` may then hold shares of another number.
pub fn widen(shares: &[u32], tape: &[u32], set: u32, kind: u32, out: &mut [u32]) -> Result<usize, Refusal> {
    shared(face::widen(shares, tape, set, kind, out))
}

/// FIPS 204's Decompose of arithmetic shares modulo q: answers the high part, which is opened, and leaves arithmetic shares modulo
/// q of the low part, from −γ2 to γ2, in `out`. The set is 44, 65 or 87. `out` has the length of `shares`.
///
/// ```
/// use xechanopu::{decompose, Decomposed};
/// let mut low = [0; 2];
/// let told = decompose(&[95000, 233], &[0; 26], 44, &mut low)?;
/// assert_eq!(told, Decomposed { high: 1, used: 26 });
/// assert_eq!((low[0] + low[1]) % 8380417, 8380417 - 95231); // 95233 = 1 · 190464 − 95231
/// # Ok::<(), xechanopu::Refusal>(())
/// ```
pub fn decompose(shares: &[u32], tape: &[u32], set: u32, out: &mut [u32]) -> Result<Decomposed, Refusal> {
    let face::Decomposed { number, high, used } = face::decompose(shares, tape, set, out);
    Refusal::check(number)?;
    Ok(Decomposed { high, used: count(used) })
}

/// Whether the size of x is below the bound a, for arithmetic shares of x modulo q, x from −b to b. The set is 44, 65 or 87; kind 1
/// is for the coefficients of z, kind 2 for those of r̃.
///
/// A number beyond the reach b cannot be seen: it is not refused and may be accepted. For z the reach γ1 + β is enough; for r̃ it is
/// γ2, and w0 − c·s2 can be larger. A verdict is of one coefficient: an attempt is accepted only if every coefficient is, and
/// whoever sees the verdicts learns which one was rejected.
///
/// ```
/// use xechanopu::verdict;
/// let tape = [0; 24]; // by hand: use random words
/// assert!(verdict(&[130000, 993], &tape, 44, 1)?.accepted);
/// assert!(!verdict(&[130000, 994], &tape, 44, 1)?.accepted);
/// # Ok::<(), xechanopu::Refusal>(())
/// ```
pub fn verdict(shares: &[u32], tape: &[u32], set: u32, kind: u32) -> Result<Judged, Refusal> {
    let face::Judged { number, verdict, opened, used } = face::verdict(shares, tape, set, kind);
    Refusal::check(number)?;
    Ok(Judged { accepted: verdict == 1, opened, used: count(used) })
}

/// Runs cases worked by hand. On a machine that keeps the language's rules it is proved to succeed; else the error is the number of
/// the first case that came out wrong, which is a fault of the hardware or of the build: use no gadget then.
///
/// ```
/// assert_eq!(xechanopu::self_test(), Ok(()));
/// ```
pub fn self_test() -> Result<(), u32> {
    match face::self_test() {
        0 => Ok(()),
        wrong => Err(wrong),
    }
}
