//! How many draws a gadget makes, by formula: for sizing tapes.
//!
//! A call that succeeds uses a word for each draw, and one more for each word that it skips. A draw below a power of two skips
//! none. A draw below M skips a uniform word with the chance 1 − M / 2^L, which is below one half; L is the bit length of M − 1.
//! Here d is n − 1, and α the smallest number with 2^α ≥ n.
//!
//! Every function refuses an n that is not 2 to 8 with [`Refusal::ShareCount`], and then a parameter that is out of its range with
//! [`Refusal::Parameter`].
//!
//! ```
//! use xechanopu::{draws, Refusal};
//! assert_eq!(draws::verdict(2, 44, 1), Ok(24));
//! assert_eq!(draws::verdict(8, 44, 1), Ok(1079));
//! assert_eq!(draws::verdict(9, 44, 3), Err(Refusal::ShareCount));
//! ```

use crate::parameters::{Set, COEFFICIENTS};
use crate::Refusal;

/// d, if n is in range.
fn others(n: usize) -> Result<usize, Refusal> {
    if (2..=8).contains(&n) {
        Ok(n - 1)
    } else {
        Err(Refusal::ShareCount)
    }
}

/// α.
fn alpha(n: usize) -> usize {
    n.next_power_of_two().trailing_zeros() as usize
}

/// A width, if it is from 1 to the widest.
fn width(number: u32, widest: u32) -> Result<usize, Refusal> {
    if (1..=widest).contains(&number) {
        Ok(number as usize)
    } else {
        Err(Refusal::Parameter)
    }
}

/// Those of [`refresh`](crate::refresh) and [`refresh_boolean`](crate::refresh_boolean), for every modulus and width: d.
pub fn refresh(n: usize) -> Result<usize, Refusal> {
    others(n)
}

/// Those of [`shift`](crate::shift) by t, from 1 to 31, for every modulus: t·d² + d. Each of its moduli has the same part of
/// words skipped.
pub fn shift(n: usize, t: u32) -> Result<usize, Refusal> {
    let d = others(n)?;
    Ok(width(t, 31)? * d * d + d)
}

/// Those of [`to_boolean`](crate::to_boolean), k from 1 to 31: (k − 1)·d² + d, all below powers of two.
pub fn to_boolean(n: usize, k: u32) -> Result<usize, Refusal> {
    let d = others(n)?;
    Ok((width(k, 31)? - 1) * d * d + d)
}

/// Those of [`to_arithmetic`](crate::to_arithmetic), for every width: 3·2^d − 3, all below a power of two.
pub fn to_arithmetic(n: usize) -> Result<usize, Refusal> {
    Ok(3 * (1 << others(n)?) - 3)
}

/// Those of [`to_mod_q`](crate::to_mod_q), for every width: 3·2^d − 3 + α·d².
pub fn to_mod_q(n: usize) -> Result<usize, Refusal> {
    let d = others(n)?;
    Ok(to_arithmetic(n)? + alpha(n) * d * d)
}

/// Those of [`sample`](crate::sample), for every set: n more than those of [`to_mod_q`].
pub fn sample(n: usize) -> Result<usize, Refusal> {
    Ok(to_mod_q(n)? + n)
}

/// Those of [`sample_polynomial`](crate::sample_polynomial), for every set: 256 times those of [`sample`].
pub fn sample_polynomial(n: usize) -> Result<usize, Refusal> {
    Ok(COEFFICIENTS * sample(n)?)
}

/// Those of [`widen`](crate::widen), for every set and kind: (α + 1)·d² + d.
pub fn widen(n: usize) -> Result<usize, Refusal> {
    let d = others(n)?;
    Ok((alpha(n) + 1) * d * d + d)
}

/// Those of [`decompose`](crate::decompose), for every set: (23 + α)·d² + 2·d. With set 44 nearly a third of the words is skipped.
pub fn decompose(n: usize) -> Result<usize, Refusal> {
    let d = others(n)?;
    Ok((23 + alpha(n)) * d * d + 2 * d)
}

/// Those of [`verdict`](crate::verdict): (α + 1 + 2ρ)·d² + d + n·d/2 + n², with the shift ρ of the set and the kind.
pub fn verdict(n: usize, set: u32, kind: u32) -> Result<usize, Refusal> {
    let d = others(n)?;
    let kind = Set::of(set).and_then(|set| set.kind(kind)).ok_or(Refusal::Parameter)?;
    Ok((alpha(n) + 1 + 2 * kind.rho as usize) * d * d + d + n * d / 2 + n * n)
}
