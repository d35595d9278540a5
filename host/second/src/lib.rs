//! An independent second of the library, written from document 01: the gadgets in `library`, the steps under them, and the calls of
//! docs/CASES.md in `inputs`. The binary prints what the library's programs have to print; the tests of `host/rust` hold the
//! library's C face to it.

pub mod coefficients;
pub mod conversions;
pub mod inputs;
pub mod library;
pub mod parameters;
pub mod residues;
pub mod sampling;
pub mod sets;
pub mod steps;
pub mod tape;
pub mod verdict;
