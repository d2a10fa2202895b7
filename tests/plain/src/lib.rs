//! A straightforward coder in plain Rust, the baseline of the bench: polynomials interpolated by divided differences and evaluated by Horner's
//! rule, stripe by stripe, with the archive's two tables for the field, of the 255 powers of 02 and of the logarithms. The powers stand in a row
//! twice, so that the sum of two logarithms needs no remainder.
//!
//! The archive goes another way. It works out once a call what depends on sizes and boards alone, the powers of all points and the matrices of
//! interpolation, and makes a stripe of sums of multiples of their rows (`tests/plain_kernels` is that algorithm in plain Rust, with these
//! tables). It goes through the shares of a read twice, first for DISAGREE and then for the file, since a refusal leaves the output as it was;
//! this coder decodes once, to a file of its own, which it copies. It makes no packets in a repair; this coder makes and keeps them all. And it
//! allocates nothing. Nothing of this coder is proved. `tests/standin` gives it the archive's C names, so that the programs above the archive can
//! be tried without a prover.

pub mod board;
pub mod careful;
pub mod field;
pub mod generator;
pub mod moves;
pub mod polynomial;
pub mod prefix;
pub mod running;
pub mod sizes;
pub mod steps;
pub mod store;
pub mod stripe;
pub mod text;

pub use sizes::{Points, Refusal, Sizes};
