//! The algorithm of the archive's kernels in plain Rust, with products by table. What depends on sizes, points and boards alone is worked out
//! once a call: the powers of all points, and the matrices of interpolation. A stripe is then sums of multiples of their rows; whether k boards
//! agree is asked of each pair of them; and a byte that a board keeps is taken as it is.
//!
//! It differs from the archive in one thing that counts for speed: a product is looked up in the plain coder's tables of powers and logarithms
//! (`tests/plain`), byte by byte, where the archive has the multiples of a row of 32 bytes and adds four of them. So the bench shows beside the
//! plain coder what the algorithm gives, and beside this one what the rows give. It also allocates, checks every index, and is without the
//! calls' checks: the sizes are legal, lists and lengths are right. Nothing of it is proved.

mod careful;
mod edit;
mod encode;
mod interpolate;
mod moves;
mod read;
mod repair;
mod rows;

pub use careful::read_careful;
pub use edit::edit;
pub use encode::{share, write};
pub use moves::move_board;
pub use plain::{Points, Sizes};
pub use read::read;
pub use repair::repair;

/// A board and those that follow it, modulo n.
fn from_board(sizes: Sizes, board: usize) -> impl Iterator<Item = usize> {
    (board..sizes.n).chain(0..board)
}

/// How far a board stands behind another, modulo n.
fn steps(sizes: Sizes, from: usize, to: usize) -> usize {
    (to + sizes.n - from) % sizes.n
}
