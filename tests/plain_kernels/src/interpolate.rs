//! Interpolation as a matrix, which depends on the points alone.

use crate::rows::{dot, Rows};
use crate::{from_board, Points, Sizes};
use plain::field::{divide, multiply};
use plain::polynomial::value;

/// The powers of the points of all boards, from 0 to `count` − 1: a row for each power.
pub fn powers(sizes: Sizes, points: &Points, count: usize) -> Rows {
    let mut rows = Rows::new(0, sizes.n);
    let mut power = vec![1; sizes.n];
    for _ in 0..count {
        rows.push(power.iter().copied());
        multiply_each(&mut power, |board| points[board]);
    }
    rows
}

/// Multiplies each byte by a factor of its own.
fn multiply_each(row: &mut [u8], factor: impl Fn(usize) -> u8) {
    for (board, byte) in row.iter_mut().enumerate() {
        *byte = multiply(*byte, factor(board));
    }
}

/// Lagrange's polynomials for these boards: row t has the values at the points of all boards of the one that is 1 at the t-th board's point and 0
/// at those of the others. It is the product of y − x over the others' points x, divided by what this is at its own.
pub fn lagrange(sizes: Sizes, points: &Points, boards: &[usize]) -> Rows {
    let mut rows = Rows::new(0, sizes.n);
    // of the boards before
    let mut product = vec![1; sizes.n];
    for &own in boards {
        rows.push(product.iter().copied());
        multiply_each(&mut product, |board| points[board] ^ points[own]);
    }
    // and of those behind
    product.fill(1);
    for (t, &own) in boards.iter().enumerate().rev() {
        let row = rows.row_mut(t);
        multiply_each(row, |board| product[board]);
        let at_own = row[own];
        for byte in row {
            *byte = divide(*byte, at_own);
        }
        multiply_each(&mut product, |board| points[board] ^ points[own]);
    }
    rows
}

/// The factors by which a polynomial of degree below the number of points has its value at a byte as a sum of those at the points: of Lagrange's
/// polynomials the values there.
pub fn factors_at(points: &[u8], at: u8) -> Vec<u8> {
    let product = |t: usize, y: u8| {
        let others = points.iter().enumerate().filter(|&(other, _)| other != t);
        others.fold(1, |product, (_, &x)| multiply(product, y ^ x))
    };
    (0..points.len()).map(|t| divide(product(t, at), product(t, points[t]))).collect()
}

/// For a board that keeps the values of a polynomial at the first `kept` boards from itself on: the factors by which these give its value at each
/// of the boards behind them, a row for each.
pub fn missing(sizes: Sizes, points: &Points, board: usize, kept: usize) -> Rows {
    let boards: Vec<usize> = from_board(sizes, board).collect();
    let (near, far) = boards.split_at(kept);
    let mut factors = Rows::new(0, kept);
    if far.is_empty() {
        return factors;
    }
    let at_all = lagrange(sizes, points, near);
    for &other in far {
        factors.push(at_all.column(other));
    }
    factors
}

/// The value at the board `steps` behind its own: one that is kept, or the sum of those kept by their factors.
pub fn value_at(kept: &[u8], factors: &Rows, steps: usize) -> u8 {
    match kept.get(steps) {
        Some(&value) => value,
        None => dot(factors.row(steps - kept.len()), kept),
    }
}

/// The coefficients of Lagrange's polynomials for some points: row t has those of the polynomial that is 1 at the t-th point and 0 at the others.
/// It is the product of X − x over all points, divided by X less its own point, and then by the value there.
pub fn coefficients(points: &[u8]) -> Rows {
    let count = points.len();
    let product = product_of(points);
    let mut rows = Rows::new(count, count);
    for (t, &x) in points.iter().enumerate() {
        let row = rows.row_mut(t);
        let mut quotient = 0;
        for (byte, &coefficient) in row.iter_mut().zip(&product[1..]).rev() {
            quotient = multiply(quotient, x) ^ coefficient;
            *byte = quotient;
        }
        let at_own = value(row, x);
        for byte in row {
            *byte = divide(*byte, at_own);
        }
    }
    rows
}

/// The product of X − x over the points.
fn product_of(points: &[u8]) -> Vec<u8> {
    let mut product = vec![1];
    for &x in points {
        product.insert(0, 0);
        for j in 0..product.len() - 1 {
            product[j] ^= multiply(product[j + 1], x);
        }
    }
    product
}
