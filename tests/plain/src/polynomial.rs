//! Polynomials in one variable, as slices of coefficients, the constant first.

use crate::field::{divide, multiply};

/// The value at a point, by Horner's rule.
#[inline]
pub fn value(coefficients: &[u8], x: u8) -> u8 {
    coefficients.iter().rev().fold(0, |sum, &c| multiply(sum, x) ^ c)
}

/// Turns the values at different points into the coefficients of the one polynomial through them, by Newton's divided differences.
pub fn interpolate(points: &[u8], values: &mut [u8]) {
    let count = points.len();
    for step in 1..count {
        for i in (step..count).rev() {
            values[i] = divide(values[i] ^ values[i - 1], points[i] ^ points[i - step]);
        }
    }
    for step in (0..count.saturating_sub(1)).rev() {
        for i in step..count - 1 {
            values[i] ^= multiply(values[i + 1], points[step]);
        }
    }
}
