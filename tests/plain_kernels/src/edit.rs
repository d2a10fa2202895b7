//! Bytes in the place of others of a file: whether the boards agree in all stripes, as in a read; then the stripes that are reached are decoded, and
//! what each board would keep of the difference is added to what it holds.

use crate::encode::add;
use crate::read::stripes;
use crate::{Points, Sizes};

/// Edits a file of so many bytes, from an offset on, by k boards; all boards are in service. False where no file has the shares of the k, and then
/// nothing is written.
pub fn edit(
    sizes: Sizes,
    points: &Points,
    length: usize,
    offset: usize,
    bytes: &[u8],
    boards: &[usize],
    area: &mut [u8],
) -> bool {
    let stripe = sizes.stripe_len();
    let first = offset / stripe;
    let reached = if bytes.is_empty() { 0..0 } else { first..(offset + bytes.len()).div_ceil(stripe) };
    let Some(mut change) = stripes(sizes, points, boards, area, length, reached) else { return false };
    // old against new bytes: outside of the edit they are alike
    let at = offset - (first * stripe).min(offset);
    let end = at + bytes.len();
    for (place, byte) in change.iter_mut().enumerate() {
        *byte = if (at..end).contains(&place) { *byte ^ bytes[place - at] } else { 0 };
    }
    add(sizes, points, first, &change, area);
    true
}
