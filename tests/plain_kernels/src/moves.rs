//! A board moved to another point: the values that the others keep there by factors of what they keep, then the board itself as by a repair of it alone.

use crate::interpolate::factors_at;
use crate::repair::repair;
use crate::rows::dot;
use crate::{from_board, steps, Points, Sizes};

/// Moves a board of a file of so many stripes to a point that no board has; the bytes that boards send each other for it. The points are then the new
/// ones.
#[allow(clippy::too_many_arguments)]
pub fn move_board(
    sizes: Sizes,
    points: &mut Points,
    stripes: usize,
    board: usize,
    point: u8,
    helpers: &[usize],
    partners: &[usize],
    area: &mut [u8],
) -> usize {
    for other in (0..sizes.n).filter(|&other| other != board) {
        work_afresh(sizes, points, stripes, other, steps(sizes, other, board), point, area);
    }
    points[board] = point;
    repair(sizes, points, stripes, &[board], helpers, partners, area)
}

/// What a board keeps at the point of the one that stands t behind it, where it keeps anything there, with that point a new one.
fn work_afresh(sizes: Sizes, points: &Points, stripes: usize, own: usize, t: usize, point: u8, area: &mut [u8]) {
    let Sizes { n, d, r, .. } = sizes;
    if t >= d + r {
        return;
    }
    let near: Vec<u8> = from_board(sizes, own).map(|board| points[board]).collect();
    let of_f = factors_at(&near[..d + r], point);
    let of_g = factors_at(&near[..d], point);
    let start = own * (area.len() / n);
    for held in area[start..][..stripes * sizes.share_len()].chunks_exact_mut(sizes.share_len()) {
        let (f, rest) = held.split_at_mut(d + r);
        let value = dot(&of_f, f);
        if t < d {
            // g's values: the first byte, then the last d − 1
            let (first, others) = of_g.split_at(1);
            rest[t - 1] = dot(first, f) ^ dot(others, rest);
        }
        f[t] = value;
    }
}
