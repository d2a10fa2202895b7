//! The points of boards (request A.9 of document 02): 32 bytes, of which the first n are the boards', all different, and the rest 00. What kind they
//! are of, how they are drawn, and how they are spoilt.

use crate::code::{Sizes, MAX_BOARDS};
use crate::random::Random;
use std::collections::BTreeSet;

/// The kinds of points. Calls must have been accepted with the first three, and refused with SIZE for each of the others alone.
pub const KINDS: [&str; 6] = ["0 to n-1", "i + 1", "others", "repeated", "from n up", "not 32"];

/// The first of KINDS that is refused.
pub const REFUSED: usize = 3;

/// The kind that only a slice can be of, and no record.
pub const NOT_32: usize = 5;

/// Of which kind points are, for legal sizes.
pub fn kind(sizes: Sizes, points: &[u8]) -> usize {
    if points.len() != MAX_BOARDS {
        return NOT_32;
    }
    let (of_boards, rest) = points.split_at(sizes.n);
    if of_boards.iter().collect::<BTreeSet<_>>().len() < sizes.n {
        3
    } else if rest.iter().any(|&byte| byte > 0) {
        4
    } else if points == standard(sizes.n) {
        0
    } else if points == first_series(sizes.n) {
        1
    } else {
        2
    }
}

/// Whether points are such as the calls take, for legal sizes.
pub fn legal(sizes: Sizes, points: &[u8]) -> bool {
    kind(sizes, points) < REFUSED
}

/// A list of 32 that begins with these bytes; what is behind them is 00.
pub fn filled_up(of_boards: impl IntoIterator<Item = usize>) -> Vec<u8> {
    let mut points: Vec<u8> = of_boards.into_iter().map(|point| point as u8).collect();
    points.resize(MAX_BOARDS, 0);
    points
}

/// "points 0 to n − 1".
pub fn standard(n: usize) -> Vec<u8> {
    filled_up(0..n)
}

/// "Robots of the first series gave board i the point i + 1."
pub fn first_series(n: usize) -> Vec<u8> {
    filled_up(1..=n)
}

/// Points that are legal: 0 to n − 1, i + 1, 0 to n − 1 in another order, or any different ones, with 00 among them or not.
pub fn draw(random: &mut Random, n: usize) -> Vec<u8> {
    match random.below(8) {
        0..=1 => standard(n),
        2..=3 => first_series(n),
        4 => filled_up(random.choose((0..n).collect(), n)),
        5 => {
            let mut drawn = random.choose((1..256).collect(), n);
            drawn[random.below(n)] = 0;
            filled_up(drawn)
        }
        _ => filled_up(random.choose((0..256).collect(), n)),
    }
}

/// Points that are legal, and neither 0 to n − 1 in order nor i + 1.
pub fn others(random: &mut Random, n: usize) -> Vec<u8> {
    loop {
        let points = draw(random, n);
        if points != standard(n) && points != first_series(n) {
            return points;
        }
    }
}

/// Spoils points of n boards: mostly so that they are not legal, sometimes to other legal ones.
pub fn spoil(random: &mut Random, n: usize, points: &mut Vec<u8>) {
    let (one, other) = (random.below(n), random.below(n));
    match random.below(12) {
        // a point twice: any two, the first two, the ends
        0 | 1 if one != other => points[one] = points[other],
        0 | 2 => points[1] = points[0],
        1 | 3 => points[n - 1] = points[0],
        // one from n up that is not 00: anywhere, the first, the last; it may be a board's, too
        4..=6 if n < MAX_BOARDS => {
            let place = random.within(n, MAX_BOARDS - 1);
            let place = random.pick(&[place, n, MAX_BOARDS - 1]);
            let any = random.within(1, 255) as u8;
            points[place] = random.pick(&[any, 1, 0x80, points[other].max(1)]);
        }
        // 0 to 31, and i + 1 for all 32, whatever n is
        7 => *points = standard(MAX_BOARDS),
        8 => *points = first_series(MAX_BOARDS),
        // another length, though all bytes of boards are there
        9 | 10 => {
            let length = random.pick(&[0, 1, n, MAX_BOARDS - 1, MAX_BOARDS + 1, 2 * MAX_BOARDS, 256]);
            points.resize(if length == MAX_BOARDS { length + 1 } else { length }, 0);
        }
        // other legal ones
        11 => points.swap(one, other),
        _ => *points = draw(random, n),
    }
}
