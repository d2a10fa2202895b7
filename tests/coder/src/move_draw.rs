//! Draws moves of a board to another point (request A.10 of document 02), and faults in them.

use crate::call::Call;
use crate::code::Sizes;
use crate::random::Random;

/// A byte that none of n boards has: the board's own number where it is free, 00, one of the least that are free, FF, or any.
pub fn free(random: &mut Random, sizes: Sizes, points: &[u8], board: usize) -> u8 {
    let free: Vec<u8> = (0..=255).filter(|point| !points[..sizes.n].contains(point)).collect();
    let wanted = [board as u8, 0, 0xFF].into_iter().filter(|point| free.contains(point));
    let mut choices: Vec<u8> = wanted.collect();
    choices.extend([free[0], random.pick(&free), random.pick(&free)]);
    random.pick(&choices)
}

/// The lists of a move of a board, by any others: d helpers and r − 1 partners.
pub fn lists(random: &mut Random, sizes: Sizes, board: usize) -> (Vec<usize>, Vec<usize>) {
    let Sizes { n, d, r, .. } = sizes;
    let mut helpers = random.choose((0..n).filter(|&other| other != board).collect(), d + r - 1);
    let partners = helpers.split_off(d);
    (helpers, partners)
}

/// A move of a board to a byte that is free, with right lists.
pub fn of(random: &mut Random, sizes: Sizes, points: &[u8], board: usize) -> Call {
    let (helpers, partners) = lists(random, sizes, board);
    Call::Move { board, point: free(random, sizes, points, board), helpers, partners }
}

/// The same to a given byte.
pub fn to(random: &mut Random, sizes: Sizes, board: usize, point: u8) -> Call {
    let (helpers, partners) = lists(random, sizes, board);
    Call::Move { board, point, helpers, partners }
}

/// A move of any board, with right lists, mostly to a byte that is free; sometimes to one that a board has.
pub fn draw(random: &mut Random, sizes: Sizes, points: &[u8]) -> Call {
    let board = random.below(sizes.n);
    match random.below(8) {
        0 => to(random, sizes, board, points[board]),
        1 => {
            let other = random.below(sizes.n);
            to(random, sizes, board, points[other])
        }
        _ => of(random, sizes, points, board),
    }
}

/// Puts a fault into a move, sometimes two, of which the one that comes first in the order decides. Any other call stays as it is.
pub fn spoil(random: &mut Random, sizes: Sizes, points: &[u8], call: &mut Call) {
    let Call::Move { board, point, helpers, partners } = call else { return };
    let n = sizes.n;
    for _ in 0..random.pick(&[1, 1, 2]) {
        let (any, other) = (random.below(n), random.pick(&[n, n + 1, 255, 256, usize::MAX]));
        match random.below(12) {
            0 => *point = points[any],
            1 => *point = points.get(*board).copied().unwrap_or(0),
            2 => *board = random.pick(&[&helpers[..], partners, &[any]].concat()),
            3 => *board = other,
            4 => put(random, helpers, other),
            5 => put(random, partners, other),
            6 => put(random, helpers, *board),
            7 => put(random, partners, *board),
            8 => {
                let from = random.pick(&[&helpers[..], &[any]].concat());
                put(random, partners, from);
            }
            9 => one_more_or_less(random, helpers, any),
            10 => one_more_or_less(random, partners, any),
            // the two lists exchanged
            _ => std::mem::swap(helpers, partners),
        }
    }
}

/// Puts a board in the place of one of a list, where it has any.
fn put(random: &mut Random, list: &mut [usize], board: usize) {
    if !list.is_empty() {
        list[random.below(list.len())] = board;
    }
}

fn one_more_or_less(random: &mut Random, list: &mut Vec<usize>, board: usize) {
    if list.is_empty() || random.once_in(2) {
        list.push(board);
    } else {
        list.pop();
    }
}
