//! Draws calls of the store, single ones and those of a history. Their lists are right, as far as there are boards in service for them.

use crate::call::Call;
use crate::code::Sizes;
use crate::draw;
use crate::edits;
use crate::ledger::{Book, Repairing};
use crate::move_draw;
use crate::random::Random;
use crate::repairs;
use crate::running_draw;
use crate::scene::Scene;

/// A single call of any kind over a scene's file; sometimes any boards are taken.
pub fn call(random: &mut Random, scene: &Scene, capacity: usize, in_service: &[usize]) -> Call {
    let sizes = scene.sizes;
    let all: Vec<usize> = (0..sizes.n).collect();
    let boards = if random.once_in(8) { &all } else { in_service };
    match random.below(17) {
        0 => Call::SetUp { sizes, points: scene.points.clone(), capacity },
        1 => lose(random, sizes),
        2 => write(random, sizes, capacity),
        3..=4 => repairs::draw(random, sizes, boards),
        5..=6 => edits::draw(random, sizes, scene.length(), boards),
        7 => repairs::start(random, sizes, boards),
        8..=9 => Call::Step { allowance: running_draw::allowance(random, sizes.d + sizes.r - 1) },
        10..=11 => careful(random, sizes, boards),
        12..=13 => move_draw::draw(random, sizes, &scene.points),
        _ => read(random, sizes, boards),
    }
}

/// The next call of a history: mostly losses, repairs and reads, so that boards are rebuilt from rebuilt boards; writes are few. A board that is lost
/// is mostly rebuilt before the next one is lost, and boards are mostly lost only as far as those in service can still rebuild them. Half of the
/// repairs are started, to be stepped. Where all boards are in service some are moved.
pub fn next_call(random: &mut Random, book: &Book) -> Call {
    let Book { sizes, capacity, ref points, .. } = *book;
    let length = book.file_len();
    let in_service: &[usize] = &book.in_service.iter().copied().collect::<Vec<usize>>();
    let lost = sizes.n - in_service.len();
    let all: Vec<usize> = (0..sizes.n).collect();
    match random.below(30) {
        0 => write(random, sizes, capacity),
        1 => repairs::draw(random, sizes, &all),
        2 => read(random, sizes, &all),
        20 => edits::draw(random, sizes, length, &all),
        21..=23 => edits::draw(random, sizes, length, in_service),
        24 => Call::Step { allowance: running_draw::allowance(random, 1) },
        25 => careful(random, sizes, &all),
        26 => careful(random, sizes, in_service),
        27 => move_draw::draw(random, sizes, points),
        28..=29 if lost == 0 => move_draw::draw(random, sizes, points),
        3..=14 => {
            let can_lose = repairs::possible(sizes, lost + 1) || random.once_in(10);
            if can_lose && (lost == 0 || random.once_in(3)) {
                lose(random, sizes)
            } else if repairs::possible(sizes, lost) {
                if random.once_in(2) {
                    repairs::start(random, sizes, in_service)
                } else {
                    repairs::draw(random, sizes, in_service)
                }
            } else {
                write(random, sizes, capacity)
            }
        }
        _ => read(random, sizes, in_service),
    }
}

/// The next call of a history while a repair runs: mostly steps, reads and losses; some of those that are BUSY.
pub fn call_meanwhile(random: &mut Random, book: &Book, repairing: &Repairing) -> Call {
    let Book { sizes, capacity, ref points, .. } = *book;
    let length = book.file_len();
    let in_service: &[usize] = &book.in_service.iter().copied().collect::<Vec<usize>>();
    match random.below(22) {
        0..=8 => Call::Step { allowance: running_draw::allowance(random, repairing.left) },
        9..=11 => read(random, sizes, in_service),
        12 => read(random, sizes, &(0..sizes.n).collect::<Vec<usize>>()),
        13..=14 => Call::Lose { board: running_draw::to_lose(random, sizes, &repairing.lists) },
        15 => write(random, sizes, capacity),
        16 => repairs::draw(random, sizes, in_service),
        17 => repairs::start(random, sizes, in_service),
        18 => edits::draw(random, sizes, length, in_service),
        19 => careful(random, sizes, in_service),
        20 => move_draw::draw(random, sizes, points),
        _ => Call::Step { allowance: 1 },
    }
}

/// The output that a call is lent, over a file of so many bytes; empty where it takes none.
pub fn output(random: &mut Random, call: &Call, length: usize) -> Vec<u8> {
    match call {
        Call::Read { .. } | Call::Careful { .. } => draw::output(random, length),
        _ => Vec::new(),
    }
}

/// A write, sometimes of a file that is too long by one byte.
fn write(random: &mut Random, sizes: Sizes, capacity: usize) -> Call {
    let too_long = random.once_in(12);
    let length = if too_long { capacity * sizes.stripe_len() + 1 } else { draw::length(random, sizes, capacity) };
    Call::Write { file: random.bytes(length) }
}

fn lose(random: &mut Random, sizes: Sizes) -> Call {
    Call::Lose { board: random.below(sizes.n) }
}

/// A read from k of these boards.
fn read(random: &mut Random, sizes: Sizes, boards: &[usize]) -> Call {
    Call::Read { boards: random.choose(boards.to_vec(), sizes.k) }
}

/// A careful read from k + 2 of these boards, as far as there are so many.
fn careful(random: &mut Random, sizes: Sizes, boards: &[usize]) -> Call {
    Call::Careful { boards: random.choose(boards.to_vec(), sizes.k + 2) }
}
