//! Up to r fresh boards together, by factors of what their helpers and stand-ins keep.

use crate::encode::keep;
use crate::interpolate::lagrange;
use crate::rows::{add_multiples, dot, Rows};
use crate::{from_board, Points, Sizes};

/// A fresh board.
struct Fresh<'a> {
    board: usize,
    helpers: &'a [usize],
    stand_ins: &'a [usize],
    /// for each helper, the factors by which the values of f that it keeps give the one at this board; and for each helper and then each stand-in
    /// those of g
    of_f: Rows,
    of_g: Rows,
    /// g at all boards from values at the helpers, and f from values at the helpers, the stand-ins, the other fresh boards and this one
    by_g: Rows,
    by_f: Rows,
    /// what the helpers send of a stripe, the seconds with what the stand-ins send behind them, and g at all boards
    firsts: Vec<u8>,
    seconds: Vec<u8>,
    g: Vec<u8>,
}

impl<'a> Fresh<'a> {
    /// The factors are still to be set.
    fn new(
        sizes: Sizes,
        points: &Points,
        board: usize,
        fresh: &[usize],
        helpers: &'a [usize],
        stand_ins: &'a [usize],
    ) -> Fresh<'a> {
        let Sizes { n, d, r, .. } = sizes;
        let others = fresh.iter().filter(|&&other| other != board);
        let heard: Vec<usize> = helpers.iter().chain(stand_ins).chain(others).chain([&board]).copied().collect();
        let count = d + stand_ins.len();
        Fresh {
            board,
            helpers,
            stand_ins,
            of_f: Rows::new(d, d + r),
            of_g: Rows::new(count, d),
            by_g: lagrange(sizes, points, helpers),
            by_f: lagrange(sizes, points, &heard),
            firsts: vec![0; d],
            seconds: vec![0; count],
            g: vec![0; n],
        }
    }

    /// Its helpers, then its stand-ins.
    fn senders(&self) -> impl Iterator<Item = usize> + 'a {
        self.helpers.iter().chain(self.stand_ins).copied()
    }

    /// Sets the factors of a sender, where it is one of this board's, by Lagrange's polynomials for the boards that it keeps values at.
    fn set_factors(&mut self, sender: usize, for_f: &Rows, for_g: &Rows) {
        if let Some(h) = self.senders().position(|other| other == sender) {
            if h < self.helpers.len() {
                self.of_f.set_row(h, for_f.column(self.board));
            }
            self.of_g.set_row(h, for_g.column(self.board));
        }
    }

    /// Hears the helpers and the stand-ins of stripe s, and makes g of the helpers' first bytes.
    fn hear(&mut self, sizes: Sizes, area: &[u8], s: usize) {
        let board_len = area.len() / sizes.n;
        for (h, sender) in self.senders().enumerate() {
            let held = &area[sender * board_len + s * sizes.share_len()..][..sizes.share_len()];
            let (f, rest) = held.split_at(sizes.d + sizes.r);
            if h < self.helpers.len() {
                self.firsts[h] = dot(self.of_f.row(h), f);
            }
            // g's values: the first byte, then the last d − 1
            let (first, others) = self.of_g.row(h).split_at(1);
            self.seconds[h] = dot(first, f) ^ dot(others, rest);
        }
        self.g.fill(0);
        add_multiples(&mut self.g, self.firsts.iter().copied(), self.by_g.iter());
    }
}

/// The shares of the fresh boards, each from its own d helpers, its own stand-ins and the other fresh boards, over so many stripes; the bytes that
/// boards send each other for it.
pub fn repair(
    sizes: Sizes,
    points: &Points,
    stripes: usize,
    fresh: &[usize],
    helpers: &[usize],
    stand_ins: &[usize],
    area: &mut [u8],
) -> usize {
    let board_len = area.len() / sizes.n;
    let mut all = prepared(sizes, points, fresh, helpers, stand_ins);
    let mut f = vec![0; sizes.n];
    for s in 0..stripes {
        for one in &mut all {
            one.hear(sizes, area, s);
        }
        for one in &all {
            let board = one.board;
            let sent = all.iter().filter(|other| other.board != board).map(|other| other.g[board]);
            let heard = one.seconds.iter().copied().chain(sent).chain([one.g[board]]);
            f.fill(0);
            add_multiples(&mut f, heard, one.by_f.iter());
            let held = &mut area[board * board_len + s * sizes.share_len()..][..sizes.share_len()];
            keep(sizes, board, |y| f[y], |x| one.g[x], held);
        }
    }
    stripes * fresh.len() * (2 * sizes.d + sizes.r - 1)
}

/// The fresh boards with all that depends on sizes and lists alone.
fn prepared<'a>(
    sizes: Sizes,
    points: &Points,
    fresh: &[usize],
    helpers: &'a [usize],
    stand_ins: &'a [usize],
) -> Vec<Fresh<'a>> {
    let Sizes { n, d, r, .. } = sizes;
    let count = r - fresh.len();
    let one = |(a, &board): (usize, &usize)| {
        Fresh::new(sizes, points, board, fresh, &helpers[a * d..][..d], &stand_ins[a * count..][..count])
    };
    let mut all: Vec<Fresh> = fresh.iter().enumerate().map(one).collect();
    for sender in (0..n).filter(|board| helpers.contains(board) || stand_ins.contains(board)) {
        let near: Vec<usize> = from_board(sizes, sender).collect();
        let for_f = lagrange(sizes, points, &near[..d + r]);
        let for_g = lagrange(sizes, points, &near[..d]);
        for one in &mut all {
            one.set_factors(sender, &for_f, &for_g);
        }
    }
    all
}
