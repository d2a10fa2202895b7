//! A file to shares, by rows of powers.

use crate::interpolate::powers;
use crate::rows::{add_multiples, Rows};
use crate::{from_board, Points, Sizes};
use plain::sizes::MAX_BOARDS;

/// One stripe at a time, as rows of values.
pub struct Encoder {
    sizes: Sizes,
    /// the powers of all points
    powers: Rows,
    /// row i: what stands at X to the i in F, at the points of all boards for Y
    at_y: Rows,
    /// the stripe's bytes, filled up
    bytes: Vec<u8>,
}

impl Encoder {
    pub fn new(sizes: Sizes, points: &Points) -> Encoder {
        let Sizes { n, d, r, .. } = sizes;
        let bytes = vec![0; sizes.stripe_len()];
        Encoder { sizes, powers: powers(sizes, points, d + r), at_y: Rows::new(d, n), bytes }
    }

    /// Takes up a stripe; bytes that are missing at its end are 00.
    pub fn take(&mut self, bytes: &[u8]) {
        let Sizes { k, d, r, .. } = self.sizes;
        let (given, rest) = self.bytes.split_at_mut(bytes.len());
        given.copy_from_slice(bytes);
        rest.fill(0);
        // a and b for the rows below k, c for the others
        let (a, rest) = self.bytes.split_at(k * k);
        let (b, c) = rest.split_at(k * (d + r - k));
        for (i, (a, b)) in a.chunks(k).zip(b.chunks(d + r - k)).enumerate() {
            let row = self.at_y.row_mut(i);
            row.fill(0);
            add_multiples(row, a.iter().chain(b).copied(), self.powers.iter());
        }
        for (i, c) in (k..).zip(c.chunks(k)) {
            let row = self.at_y.row_mut(i);
            row.fill(0);
            add_multiples(row, c.iter().copied(), self.powers.iter());
        }
    }

    /// F with the board's point for Y, at the points of all boards for X.
    fn column(&self, board: usize, out: &mut [u8]) {
        out.fill(0);
        add_multiples(out, self.at_y.column(board), self.powers.iter());
    }

    /// F with the board's point for X, at the points of all boards for Y.
    fn row(&self, board: usize, out: &mut [u8]) {
        out.fill(0);
        add_multiples(out, self.powers.column(board), self.at_y.iter());
    }

    /// What one board keeps of the stripe.
    pub fn kept(&self, board: usize, out: &mut [u8]) {
        let (mut f, mut g) = ([0; MAX_BOARDS], [0; MAX_BOARDS]);
        self.row(board, &mut f[..self.sizes.n]);
        self.column(board, &mut g[..self.sizes.n]);
        keep(self.sizes, board, |y| f[y], |x| g[x], out);
    }
}

/// What a board keeps of f and g, given their values at all boards.
pub fn keep(sizes: Sizes, board: usize, f: impl Fn(usize) -> u8, g: impl Fn(usize) -> u8, out: &mut [u8]) {
    let (of_f, of_g) = out.split_at_mut(sizes.d + sizes.r);
    for (byte, other) in of_f.iter_mut().zip(from_board(sizes, board)) {
        *byte = f(other);
    }
    for (byte, other) in of_g.iter_mut().zip(from_board(sizes, board).skip(1)) {
        *byte = g(other);
    }
}

/// What each board keeps of each stripe, by the values of F: `to` is given the stripe, the board, and a row for each board, F with its point for Y.
fn each_kept(sizes: Sizes, points: &Points, file: &[u8], mut to: impl FnMut(usize, usize, &Rows)) {
    let n = sizes.n;
    let mut encoder = Encoder::new(sizes, points);
    let mut values = Rows::new(n, n);
    for (s, bytes) in file.chunks(sizes.stripe_len()).enumerate() {
        encoder.take(bytes);
        for l in 0..n {
            encoder.column(l, values.row_mut(l));
        }
        for board in 0..n {
            to(s, board, &values);
        }
    }
}

/// Every board's share of a file, to its part of the area.
pub fn write(sizes: Sizes, points: &Points, file: &[u8], area: &mut [u8]) {
    let board_len = area.len() / sizes.n;
    each_kept(sizes, points, file, |s, board, values| {
        let held = &mut area[board * board_len + s * sizes.share_len()..][..sizes.share_len()];
        keep(sizes, board, |y| values.row(y)[board], |x| values.row(board)[x], held);
    });
}

/// Adds every board's share of these bytes to what it holds from stripe `first` on.
pub fn add(sizes: Sizes, points: &Points, first: usize, bytes: &[u8], area: &mut [u8]) {
    let board_len = area.len() / sizes.n;
    let mut kept = vec![0; sizes.share_len()];
    each_kept(sizes, points, bytes, |s, board, values| {
        keep(sizes, board, |y| values.row(y)[board], |x| values.row(board)[x], &mut kept);
        let held = &mut area[board * board_len + (first + s) * sizes.share_len()..][..sizes.share_len()];
        for (held, byte) in held.iter_mut().zip(&kept) {
            *held ^= byte;
        }
    });
}

/// One board's share of a file.
pub fn share(sizes: Sizes, points: &Points, node: usize, file: &[u8], out: &mut [u8]) {
    let mut encoder = Encoder::new(sizes, points);
    for (bytes, held) in file.chunks(sizes.stripe_len()).zip(out.chunks_mut(sizes.share_len())) {
        encoder.take(bytes);
        encoder.kept(node, held);
    }
}
