//! A file from k boards: first whether they agree, pair by pair, then the stripes, by matrices.

use crate::interpolate::{coefficients, missing, value_at};
use crate::rows::{add_multiples, dot, Rows};
use crate::{from_board, steps, Points, Sizes};
use plain::field::multiply;
use std::ops::Range;

/// What the boards keep of one stripe: a row for each.
pub struct Kept {
    f: Rows,
    g: Rows,
}

impl Kept {
    pub fn new(sizes: Sizes) -> Kept {
        Kept { f: Rows::new(sizes.k, sizes.d + sizes.r), g: Rows::new(sizes.k, sizes.d) }
    }

    /// Takes up stripe s of the boards.
    pub fn take(&mut self, sizes: Sizes, boards: &[usize], area: &[u8], s: usize) {
        let board_len = area.len() / sizes.n;
        for (b, &board) in boards.iter().enumerate() {
            let held = &area[board * board_len + s * sizes.share_len()..][..sizes.share_len()];
            let (of_f, of_g) = held.split_at(sizes.d + sizes.r);
            self.f.row_mut(b).copy_from_slice(of_f);
            let g = self.g.row_mut(b);
            g[0] = of_f[0];
            g[1..].copy_from_slice(of_g);
        }
    }
}

/// The factors of what each board keeps, for the boards that it keeps nothing for.
pub struct Factors {
    f: Vec<Rows>,
    g: Vec<Rows>,
}

impl Factors {
    pub fn new(sizes: Sizes, points: &Points, boards: &[usize]) -> Factors {
        let of_all = |kept: usize| boards.iter().map(|&board| missing(sizes, points, board, kept)).collect();
        Factors { f: of_all(sizes.d + sizes.r), g: of_all(sizes.d) }
    }
}

/// Whether the boards hold symbols of one stripe: each f and each g have the same value where they meet.
fn agree(sizes: Sizes, boards: &[usize], factors: &Factors, kept: &Kept) -> bool {
    let meet = |i: usize, j: usize| {
        let f = value_at(kept.f.row(i), &factors.f[i], steps(sizes, boards[i], boards[j]));
        let g = value_at(kept.g.row(j), &factors.g[j], steps(sizes, boards[j], boards[i]));
        f == g
    };
    (0..boards.len()).all(|i| (0..boards.len()).all(|j| meet(i, j)))
}

/// The matrices that make a stripe of what the boards keep.
pub struct Decoder<'a> {
    sizes: Sizes,
    boards: &'a [usize],
    factors: &'a Factors,
    /// of each board, for i from k on: what its bytes of g add to the coefficient of X to the i
    tops: Vec<Rows>,
    /// coefficients in Y, from values at the boards from the first one read on
    by_y: Rows,
    /// coefficients in X, from values at the boards read; behind them, for i from k on, those of what has the values of X to the i there
    by_x: Rows,
    /// the coefficients of f of each board
    f: Rows,
    /// a column of the grid
    line: Vec<u8>,
}

impl<'a> Decoder<'a> {
    pub fn new(sizes: Sizes, points: &Points, boards: &'a [usize], factors: &'a Factors) -> Decoder<'a> {
        let Sizes { k, d, r, .. } = sizes;
        let near = |board: usize, count: usize| {
            from_board(sizes, board).take(count).map(|other| points[other]).collect::<Vec<u8>>()
        };
        let tops = boards.iter().map(|&board| tops(&coefficients(&near(board, d)), k)).collect();
        Decoder {
            sizes,
            boards,
            factors,
            tops,
            by_y: coefficients(&near(boards[0], d + r)),
            by_x: by_x(sizes, points, boards),
            f: Rows::new(k, d + r),
            line: vec![0; k],
        }
    }

    /// A stripe's bytes of what the boards keep.
    pub fn decode(&mut self, kept: &Kept, out: &mut [u8]) {
        let Sizes { k, d, r, .. } = self.sizes;
        let (a, rest) = out.split_at_mut(k * k);
        let (b, c) = rest.split_at_mut(k * (d + r - k));
        self.lower(kept, c);
        self.take_f(kept);
        let line = &mut self.line;
        for j in 0..d + r {
            line.fill(0);
            add_multiples(line, self.f.column(j), self.by_x.iter());
            if j < k {
                // what c adds to this column is taken away
                add_multiples(line, c.chunks(k).map(|row| row[j]), self.by_x.iter().skip(k));
            }
            for (i, &byte) in line.iter().enumerate() {
                if j < k {
                    a[i * k + j] = byte;
                } else {
                    b[i * (d + r - k) + j - k] = byte;
                }
            }
        }
    }

    /// c: the coefficients from X to the k on, by the boards' g.
    fn lower(&self, kept: &Kept, c: &mut [u8]) {
        for (i, row) in c.chunks_mut(self.sizes.k).enumerate() {
            let tops = self.tops.iter().zip(kept.g.iter()).map(|(tops, g)| dot(tops.row(i), g));
            row.fill(0);
            add_multiples(row, tops, self.by_x.iter());
        }
    }

    /// The coefficients of f of each board, from values at the same boards for all.
    fn take_f(&mut self, kept: &Kept) {
        let Sizes { n, d, r, .. } = self.sizes;
        for (b, &board) in self.boards.iter().enumerate() {
            let first = steps(self.sizes, board, self.boards[0]);
            let at = |t: usize| value_at(kept.f.row(b), &self.factors.f[b], (first + t) % n);
            let row = self.f.row_mut(b);
            row.fill(0);
            add_multiples(row, (0..d + r).map(at), self.by_y.iter());
        }
    }
}

/// Columns from k on of a matrix, as rows.
fn tops(matrix: &Rows, k: usize) -> Rows {
    let count = matrix.iter().count();
    let mut rows = Rows::new(0, count);
    for i in k..count {
        rows.push(matrix.column(i));
    }
    rows
}

/// The coefficients of Lagrange's polynomials for the boards read, and behind them, for i from k to d − 1, those of the polynomial that has the
/// values of X to the i there.
fn by_x(sizes: Sizes, points: &Points, boards: &[usize]) -> Rows {
    let xs: Vec<u8> = boards.iter().map(|&board| points[board]).collect();
    let units = coefficients(&xs);
    let mut rows = units.clone();
    let mut power = vec![1; sizes.k];
    for i in 0..sizes.d {
        if i >= sizes.k {
            let mut line = vec![0; sizes.k];
            add_multiples(&mut line, power.iter().copied(), units.iter());
            rows.push(line.into_iter());
        }
        for (power, &x) in power.iter_mut().zip(&xs) {
            *power = multiply(*power, x);
        }
    }
    rows
}

/// Whether the boards agree in each of so many stripes.
pub fn all_agree(
    sizes: Sizes,
    boards: &[usize],
    factors: &Factors,
    kept: &mut Kept,
    area: &[u8],
    stripes: usize,
) -> bool {
    (0..stripes).all(|s| {
        kept.take(sizes, boards, area, s);
        agree(sizes, boards, factors, kept)
    })
}

/// The file of as many bytes as `out` has, from k boards; false where no file has their shares, and then nothing is written.
pub fn read(sizes: Sizes, points: &Points, boards: &[usize], area: &[u8], out: &mut [u8]) -> bool {
    let factors = Factors::new(sizes, points, boards);
    let mut kept = Kept::new(sizes);
    if !all_agree(sizes, boards, &factors, &mut kept, area, sizes.stripes(out.len())) {
        return false;
    }
    let mut decoder = Decoder::new(sizes, points, boards, &factors);
    let whole = out.len() / sizes.stripe_len();
    let (stripes, rest) = out.split_at_mut(whole * sizes.stripe_len());
    if !rest.is_empty() {
        // the last stripe comes first, since its padding may still refuse
        let mut last = vec![0; sizes.stripe_len()];
        kept.take(sizes, boards, area, whole);
        decoder.decode(&kept, &mut last);
        let (bytes, padding) = last.split_at(rest.len());
        if padding.iter().any(|&byte| byte != 0) {
            return false;
        }
        rest.copy_from_slice(bytes);
    }
    for (s, bytes) in stripes.chunks_mut(sizes.stripe_len()).enumerate() {
        kept.take(sizes, boards, area, s);
        decoder.decode(&kept, bytes);
    }
    true
}

/// Some stripes of the file of `length` bytes, one after another, filled up; none where no file has the boards' shares.
pub fn stripes(
    sizes: Sizes,
    points: &Points,
    boards: &[usize],
    area: &[u8],
    length: usize,
    wanted: Range<usize>,
) -> Option<Vec<u8>> {
    let stripe = sizes.stripe_len();
    let factors = Factors::new(sizes, points, boards);
    let mut kept = Kept::new(sizes);
    if !all_agree(sizes, boards, &factors, &mut kept, area, sizes.stripes(length)) {
        return None;
    }
    let mut decoder = Decoder::new(sizes, points, boards, &factors);
    let rest = length % stripe;
    if rest > 0 {
        let mut last = vec![0; stripe];
        kept.take(sizes, boards, area, length / stripe);
        decoder.decode(&kept, &mut last);
        if last[rest..].iter().any(|&byte| byte != 0) {
            return None;
        }
    }
    let mut bytes = vec![0; wanted.len() * stripe];
    for (s, bytes) in wanted.zip(bytes.chunks_mut(stripe)) {
        kept.take(sizes, boards, area, s);
        decoder.decode(&kept, bytes);
    }
    Some(bytes)
}
