//! One stripe: coefficients to symbols, what helpers and fresh boards send, the finished stripe, and the stripe that k boards hold.

use crate::field::multiply;
use crate::polynomial::{interpolate, value};
use crate::sizes::{Points, Sizes, MAX_BOARDS};

/// A polynomial of one board, in either variable.
pub type Row = [u8; MAX_BOARDS];

/// The coefficients of F: the row is the power of X, the column that of Y.
pub type Grid = [Row; MAX_BOARDS - 1];

/// The places of a stripe's bytes in the grid, in document 01's order.
fn places(sizes: Sizes) -> impl Iterator<Item = (usize, usize)> {
    let Sizes { k, d, r, .. } = sizes;
    let a = (0..k).flat_map(move |i| (0..k).map(move |j| (i, j)));
    let b = (0..k).flat_map(move |i| (k..d + r).map(move |j| (i, j)));
    let c = (k..d).flat_map(move |i| (0..k).map(move |j| (i, j)));
    a.chain(b).chain(c)
}

/// The grid of a stripe's bytes; bytes that are missing at its end are 00.
pub fn fill(sizes: Sizes, bytes: &[u8]) -> Grid {
    let mut grid = [[0; MAX_BOARDS]; MAX_BOARDS - 1];
    for ((i, j), &byte) in places(sizes).zip(bytes) {
        grid[i][j] = byte;
    }
    grid
}

/// The points of a board and of those that follow it by number, modulo n.
pub fn neighbours(sizes: Sizes, points: &Points, board: usize) -> Row {
    let mut row = [0; MAX_BOARDS];
    for (t, point) in row.iter_mut().enumerate() {
        *point = points[(board + t) % sizes.n];
    }
    row
}

/// f and g of a board, from the grid.
fn own_from_grid(sizes: Sizes, grid: &Grid, point: u8) -> (Row, Row) {
    let Sizes { k, d, r, .. } = sizes;
    let mut f = [0; MAX_BOARDS];
    let mut g = [0; MAX_BOARDS];
    for i in (0..d).rev() {
        let width = if i < k { d + r } else { k };
        for (sum, &c) in f[..d + r].iter_mut().zip(&grid[i][..d + r]) {
            *sum = multiply(*sum, point) ^ c;
        }
        g[i] = value(&grid[i][..width], point);
    }
    (f, g)
}

/// f and g of a board, from the symbols that it keeps.
pub fn own_from_symbols(sizes: Sizes, points: &Row, symbols: &[u8]) -> (Row, Row) {
    let width = sizes.d + sizes.r;
    let mut f = [0; MAX_BOARDS];
    f[..width].copy_from_slice(&symbols[..width]);
    interpolate(&points[..width], &mut f[..width]);
    (f, g_from_symbols(sizes, points, symbols))
}

/// g alone.
fn g_from_symbols(sizes: Sizes, points: &Row, symbols: &[u8]) -> Row {
    let Sizes { d, r, .. } = sizes;
    let mut g = [0; MAX_BOARDS];
    g[0] = symbols[0];
    g[1..d].copy_from_slice(&symbols[d + r..]);
    interpolate(&points[..d], &mut g[..d]);
    g
}

/// The symbols that a board with this f and g keeps.
fn symbols(sizes: Sizes, points: &Row, f: &Row, g: &Row, out: &mut [u8]) {
    let Sizes { d, r, .. } = sizes;
    let (first, last) = out.split_at_mut(d + r);
    for (symbol, &y) in first.iter_mut().zip(points) {
        *symbol = value(&f[..d + r], y);
    }
    for (symbol, &x) in last.iter_mut().zip(&points[1..]) {
        *symbol = value(&g[..d], x);
    }
}

/// What a board keeps of a stripe.
pub fn encode(sizes: Sizes, grid: &Grid, points: &Row, out: &mut [u8]) {
    let (f, g) = own_from_grid(sizes, grid, points[0]);
    symbols(sizes, points, &f, &g, out);
}

/// The two bytes that a helper sends to the board at a point.
pub fn help(sizes: Sizes, points: &Row, held: &[u8], receiver: u8) -> [u8; 2] {
    let (f, g) = own_from_symbols(sizes, points, held);
    [value(&f[..sizes.d + sizes.r], receiver), value(&g[..sizes.d], receiver)]
}

/// The one byte that a stand-in sends to the board at a point: the second of those that it would send as a helper.
pub fn stand_in(sizes: Sizes, points: &Row, held: &[u8], receiver: u8) -> u8 {
    value(&g_from_symbols(sizes, points, held)[..sizes.d], receiver)
}

/// g of a fresh board, from the first bytes of its helpers.
pub fn own_g(helpers: &[u8], firsts: impl Iterator<Item = u8>) -> Row {
    let mut g = [0; MAX_BOARDS];
    for (coefficient, byte) in g.iter_mut().zip(firsts) {
        *coefficient = byte;
    }
    interpolate(helpers, &mut g[..helpers.len()]);
    g
}

/// What a fresh board keeps, of its g and of f's values at the points of helpers and partners, to which its own is added here.
pub fn finish(sizes: Sizes, points: &Row, g: &Row, known: &Row, values: &Row, out: &mut [u8]) {
    let Sizes { d, r, .. } = sizes;
    let mut at = *known;
    let mut f = *values;
    at[d + r - 1] = points[0];
    f[d + r - 1] = value(&g[..d], points[0]);
    interpolate(&at[..d + r], &mut f[..d + r]);
    symbols(sizes, points, &f, g, out);
}

/// The grid that k boards' f and g would have: columns from k on by f, rows from k on by g, and then the square of a.
fn solve(sizes: Sizes, xs: &[u8], fs: &[Row], gs: &[Row]) -> Grid {
    let Sizes { k, d, r, .. } = sizes;
    let mut grid = [[0; MAX_BOARDS]; MAX_BOARDS - 1];
    let mut column = [0; MAX_BOARDS];
    for i in k..d {
        for b in 0..k {
            column[b] = gs[b][i];
        }
        interpolate(xs, &mut column[..k]);
        grid[i][..k].copy_from_slice(&column[..k]);
    }
    for j in 0..d + r {
        for b in 0..k {
            column[b] = fs[b][j] ^ upper(sizes, &grid, j, xs[b]);
        }
        interpolate(xs, &mut column[..k]);
        for i in 0..k {
            grid[i][j] = column[i];
        }
    }
    grid
}

/// What the rows from k on add to column j at a point.
fn upper(sizes: Sizes, grid: &Grid, j: usize, x: u8) -> u8 {
    let mut sum = 0;
    if j < sizes.k {
        for row in grid[..sizes.d].iter().rev() {
            sum = multiply(sum, x) ^ row[j];
        }
    }
    sum
}

/// Whether k boards hold symbols of one stripe: each f and each other g have the same value where they meet.
fn agree(sizes: Sizes, xs: &[u8], fs: &[Row], gs: &[Row]) -> bool {
    let Sizes { k, d, r, .. } = sizes;
    (0..k).all(|i| (0..k).all(|j| i == j || value(&fs[i][..d + r], xs[j]) == value(&gs[j][..d], xs[i])))
}

/// The stripe's bytes that k boards hold, into `out`, padding included. False where no stripe has these symbols.
pub fn decode(sizes: Sizes, points: &[Row], held: &[&[u8]], out: &mut [u8]) -> bool {
    let mut xs = [0; MAX_BOARDS];
    let mut fs = [[0; MAX_BOARDS]; MAX_BOARDS];
    let mut gs = [[0; MAX_BOARDS]; MAX_BOARDS];
    for b in 0..sizes.k {
        xs[b] = points[b][0];
        (fs[b], gs[b]) = own_from_symbols(sizes, &points[b], held[b]);
    }
    if !agree(sizes, &xs, &fs, &gs) {
        return false;
    }
    let grid = solve(sizes, &xs[..sizes.k], &fs, &gs);
    for ((i, j), byte) in places(sizes).zip(out) {
        *byte = grid[i][j];
    }
    true
}
