//! The code of document 01 by linear algebra, at any points (request A.9). A share is a matrix times the stripe, the matrix by direct evaluation of
//! F's monomials at the board's points. Reading solves that linear system. What a helper or a fresh board sends, and what a fresh board keeps, are fixed sums of
//! the bytes it has; the factors of each sum are the solution of a linear system too. Nothing is interpolated.

use crate::field::FIELD;
use crate::matrix::Matrix;
use std::collections::HashMap;
use std::ops::Range;

pub const MAX_BOARDS: usize = 32;
pub const MAX_STRIPES: usize = 4096;

/// n boards, k read, d helpers, at most r fresh boards; legal or not.
#[derive(Clone, Copy, Debug, PartialEq, Eq)]
pub struct Sizes {
    pub n: usize,
    pub k: usize,
    pub d: usize,
    pub r: usize,
}

impl Sizes {
    pub fn new(n: usize, k: usize, d: usize, r: usize) -> Sizes {
        Sizes { n, k, d, r }
    }

    /// "1 ≤ k ≤ d, r ≥ 1, d + r ≤ n ≤ 32", over the integers.
    pub fn legal(self) -> bool {
        let sum = self.d as u128 + self.r as u128;
        1 <= self.k && self.k <= self.d && self.r >= 1 && sum <= self.n as u128 && self.n <= MAX_BOARDS
    }

    /// α: "A share has α = 2d + r − 1 bytes per stripe".
    pub fn share_len(self) -> usize {
        2 * self.d + self.r - 1
    }

    /// B: "a stripe carries B = k(2d + r − k) file bytes".
    pub fn stripe_len(self) -> usize {
        self.k * (2 * self.d + self.r - self.k)
    }

    /// S: "the least number with S × B ≥ L".
    pub fn stripes(self, length: usize) -> usize {
        (0..).find(|&s| s * self.stripe_len() >= length).expect("some number is large enough")
    }

    /// "L may be 0 to 4,096 × B."
    pub fn longest(self) -> usize {
        MAX_STRIPES * self.stripe_len()
    }

    /// The powers of X and of Y of the stripe's bytes, in document 01's order.
    fn monomials(self) -> Vec<(usize, usize)> {
        let Sizes { k, d, r, .. } = self;
        let mut list = Vec::new();
        for i in 0..k {
            list.extend((0..k).map(|j| (i, j)));
        }
        for i in 0..k {
            list.extend((k..d + r).map(|j| (i, j)));
        }
        for i in k..d {
            list.extend((0..k).map(|j| (i, j)));
        }
        list
    }

    /// The places (x, y) at which a board keeps values of F: its neighbours are those that follow it by number, modulo n.
    fn places(self, points: &[u8], board: usize) -> Vec<(u8, u8)> {
        let point = |t: usize| points[(board + t) % self.n];
        let own = points[board];
        let row = (0..self.d + self.r).map(|t| (own, point(t)));
        let column = (1..self.d).map(|t| (point(t), own));
        row.chain(column).collect()
    }
}

/// F's monomials at places (x, y): a row for each place, a column for each byte of the stripe.
fn evaluated(sizes: Sizes, places: &[(u8, u8)]) -> Matrix {
    let monomials = sizes.monomials();
    Matrix::new(places.len(), monomials.len(), |t, m| {
        let ((x, y), (i, j)) = (places[t], monomials[m]);
        FIELD.product(FIELD.power(x, i), FIELD.power(y, j))
    })
}

/// The matrix that makes a board's share of a stripe: a row for each byte kept, a column for each byte of the stripe.
pub fn generator(sizes: Sizes, points: &[u8], board: usize) -> Matrix {
    evaluated(sizes, &sizes.places(points, board))
}

/// The same for all boards.
pub fn generators(sizes: Sizes, points: &[u8]) -> Vec<Matrix> {
    (0..sizes.n).map(|board| generator(sizes, points, board)).collect()
}

/// F's values at places (x, y), for each of them as many bytes as a file has stripes.
pub fn values(sizes: Sizes, file: &[u8], places: &[(u8, u8)]) -> Vec<Vec<u8>> {
    let values = evaluated(sizes, places).times(&stripes_of(sizes, file));
    (0..places.len()).map(|place| values.row(place).to_vec()).collect()
}

/// A file's stripes, each a column, the last filled up with 00.
fn stripes_of(sizes: Sizes, file: &[u8]) -> Matrix {
    let length = sizes.stripe_len();
    Matrix::new(length, sizes.stripes(file.len()), |t, s| file.get(s * length + t).copied().unwrap_or(0))
}

/// Pieces of `width` bytes, one for each stripe, as the columns of a matrix.
fn columns_of(bytes: &[u8], width: usize) -> Matrix {
    Matrix::new(width, bytes.len() / width, |t, s| bytes[s * width + t])
}

/// The columns of a matrix, one after another.
fn joined(matrix: &Matrix) -> Vec<u8> {
    let turned = matrix.transposed();
    (0..matrix.columns()).flat_map(|s| turned.row(s).to_vec()).collect()
}

/// A board's share of a file, by a generator that is at hand.
pub fn share_by(sizes: Sizes, generator: &Matrix, file: &[u8]) -> Vec<u8> {
    joined(&generator.times(&stripes_of(sizes, file)))
}

/// A board's share of a file.
pub fn share(sizes: Sizes, points: &[u8], board: usize, file: &[u8]) -> Vec<u8> {
    share_by(sizes, &generator(sizes, points, board), file)
}

/// What boards keep of a stripe, as equations: the rows of their generators, one board after another.
pub fn equations(sizes: Sizes, points: &[u8], boards: &[usize]) -> Matrix {
    let width = sizes.share_len();
    let each: Vec<Matrix> = boards.iter().map(|&board| generator(sizes, points, board)).collect();
    Matrix::new(boards.len() * width, sizes.stripe_len(), |e, m| each[e / width].at(e % width, m))
}

/// The file of `length` bytes that has these shares, one after another in the order of the boards; none where no file has them.
pub fn file(sizes: Sizes, points: &[u8], length: usize, boards: &[usize], shares: &[u8]) -> Option<Vec<u8>> {
    files(sizes, points, length, boards, &[shares]).pop().expect("an answer for each list of shares")
}

/// The same for several lists of shares of the same boards.
pub fn files(sizes: Sizes, points: &[u8], length: usize, boards: &[usize], lists: &[&[u8]]) -> Vec<Option<Vec<u8>>> {
    let stripes = sizes.stripes(length);
    if stripes == 0 {
        return vec![Some(Vec::new()); lists.len()];
    }
    let held = Held::of(sizes, boards.len(), 0..stripes, lists);
    let Some(solved) = equations(sizes, points, boards).solve_each(&held.columns) else {
        panic!("{sizes:?}: the shares of boards {boards:?} do not settle a stripe")
    };
    let whole = |stripes: &Vec<usize>| {
        let stripes: Option<Vec<&[u8]>> = stripes.iter().map(|&place| solved[place].as_deref()).collect();
        let mut bytes = stripes?.concat();
        let padding = bytes.split_off(length);
        padding.iter().all(|&byte| byte == 0).then_some(bytes)
    };
    held.asked.iter().map(whole).collect()
}

/// What boards hold of some stripes, in several lists of their shares: of each stripe the boards' bytes one below another, as a column. Stripes that are
/// alike have one, so that they are solved once.
pub struct Held {
    pub columns: Matrix,
    /// of each list, the column of each of the stripes
    pub asked: Vec<Vec<usize>>,
}

impl Held {
    pub fn of(sizes: Sizes, boards: usize, stripes: Range<usize>, lists: &[&[u8]]) -> Held {
        let width = sizes.share_len();
        let mut places = HashMap::new();
        let mut columns: Vec<Vec<u8>> = Vec::new();
        let mut place_of = |list: &[u8], s: usize| {
            let share_len = list.len() / boards;
            let held = |board: usize| &list[board * share_len + s * width..][..width];
            let column: Vec<u8> = (0..boards).flat_map(held).copied().collect();
            *places.entry(column).or_insert_with_key(|column| {
                columns.push(column.clone());
                columns.len() - 1
            })
        };
        let asked = lists.iter().map(|list| stripes.clone().map(|s| place_of(list, s)).collect()).collect();
        Held { columns: Matrix::new(boards * width, columns.len(), |e, column| columns[column][e]), asked }
    }
}

/// For each target, the factors by which a polynomial of degree below the number of points has its value there as a sum of its values at the
/// points: they are what makes the sum right for 1, X, X², and so on. A row for each target, a column for each point.
fn factors(points: &[u8], targets: &[u8]) -> Matrix {
    let powers = |at: &[u8]| Matrix::new(points.len(), at.len(), |e, t| FIELD.power(at[t], e));
    match powers(points).solve(&powers(targets)) {
        Some(found) => found.transposed(),
        None => panic!("the points {points:?} are not all different"),
    }
}

/// The points of some boards.
fn of(points: &[u8], boards: &[usize]) -> Vec<u8> {
    boards.iter().map(|&board| points[board]).collect()
}

/// The sums of what a board keeps at these points that are values of its own f and g at others: a row for each of f's, then one for each of g's.
fn own_values(sizes: Sizes, points: &[u8], board: usize, of_f: &[u8], of_g: &[u8]) -> Matrix {
    let Sizes { d, r, .. } = sizes;
    let kept = sizes.places(points, board);
    let ys: Vec<u8> = kept[..d + r].iter().map(|&(_, y)| y).collect();
    // g's values: byte 0, then the last d − 1
    let kept_of_g: Vec<usize> = (0..d).map(|t| if t == 0 { 0 } else { d + r + t - 1 }).collect();
    let xs: Vec<u8> = kept_of_g.iter().map(|&place| kept[place].0).collect();
    let by_f = factors(&ys, of_f);
    let by_g = factors(&xs, of_g);
    Matrix::new(of_f.len() + of_g.len(), sizes.share_len(), |row, place| match row.checked_sub(of_f.len()) {
        None if place < d + r => by_f.at(row, place),
        None => 0,
        Some(row) => kept_of_g.iter().position(|&p| p == place).map_or(0, |t| by_g.at(row, t)),
    })
}

/// What a helper sends to a board at a point, from any bytes that it keeps at these points in the place of its share: first F(x_helper, y_receiver), a
/// value of the helper's f, then F(x_receiver, y_helper), one of its g.
pub fn packet_to(sizes: Sizes, points: &[u8], helper: usize, receiver: u8, share: &[u8]) -> Vec<u8> {
    let sums = own_values(sizes, points, helper, &[receiver], &[receiver]);
    joined(&sums.times(&columns_of(share, sizes.share_len())))
}

/// What `helper` sends to `receiver`, from any bytes in the place of its share.
pub fn helper_packet(sizes: Sizes, points: &[u8], helper: usize, receiver: usize, share: &[u8]) -> Vec<u8> {
    packet_to(sizes, points, helper, points[receiver], share)
}

/// What a board keeps at other points, its own the same, from any bytes that it keeps at these: all values of its f and g anew.
pub fn afresh(sizes: Sizes, points: &[u8], others: &[u8], board: usize, share: &[u8]) -> Vec<u8> {
    assert_eq!(points[board], others[board], "f and g are those of a board at one point");
    let wanted = sizes.places(others, board);
    let (of_f, of_g) = wanted.split_at(sizes.d + sizes.r);
    let of_f: Vec<u8> = of_f.iter().map(|&(_, y)| y).collect();
    let of_g: Vec<u8> = of_g.iter().map(|&(x, _)| x).collect();
    let sums = own_values(sizes, points, board, &of_f, &of_g);
    joined(&sums.times(&columns_of(share, sizes.share_len())))
}

/// What a stand-in sends to `receiver`: "only F(x_i, y_s), the second bytes of its helper packet".
pub fn stand_in_packet(sizes: Sizes, points: &[u8], stand_in: usize, receiver: usize, share: &[u8]) -> Vec<u8> {
    seconds_of(helper_packet(sizes, points, stand_in, receiver, share))
}

/// The second bytes of a helper packet.
pub fn seconds_of(packet: Vec<u8>) -> Vec<u8> {
    packet.into_iter().skip(1).step_by(2).collect()
}

/// The packets of helpers, one after another, as a matrix: a row for each helper, `which` of each pair, a column for each stripe.
fn of_pairs(packets: &[u8], helpers: usize, which: usize) -> Matrix {
    let stripes = packets.len() / helpers / 2;
    Matrix::new(helpers, stripes, |h, s| packets[2 * (h * stripes + s) + which])
}

/// What a fresh board sends to `receiver`, from any bytes in the place of its helpers' packets: g's value at the receiver's point, g being
/// settled by the first bytes at the helpers' points.
pub fn exchange_packet(points: &[u8], helpers: &[usize], packets: &[u8], receiver: usize) -> Vec<u8> {
    joined(&factors(&of(points, helpers), &[points[receiver]]).times(&of_pairs(packets, helpers.len(), 0)))
}

/// What a fresh board keeps, from any bytes in the place of its helpers' and partners' packets.
pub fn finished_share(
    sizes: Sizes,
    points: &[u8],
    board: usize,
    helpers: &[usize],
    packets: &[u8],
    partners: &[usize],
    partner_packets: &[u8],
) -> Vec<u8> {
    let Sizes { d, r, .. } = sizes;
    let firsts = of_pairs(packets, d, 0);
    let seconds = of_pairs(packets, d, 1);
    let stripes = firsts.columns();
    let own = factors(&of(points, helpers), &[points[board]]).times(&firsts);
    // f's values at the helpers' points, the partners', and its own
    let known = Matrix::new(d + r, stripes, |t, s| match t {
        t if t < d => seconds.at(t, s),
        t if t < d + r - 1 => partner_packets[(t - d) * stripes + s],
        _ => own.at(0, s),
    });
    let at = of(points, &[helpers, partners, &[board]].concat());
    let kept = sizes.places(points, board);
    let ys: Vec<u8> = kept[..d + r].iter().map(|&(_, y)| y).collect();
    let xs: Vec<u8> = kept[d + r..].iter().map(|&(x, _)| x).collect();
    let by_f = factors(&at, &ys).times(&known);
    let by_g = factors(&of(points, helpers), &xs).times(&firsts);
    let share =
        Matrix::new(sizes.share_len(), stripes, |t, s| if t < d + r { by_f.at(t, s) } else { by_g.at(t - d - r, s) });
    joined(&share)
}

/// "lower-case hexadecimal pairs".
pub fn pairs(bytes: &[u8]) -> String {
    let digit = |value: u8| char::from(b"0123456789abcdef"[usize::from(value)]);
    bytes.iter().flat_map(|byte| [digit(byte / 16), digit(byte % 16)]).collect()
}

/// A share as text: "Seven lines, each ended by byte 0A", and "the line points=, n lower-case pairs, after length= just where the points are not 0 to
/// n − 1 in order".
pub fn share_text(sizes: Sizes, points: &[u8], length: usize, node: usize, share: &[u8]) -> Vec<u8> {
    let Sizes { n, k, d, r } = sizes;
    let numbers = [("n", n), ("k", k), ("d", d), ("r", r), ("node", node), ("length", length)];
    let mut lines: Vec<String> = numbers.iter().map(|(name, number)| format!("{name}={number}\n")).collect();
    let in_order = points[..n].iter().map(|&point| usize::from(point)).eq(0..n);
    if !in_order {
        lines.push(format!("points={}\n", pairs(&points[..n])));
    }
    lines.push(format!("data={}\n", pairs(share)));
    lines.concat().into_bytes()
}
