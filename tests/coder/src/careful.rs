//! The coder's own model of a careful read (request A.11 of document 02), over any record and any area, by linear algebra. What k + 2 boards keep of a
//! stripe is a list of bytes of which certain sums are 00 whatever the stripe is: the checks, found by elimination. Where all are 00 in all stripes, all
//! boards hold shares of one file. Where some are not, one board alone may be wrong just where bytes that are put right on it, and on no other, make
//! them 00 in every stripe. In a last stripe that is cut the bytes behind the file's end are no unknowns, so that the padding counts.

use crate::call::refusal::{COUNT, DISAGREE, EMPTY, SHORT};
use crate::call::{Lent, Outcome};
use crate::code::{self, Held, Sizes};
use crate::matrix::Matrix;
use crate::store;
use std::ops::Range;

/// What k + 2 boards tell: the file of which at least k + 1 of them hold their shares, and the place in their list of the one that does not.
#[derive(Clone, Debug, PartialEq, Eq)]
pub struct Told {
    pub file: Vec<u8>,
    pub odd: Option<usize>,
}

/// "Add a careful read of k + 2 boards"; "Where k + 2 exceeds n, COUNT."
pub fn read(boards: &[usize], lent: &Lent) -> Result<Outcome, u8> {
    let (record, _) = store::opened(lent)?;
    if !record.written {
        return Err(EMPTY);
    }
    let Sizes { n, k, .. } = record.sizes;
    if k + 2 > n {
        return Err(COUNT);
    }
    store::check_readers(&record, k + 2, boards)?;
    if lent.out.len() < record.length {
        return Err(SHORT);
    }
    let shares: Vec<u8> = boards.iter().flat_map(|&board| lent.area[record.share(board)].to_vec()).collect();
    let told = told(record.sizes, &record.points, record.length, boards, &[&shares]).pop().expect("one for each list");
    Ok(given(boards, &told.ok_or(DISAGREE)?, lent))
}

/// What a careful read leaves and reports of what the boards tell: "the odd board's number or none".
pub fn given(boards: &[usize], told: &Told, lent: &Lent) -> Outcome {
    let mut after = lent.clone();
    after.out[..told.file.len()].copy_from_slice(&told.file);
    Outcome::accepted(told.odd.map_or(0, |place| boards[place] + 1), after)
}

/// What these boards tell by each list of their shares, one after another in the order of the boards; none where no file has k + 1 of them.
pub fn told(sizes: Sizes, points: &[u8], length: usize, boards: &[usize], lists: &[&[u8]]) -> Vec<Option<Told>> {
    let file_of_all = code::files(sizes, points, length, boards, lists);
    let told = |file: Option<Vec<u8>>| file.map(|file| Told { file, odd: None });
    let mut all: Vec<Option<Told>> = file_of_all.into_iter().map(told).collect();
    let left: Vec<usize> = (0..lists.len()).filter(|&list| all[list].is_none()).collect();
    if left.is_empty() {
        return all;
    }
    let asked: Vec<&[u8]> = left.iter().map(|&list| lists[list]).collect();
    let right = put_right(sizes, points, length, boards, &asked);
    let (found, righted): (Vec<(usize, usize)>, Vec<&[u8]>) = left
        .iter()
        .zip(&right)
        .filter_map(|(&list, right)| right.as_ref().map(|(odd, shares)| ((list, *odd), &shares[..])))
        .unzip();
    // the file by all boards, once the odd one is put right
    let files = code::files(sizes, points, length, boards, &righted);
    for ((list, odd), file) in found.into_iter().zip(files) {
        let file = file.unwrap_or_else(|| panic!("{sizes:?}: boards {boards:?} are put right and hold no file"));
        all[list] = Some(Told { file, odd: Some(odd) });
    }
    all
}

/// For each list of shares that are not all of one file, the place of the one board that can be wrong, and the shares with its bytes put right.
fn put_right(
    sizes: Sizes,
    points: &[u8],
    length: usize,
    boards: &[usize],
    lists: &[&[u8]],
) -> Vec<Option<(usize, Vec<u8>)>> {
    let whole = length / sizes.stripe_len();
    let equations = code::equations(sizes, points, boards);
    let mut parts = Vec::new();
    if whole > 0 {
        parts.push(Part::of(sizes, &equations, sizes.stripe_len(), boards.len(), 0..whole, lists));
    }
    if length > whole * sizes.stripe_len() {
        let rest = length - whole * sizes.stripe_len();
        parts.push(Part::of(sizes, &equations, rest, boards.len(), whole..whole + 1, lists));
    }
    let of_list = |list: usize| {
        let mut can_be = (0..boards.len()).filter(|&board| parts.iter().all(|part| part.explained(list, board)));
        let odd = can_be.next()?;
        // "two files never both qualify"
        assert_eq!(can_be.next(), None, "{sizes:?}: two of boards {boards:?} could each be the odd one");
        let mut shares = lists[list].to_vec();
        for part in &parts {
            part.put_right(list, odd, sizes, &mut shares);
        }
        Some((odd, shares))
    };
    (0..lists.len()).map(of_list).collect()
}

/// Some stripes, of which the file has so many bytes each.
struct Part {
    stripes: Range<usize>,
    /// of each list, the columns of its stripes
    asked: Vec<Vec<usize>>,
    /// of each board, by columns: what is added to its bytes to make all checks 00; none where nothing does
    added: Vec<Vec<Option<Vec<u8>>>>,
}

impl Part {
    fn of(
        sizes: Sizes,
        equations: &Matrix,
        bytes: usize,
        boards: usize,
        stripes: Range<usize>,
        lists: &[&[u8]],
    ) -> Part {
        let Held { columns, asked } = Held::of(sizes, boards, stripes.clone(), lists);
        let (width, rows) = (sizes.share_len(), boards * sizes.share_len());
        // the sums that are 00 whatever the stripe is, a row for each
        let kept = Matrix::new(bytes, rows, |byte, row| equations.at(row, byte));
        let checks = kept.kernel();
        let checks = Matrix::new(checks.len(), rows, |check, row| checks[check][row]);
        let sums = checks.times(&columns);
        let of_board = |board: usize| {
            let own = Matrix::new(checks.rows(), width, |check, place| checks.at(check, board * width + place));
            let Some(added) = own.solve_each(&sums) else {
                panic!("{sizes:?}: the checks do not settle a board's bytes")
            };
            added
        };
        Part { stripes, asked, added: (0..boards).map(of_board).collect() }
    }

    fn explained(&self, list: usize, board: usize) -> bool {
        self.asked[list].iter().all(|&column| self.added[board][column].is_some())
    }

    fn put_right(&self, list: usize, board: usize, sizes: Sizes, shares: &mut [u8]) {
        let (width, share_len) = (sizes.share_len(), shares.len() / self.added.len());
        for (s, &column) in self.stripes.clone().zip(&self.asked[list]) {
            let held = &mut shares[board * share_len + s * width..][..width];
            let added = self.added[board][column].as_ref().expect("the board explains it");
            held.iter_mut().zip(added).for_each(|(byte, added)| *byte ^= added);
        }
    }
}
