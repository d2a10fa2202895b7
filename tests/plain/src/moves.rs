//! A board moved to another point (request A.10): the other boards work out afresh what they keep at its point, and it is rebuilt at its new one.

use crate::running;
use crate::sizes::{refuse_if, repeats, Refusal, Sizes};
use crate::store::{put_points, rebuild, Named, Record, POINTS};
use crate::stripe::{self, neighbours};

/// Moves a board to a point that no board has, and reports the bytes that it is sent. No byte that it holds is read.
pub fn move_board(
    words: &mut [u64],
    repair: &[u64],
    area: &mut [u8],
    board: usize,
    point: u8,
    helpers: &[usize],
    partners: &[usize],
) -> Result<usize, Refusal> {
    let record = Record::with_area(words, repair, area)?;
    check_move(&record, repair, board, point, helpers, partners)?;
    let mut moved = record;
    moved.points[board] = point;
    work_afresh(&record, area, board, point);
    let sent = rebuild(&moved, area, Named { fresh: &[board], helpers, stand_ins: partners });
    put_points(&mut words[POINTS..], &moved.points);
    Ok(sent)
}

/// What a move is asked, behind AREA.
fn check_move(
    record: &Record,
    repair: &[u64],
    board: usize,
    point: u8,
    helpers: &[usize],
    partners: &[usize],
) -> Result<(), Refusal> {
    let Sizes { n, d, r, .. } = record.sizes;
    refuse_if(!record.written, Refusal::Empty)?;
    refuse_if(running::runs(repair), Refusal::Busy)?;
    refuse_if(helpers.len() != d, Refusal::Count)?;
    refuse_if(partners.len() != r - 1, Refusal::Count)?;
    let named = || helpers.iter().chain(partners).copied().chain([board]);
    refuse_if(named().any(|named| named >= n), Refusal::Node)?;
    refuse_if(repeats(named()), Refusal::Repeat)?;
    refuse_if(record.points[..n].contains(&point), Refusal::Repeat)?;
    refuse_if((0..n).any(|any| record.down(&[any])), Refusal::Down)
}

/// The values that the other boards keep at the moved board's point, each of its own f and g by the points as they were: of f where the board is among
/// the first d + r that follow it, of g where it is among the first d.
fn work_afresh(record: &Record, area: &mut [u8], board: usize, point: u8) {
    let Record { sizes, ref points, .. } = *record;
    let Sizes { n, d, r, .. } = sizes;
    for other in (0..n).filter(|&other| other != board) {
        let near = neighbours(sizes, points, other);
        // which of those that follow it, modulo n, is the moved board
        let t = (n + board - other) % n;
        for held in record.share_mut(area, other).chunks_mut(sizes.share_len()) {
            let [of_f, of_g] = stripe::help(sizes, &near, held, point);
            if t < d + r {
                held[t] = of_f;
            }
            if t < d {
                held[d + r + t - 1] = of_g;
            }
        }
    }
}
