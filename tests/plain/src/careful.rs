//! The careful read: the file from k + 2 boards of which one may answer wrong bytes.

use crate::board;
use crate::sizes::{refuse_if, Refusal};
use crate::store::Record;

/// Reads the file of which at least k + 1 of the k + 2 boards hold their shares. Reports 0 where all hold them, else the number of the one that does
/// not, plus 1.
pub fn read(words: &[u64], repair: &[u64], area: &[u8], boards: &[usize], out: &mut [u8]) -> Result<usize, Refusal> {
    let record = Record::with_area(words, repair, area)?;
    refuse_if(!record.written, Refusal::Empty)?;
    let count = record.sizes.k + 2;
    refuse_if(count > record.sizes.n, Refusal::Count)?;
    record.check_readers(count, boards)?;
    refuse_if(out.len() < record.length, Refusal::Short)?;
    let (file, odd) = agreed(&record, area, boards)?;
    out[..file.len()].copy_from_slice(&file);
    Ok(odd.map_or(0, |board| board + 1))
}

/// The file of which all the boards but at most one hold their shares, and that one if there is one: each board is left out in turn, and the first k
/// of the others are tried. Two files never pass, since their boards have k in common.
fn agreed(record: &Record, area: &[u8], boards: &[usize]) -> Result<(Vec<u8>, Option<usize>), Refusal> {
    for left_out in 0..boards.len() {
        let others = [&boards[..left_out], &boards[left_out + 1..]].concat();
        let Ok(file) = record.file(area, &others[..record.sizes.k]) else { continue };
        let wrong: Vec<usize> = boards.iter().copied().filter(|&board| !holds(record, area, &file, board)).collect();
        if wrong.len() <= 1 {
            return Ok((file, wrong.first().copied()));
        }
    }
    Err(Refusal::Disagree)
}

/// Whether a board holds its share of a file: all stripes, the last one filled up with 00.
fn holds(record: &Record, area: &[u8], file: &[u8], board: usize) -> bool {
    let mut share = vec![0; record.share_len()];
    board::share(record.sizes, &record.points, board, file, &mut share).is_ok() && share == record.share(area, board)
}
