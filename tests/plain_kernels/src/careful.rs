//! The file from k + 2 boards of which one may be wrong. Two of them are left out at a time, so that each is left out once: where the k others agree, pair by
//! pair, the stripes that they give are encoded for the two, and one of these at least must hold its share.

use crate::encode::Encoder;
use crate::read::{all_agree, Decoder, Factors, Kept};
use crate::{Points, Sizes};

/// The places that are left out in turn: the last two, the two before them, and so on, with the first two at the end.
fn left_out(k: usize) -> impl Iterator<Item = [usize; 2]> {
    (0..=k.div_ceil(2)).map(move |turn| k.saturating_sub(2 * turn)).map(|place| [place, place + 1])
}

/// The file of as many bytes as `out` has of which at least k + 1 of these k + 2 boards hold their shares: 0, or the number of the one that does not, plus
/// 1. None where there is no such file, and then nothing is written.
pub fn read_careful(sizes: Sizes, points: &Points, boards: &[usize], area: &[u8], out: &mut [u8]) -> Option<usize> {
    left_out(sizes.k).find_map(|others| one_try(sizes, points, boards, others, area, out))
}

/// What the k boards at the other places give, where they agree and one of the two that are left out holds its share of it.
fn one_try(
    sizes: Sizes,
    points: &Points,
    boards: &[usize],
    others: [usize; 2],
    area: &[u8],
    out: &mut [u8],
) -> Option<usize> {
    let tried: Vec<usize> = (0..boards.len()).filter(|place| !others.contains(place)).map(|at| boards[at]).collect();
    let stripes = sizes.stripes(out.len());
    let factors = Factors::new(sizes, points, &tried);
    let mut kept = Kept::new(sizes);
    if !all_agree(sizes, &tried, &factors, &mut kept, area, stripes) {
        return None;
    }
    let mut decoder = Decoder::new(sizes, points, &tried, &factors);
    let mut encoder = Encoder::new(sizes, points);
    let (stripe, width, board_len) = (sizes.stripe_len(), sizes.share_len(), area.len() / sizes.n);
    let (mut bytes, mut due) = (vec![0; stripe], vec![0; width]);
    let two = others.map(|place| boards[place]);
    let mut holds = [true; 2];
    for s in 0..stripes {
        kept.take(sizes, &tried, area, s);
        decoder.decode(&kept, &mut bytes);
        let of_file = stripe.min(out.len() - s * stripe);
        if bytes[of_file..].iter().any(|&byte| byte != 0) {
            return None;
        }
        encoder.take(&bytes);
        for (holds, board) in holds.iter_mut().zip(two) {
            if *holds {
                encoder.kept(board, &mut due);
                *holds = area[board * board_len + s * width..][..width] == due;
            }
        }
        if holds == [false; 2] {
            return None;
        }
    }
    for (s, part) in out.chunks_mut(stripe).enumerate() {
        kept.take(sizes, &tried, area, s);
        decoder.decode(&kept, &mut bytes);
        part.copy_from_slice(&bytes[..part.len()]);
    }
    Some(holds.into_iter().zip(two).find(|(holds, _)| !holds).map_or(0, |(_, board)| board + 1))
}
