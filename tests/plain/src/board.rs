//! The six board-level calls. Each answers the number of bytes it wrote.

use crate::polynomial::value;
use crate::sizes::{pointed, refuse_if, repeats, Points, Refusal, Sizes, MAX_BOARDS, MAX_STRIPES};
use crate::stripe::{self, neighbours, Row};

/// The points, where they and the sizes are legal and the file is not too long.
fn check_length(sizes: Sizes, points: &[u8], length: usize) -> Result<Points, Refusal> {
    let points = pointed(sizes, points)?;
    refuse_if(length > MAX_STRIPES * sizes.stripe_len(), Refusal::Long)?;
    Ok(points)
}

fn check_boards(sizes: Sizes, named: impl Iterator<Item = usize> + Clone) -> Result<(), Refusal> {
    refuse_if(named.clone().any(|b| b >= sizes.n), Refusal::Node)?;
    refuse_if(repeats(named), Refusal::Repeat)
}

/// One share of a file.
pub fn share(sizes: Sizes, points: &[u8], node: usize, file: &[u8], out: &mut [u8]) -> Result<usize, Refusal> {
    let points = check_length(sizes, points, file.len())?;
    refuse_if(node >= sizes.n, Refusal::Node)?;
    let count = sizes.stripes(file.len()) * sizes.share_len();
    refuse_if(out.len() < count, Refusal::Short)?;
    let near = neighbours(sizes, &points, node);
    for (bytes, held) in file.chunks(sizes.stripe_len()).zip(out.chunks_mut(sizes.share_len())) {
        stripe::encode(sizes, &stripe::fill(sizes, bytes), &near, held);
    }
    Ok(count)
}

/// The file of `length` bytes that k shares hold, each a slice of its own, with no checks but DISAGREE.
pub fn decode(
    sizes: Sizes,
    points: &Points,
    length: usize,
    boards: &[usize],
    shares: &[&[u8]],
) -> Result<Vec<u8>, Refusal> {
    let mut near = [[0; MAX_BOARDS]; MAX_BOARDS];
    for (near, &board) in near.iter_mut().zip(boards) {
        *near = neighbours(sizes, points, board);
    }
    let mut file = vec![0; sizes.stripes(length) * sizes.stripe_len()];
    let mut held: [&[u8]; MAX_BOARDS] = [&[]; MAX_BOARDS];
    for (s, bytes) in file.chunks_mut(sizes.stripe_len()).enumerate() {
        for (held, share) in held.iter_mut().zip(shares) {
            *held = &share[s * sizes.share_len()..][..sizes.share_len()];
        }
        refuse_if(!stripe::decode(sizes, &near, &held, bytes), Refusal::Disagree)?;
    }
    refuse_if(file[length..].iter().any(|&byte| byte != 0), Refusal::Disagree)?;
    file.truncate(length);
    Ok(file)
}

/// A file from k shares.
pub fn file(
    sizes: Sizes,
    points: &[u8],
    length: usize,
    boards: &[usize],
    shares: &[u8],
    out: &mut [u8],
) -> Result<usize, Refusal> {
    let points = check_length(sizes, points, length)?;
    refuse_if(boards.len() != sizes.k, Refusal::Count)?;
    check_boards(sizes, boards.iter().copied())?;
    let share_len = sizes.stripes(length) * sizes.share_len();
    refuse_if(shares.len() != sizes.k * share_len, Refusal::Area)?;
    refuse_if(out.len() < length, Refusal::Short)?;
    let mut each: [&[u8]; MAX_BOARDS] = [&[]; MAX_BOARDS];
    for (b, each) in each[..sizes.k].iter_mut().enumerate() {
        *each = &shares[b * share_len..][..share_len];
    }
    out[..length].copy_from_slice(&decode(sizes, &points, length, boards, &each[..sizes.k])?);
    Ok(length)
}

/// A helper packet, with no checks: `out` has its length.
pub fn help(sizes: Sizes, points: &Points, helper: usize, receiver: usize, share: &[u8], out: &mut [u8]) {
    let near = neighbours(sizes, points, helper);
    for (held, pair) in share.chunks(sizes.share_len()).zip(out.chunks_mut(2)) {
        pair.copy_from_slice(&stripe::help(sizes, &near, held, points[receiver]));
    }
}

/// A stand-in's packet, with no checks: `out` has its length.
pub fn stand_in(sizes: Sizes, points: &Points, stand_in: usize, receiver: usize, share: &[u8], out: &mut [u8]) {
    let near = neighbours(sizes, points, stand_in);
    for (held, byte) in share.chunks(sizes.share_len()).zip(out) {
        *byte = stripe::stand_in(sizes, &near, held, points[receiver]);
    }
}

/// A helper packet for another board.
pub fn helper_packet(
    sizes: Sizes,
    points: &[u8],
    length: usize,
    helper: usize,
    receiver: usize,
    share: &[u8],
    out: &mut [u8],
) -> Result<usize, Refusal> {
    let points = check_length(sizes, points, length)?;
    check_boards(sizes, [helper, receiver].into_iter())?;
    let stripes = sizes.stripes(length);
    refuse_if(share.len() != stripes * sizes.share_len(), Refusal::Area)?;
    refuse_if(out.len() < 2 * stripes, Refusal::Short)?;
    help(sizes, &points, helper, receiver, share, &mut out[..2 * stripes]);
    Ok(2 * stripes)
}

/// The points of a list of boards.
fn points_of(points: &Points, boards: &[usize]) -> Row {
    let mut row = [0; MAX_BOARDS];
    for (point, &board) in row.iter_mut().zip(boards) {
        *point = points[board];
    }
    row
}

/// g of a fresh board in each stripe, from its helpers' packets.
pub fn all_g(sizes: Sizes, points: &Points, helpers: &[usize], packets: &[u8], stripes: usize) -> Vec<Row> {
    let at = points_of(points, helpers);
    let first = |h: usize, s: usize| packets[2 * (h * stripes + s)];
    (0..stripes).map(|s| stripe::own_g(&at[..sizes.d], (0..sizes.d).map(|h| first(h, s)))).collect()
}

/// An exchange packet of a board with this g in each stripe.
pub fn exchange(sizes: Sizes, points: &Points, gs: &[Row], receiver: usize, out: &mut [u8]) {
    for (byte, g) in out.iter_mut().zip(gs) {
        *byte = value(&g[..sizes.d], points[receiver]);
    }
}

/// An exchange packet, from a board, its helpers and their packets, for a receiver.
#[allow(clippy::too_many_arguments)]
pub fn exchange_packet(
    sizes: Sizes,
    points: &[u8],
    length: usize,
    board: usize,
    helpers: &[usize],
    packets: &[u8],
    receiver: usize,
    out: &mut [u8],
) -> Result<usize, Refusal> {
    let points = check_length(sizes, points, length)?;
    refuse_if(helpers.len() != sizes.d, Refusal::Count)?;
    check_boards(sizes, helpers.iter().copied().chain([board, receiver]))?;
    let stripes = sizes.stripes(length);
    refuse_if(packets.len() != sizes.d * 2 * stripes, Refusal::Area)?;
    refuse_if(out.len() < stripes, Refusal::Short)?;
    let gs = all_g(sizes, &points, helpers, packets, stripes);
    exchange(sizes, &points, &gs, receiver, &mut out[..stripes]);
    Ok(stripes)
}

/// A finished share of a board with this g in each stripe, with no checks: `out` has its length.
#[allow(clippy::too_many_arguments)]
pub fn finish(
    sizes: Sizes,
    points: &Points,
    board: usize,
    gs: &[Row],
    helpers: &[usize],
    packets: &[u8],
    partners: &[usize],
    partner_packets: &[u8],
    out: &mut [u8],
) {
    let Sizes { d, r, .. } = sizes;
    let near = neighbours(sizes, points, board);
    let mut at = points_of(points, helpers);
    at[d..d + r - 1].copy_from_slice(&points_of(points, partners)[..r - 1]);
    let stripes = out.len() / sizes.share_len();
    for (s, held) in out.chunks_mut(sizes.share_len()).enumerate() {
        let mut values = [0; MAX_BOARDS];
        for h in 0..d {
            values[h] = packets[2 * (h * stripes + s) + 1];
        }
        for p in 0..r - 1 {
            values[d + p] = partner_packets[p * stripes + s];
        }
        stripe::finish(sizes, &near, &gs[s], &at, &values, held);
    }
}

/// A finished share, from a board, its helpers with their packets, and its partners with theirs.
#[allow(clippy::too_many_arguments)]
pub fn finished_share(
    sizes: Sizes,
    points: &[u8],
    length: usize,
    board: usize,
    helpers: &[usize],
    packets: &[u8],
    partners: &[usize],
    partner_packets: &[u8],
    out: &mut [u8],
) -> Result<usize, Refusal> {
    let points = check_length(sizes, points, length)?;
    refuse_if(helpers.len() != sizes.d || partners.len() != sizes.r - 1, Refusal::Count)?;
    check_boards(sizes, helpers.iter().chain(partners).copied().chain([board]))?;
    let stripes = sizes.stripes(length);
    let wrong = packets.len() != sizes.d * 2 * stripes || partner_packets.len() != (sizes.r - 1) * stripes;
    refuse_if(wrong, Refusal::Area)?;
    let count = stripes * sizes.share_len();
    refuse_if(out.len() < count, Refusal::Short)?;
    let gs = all_g(sizes, &points, helpers, packets, stripes);
    finish(sizes, &points, board, &gs, helpers, packets, partners, partner_packets, &mut out[..count]);
    Ok(count)
}

/// Bytes as lower-case hexadecimal pairs.
fn pairs(bytes: &[u8]) -> String {
    bytes.iter().map(|byte| format!("{byte:02x}")).collect()
}

/// A share as text; the points have a line where they are not 0 to n − 1 in order.
pub fn share_text(
    sizes: Sizes,
    points: &[u8],
    length: usize,
    node: usize,
    share: &[u8],
    out: &mut [u8],
) -> Result<usize, Refusal> {
    let points = check_length(sizes, points, length)?;
    refuse_if(node >= sizes.n, Refusal::Node)?;
    refuse_if(share.len() != sizes.stripes(length) * sizes.share_len(), Refusal::Area)?;
    let Sizes { n, k, d, r } = sizes;
    let mut text = format!("n={n}\nk={k}\nd={d}\nr={r}\nnode={node}\nlength={length}\n");
    if (0..n).any(|board| points[board] != board as u8) {
        text.push_str(&format!("points={}\n", pairs(&points[..n])));
    }
    text.push_str(&format!("data={}\n", pairs(share)));
    refuse_if(out.len() < text.len(), Refusal::Short)?;
    out[..text.len()].copy_from_slice(text.as_bytes());
    Ok(text.len())
}
