//! The coder's own model of the six board-level calls: what each answers and leaves, refusals in document 01's order.

use crate::call::refusal::{AREA, COUNT, DISAGREE, LONG, NODE, REPEAT, SHORT, SIZE};
use crate::call::{Call, Lent, Outcome};
use crate::code::{self, Sizes};
use crate::points;

/// What the lines of document 01 ask about a call whose sizes and points are legal and whose length is in range.
struct Asked<'a> {
    /// each list with the length that it must have
    lists: Vec<(&'a [usize], usize)>,
    /// every board that is named, in lists or alone
    named: Vec<usize>,
    /// the length of each slice of shares or packets, and the length that the sizes give
    slices: Vec<(usize, usize)>,
    /// the bytes that are to be written
    written: usize,
}

impl Asked<'_> {
    /// The refusal to give before the work, "Board level: 1, 3, 4, 5, 6, 2, 7, 10"; 1 and 3 were asked before.
    fn refusal(&self, n: usize, out: usize) -> Option<u8> {
        let repeated = |list: &[usize]| (0..list.len()).any(|i| list[..i].contains(&list[i]));
        if self.lists.iter().any(|(list, count)| list.len() != *count) {
            Some(COUNT)
        } else if self.named.iter().any(|&board| board >= n) {
            Some(NODE)
        } else if repeated(&self.named) {
            Some(REPEAT)
        } else if self.slices.iter().any(|(given, due)| given != due) {
            Some(AREA)
        } else if out < self.written {
            Some(SHORT)
        } else {
            None
        }
    }
}

/// The file's length; the call is none of the store's.
fn length_of(call: &Call) -> usize {
    match call {
        Call::Share { file, .. } => file.len(),
        Call::File { length, .. }
        | Call::Helper { length, .. }
        | Call::Exchange { length, .. }
        | Call::Finished { length, .. }
        | Call::Text { length, .. } => *length,
        _ => unreachable!("a call of the store"),
    }
}

fn asked<'a>(call: &'a Call, sizes: Sizes, points: &[u8], length: usize) -> Asked<'a> {
    let Sizes { k, d, r, .. } = sizes;
    let stripes = sizes.stripes(length);
    let share_len = stripes * sizes.share_len();
    let one = |board: usize| vec![board];
    match call {
        Call::Share { node, .. } => Asked { lists: vec![], named: one(*node), slices: vec![], written: share_len },
        Call::File { boards, shares, .. } => Asked {
            lists: vec![(boards, k)],
            named: boards.clone(),
            slices: vec![(shares.len(), k * share_len)],
            written: length,
        },
        Call::Helper { helper, receiver, share, .. } => Asked {
            lists: vec![],
            named: vec![*helper, *receiver],
            slices: vec![(share.len(), share_len)],
            written: 2 * stripes,
        },
        Call::Exchange { board, helpers, packets, receiver, .. } => Asked {
            lists: vec![(helpers, d)],
            named: [&helpers[..], &[*board, *receiver]].concat(),
            slices: vec![(packets.len(), d * 2 * stripes)],
            written: stripes,
        },
        Call::Finished { board, helpers, packets, partners, partner_packets, .. } => Asked {
            lists: vec![(helpers, d), (partners, r - 1)],
            named: [&helpers[..], &partners[..], &[*board]].concat(),
            slices: vec![(packets.len(), d * 2 * stripes), (partner_packets.len(), (r - 1) * stripes)],
            written: share_len,
        },
        Call::Text { node, share, .. } => Asked {
            lists: vec![],
            named: one(*node),
            slices: vec![(share.len(), share_len)],
            written: code::share_text(sizes, points, length, *node, share).len(),
        },
        _ => unreachable!("a call of the store"),
    }
}

/// The bytes that a call with no refusal so far writes; none is DISAGREE.
fn work(call: &Call) -> Option<Vec<u8>> {
    match call {
        Call::Share { sizes, points, node, file } => Some(code::share(*sizes, points, *node, file)),
        Call::File { sizes, points, length, boards, shares } => code::file(*sizes, points, *length, boards, shares),
        Call::Helper { sizes, points, helper, receiver, share, .. } => {
            Some(code::helper_packet(*sizes, points, *helper, *receiver, share))
        }
        Call::Exchange { points, helpers, packets, receiver, .. } => {
            Some(code::exchange_packet(points, helpers, packets, *receiver))
        }
        Call::Finished { sizes, points, board, helpers, packets, partners, partner_packets, .. } => {
            Some(code::finished_share(*sizes, points, *board, helpers, packets, partners, partner_packets))
        }
        Call::Text { sizes, points, length, node, share } => {
            Some(code::share_text(*sizes, points, *length, *node, share))
        }
        _ => unreachable!("a call of the store"),
    }
}

/// What a board-level call answers and leaves.
pub fn expect(call: &Call, lent: &Lent) -> Outcome {
    let (sizes, points) = call.given().expect("a board-level call");
    let length = length_of(call);
    if !sizes.legal() || !points::legal(sizes, points) {
        return Outcome::refused(SIZE, lent);
    }
    if length > sizes.longest() {
        return Outcome::refused(LONG, lent);
    }
    if let Some(number) = asked(call, sizes, points, length).refusal(sizes.n, lent.out.len()) {
        return Outcome::refused(number, lent);
    }
    let Some(bytes) = work(call) else {
        return Outcome::refused(DISAGREE, lent);
    };
    let mut after = lent.clone();
    after.out[..bytes.len()].copy_from_slice(&bytes);
    Outcome::accepted(bytes.len(), after)
}
