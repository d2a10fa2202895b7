//! What cases are drawn from: sizes with their extremes, lengths, board numbers, and bytes that are true, damaged or arbitrary.

use crate::code::{Sizes, MAX_BOARDS, MAX_STRIPES};
use crate::random::Random;

/// Sizes at the ends of what is legal; the first cases of a run have these.
pub const EXTREMES: [Sizes; 10] = [
    Sizes { n: 2, k: 1, d: 1, r: 1 },
    Sizes { n: 3, k: 1, d: 1, r: 2 },
    Sizes { n: 32, k: 1, d: 1, r: 1 },
    Sizes { n: 32, k: 1, d: 1, r: 31 },
    Sizes { n: 32, k: 1, d: 31, r: 1 },
    Sizes { n: 32, k: 31, d: 31, r: 1 },
    Sizes { n: 32, k: 16, d: 16, r: 16 },
    Sizes { n: 32, k: 8, d: 24, r: 8 },
    Sizes { n: 32, k: 24, d: 30, r: 2 },
    Sizes { n: 31, k: 15, d: 15, r: 2 },
];

/// Legal sizes: mostly few boards, sometimes up to 32, and often at an extreme, k = d, d + r = n or r = 1.
pub fn sizes(random: &mut Random) -> Sizes {
    loop {
        let n = match random.below(100) {
            0..=9 => random.within(17, MAX_BOARDS),
            10..=34 => random.within(9, 16),
            _ => random.within(2, 8),
        };
        let mut d = random.within(1, n - 1);
        let mut r = random.within(1, n - d);
        if random.once_in(5) {
            (d, r) = (n - 1, 1);
        } else if random.once_in(4) {
            r = n - d;
        } else if random.once_in(4) {
            r = 1;
        }
        d = d.min(n - r);
        let k = if random.once_in(3) { d } else { random.within(1, d) };
        let sizes = Sizes::new(n, k, d, r);
        // Gaussian elimination takes its time on the largest stripes: most of them are drawn again
        if sizes.stripe_len() <= 300 || random.once_in(6) {
            return sizes;
        }
    }
}

/// The most stripes of a case's files: mostly few, sometimes many, and all 4,096 where stripes are short.
pub fn stripes(random: &mut Random, sizes: Sizes) -> usize {
    match random.below(60) {
        0 if sizes.n <= 4 => MAX_STRIPES,
        1 if sizes.n <= 8 => random.within(9, 100),
        _ => random.pick(&[1, 1, 2, 3, 8]),
    }
}

/// A length of at most `stripes` stripes, often an extreme: 0, B, B + 1, all.
pub fn length(random: &mut Random, sizes: Sizes, stripes: usize) -> usize {
    let most = stripes * sizes.stripe_len();
    let stripe = sizes.stripe_len();
    let drawn = match random.below(10) {
        0 => 0,
        1 => stripe,
        2 => stripe + 1,
        3 => most,
        4 => stripe - 1,
        _ => random.within(0, most),
    };
    drawn.min(most)
}

/// A board number that may be anything: near n, near 32, one that is below n once cut to a byte or to four bytes, the greatest.
pub fn any_number(random: &mut Random, n: usize) -> usize {
    let below = random.below(n.clamp(1, MAX_BOARDS));
    let choices =
        [n, n.saturating_add(1), 31, 32, 33, 255, 256 + below, (1 << 32) + below, 1 << 63, usize::MAX, below, below];
    random.pick(&choices)
}

/// Bytes that are left as they are, damaged in one place, or replaced by arbitrary ones.
pub fn damaged(random: &mut Random, mut bytes: Vec<u8>) -> Vec<u8> {
    match random.below(8) {
        0..=1 if !bytes.is_empty() => {
            let place = random.below(bytes.len());
            bytes[place] ^= random.within(1, 255) as u8;
            bytes
        }
        2 => random.bytes(bytes.len()),
        _ => bytes,
    }
}

/// An output for `written` bytes: mostly long enough, sometimes just, sometimes too short.
pub fn output(random: &mut Random, written: usize) -> Vec<u8> {
    let length = match random.below(10) {
        0 => written.saturating_sub(1),
        1 => random.within(0, written),
        2..=5 => written,
        _ => written + random.within(1, 20),
    };
    random.bytes(length)
}
