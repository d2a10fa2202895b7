//! Request A.12: all legal combinations of sizes up to a limit, by asking every combination of four numbers whether it is legal.

use crate::code::{Sizes, MAX_BOARDS};

/// A line for each legal combination with at most so many boards, in rising order of n, k, d, r.
pub fn lines(most: usize) -> String {
    let mut text = String::new();
    let numbers = 0..=MAX_BOARDS + 1;
    for n in numbers.clone() {
        for k in numbers.clone() {
            for d in numbers.clone() {
                for r in numbers.clone() {
                    let sizes = Sizes::new(n, k, d, r);
                    if n <= most && sizes.legal() {
                        let (share, stripe) = (sizes.share_len(), sizes.stripe_len());
                        text += &format!("n={n} k={k} d={d} r={r} share={share} stripe={stripe}\n");
                    }
                }
            }
        }
    }
    text
}
