//! The coder's own model of how far a text makes sense (request A.14 of document 02): "the length of its longest beginning that also begins some
//! accepted text, with points= or without". All that may stand at a place is listed, and held to the text byte by byte: the first four lines of
//! every legal combination of sizes, every board, every length by trying all digits behind those that stand there, every byte's pair, and every row
//! of points until one is found that may be said. No range is worked out.

use crate::code::{self, Sizes, MAX_BOARDS};
use std::cell::RefCell;
use std::collections::HashMap;
use std::sync::LazyLock;

/// The first four lines of every text there is, in the order of their bytes.
static HEADS: LazyLock<Vec<(Vec<u8>, Sizes)>> = LazyLock::new(|| {
    let numbers = 0..=MAX_BOARDS + 1;
    let mut heads = Vec::new();
    for n in numbers.clone() {
        for k in numbers.clone() {
            for d in numbers.clone() {
                for r in numbers.clone() {
                    let sizes = Sizes::new(n, k, d, r);
                    if sizes.legal() {
                        heads.push((format!("n={n}\nk={k}\nd={d}\nr={r}\n").into_bytes(), sizes));
                    }
                }
            }
        }
    }
    heads.sort_by(|one, other| one.0.cmp(&other.0));
    heads
});

/// The pairs of all bytes.
static PAIRS: LazyLock<[[u8; 2]; 256]> = LazyLock::new(|| {
    let pair = |byte: usize| code::pairs(&[byte as u8]).into_bytes().try_into().expect("it has two digits");
    std::array::from_fn(pair)
});

/// For any two bytes, how many of them the pair of some byte begins with.
static OF_A_PAIR: LazyLock<Vec<u8>> = LazyLock::new(|| {
    let mut most = vec![0; 1 << 16];
    for pair in PAIRS.iter() {
        for second in 0..=255 {
            let count = &mut most[usize::from(u16::from_be_bytes([pair[0], second]))];
            *count = (*count).max(1 + u8::from(second == pair[1]));
        }
    }
    most
});

thread_local! {
    /// Whether some length begins with digits, for those that were asked before; with the longest there is.
    static ASKED: RefCell<HashMap<(usize, Vec<u8>), bool>> = RefCell::default();
}

/// How many bytes two lists have alike from their beginning.
fn alike(one: &[u8], other: &[u8]) -> usize {
    one.iter().zip(other).take_while(|(one, other)| one == other).count()
}

/// The length that these digits say; none where no text says it so.
fn length(longest: usize, digits: &[u8]) -> Option<usize> {
    let number: usize = std::str::from_utf8(digits).ok()?.parse().ok()?;
    (number <= longest && digits == number.to_string().as_bytes()).then_some(number)
}

/// Whether some length begins with these digits: they are tried with all digits behind them, none first, up to as many as the longest has.
fn begins_length(longest: usize, digits: &[u8]) -> bool {
    let more = longest.to_string().len().checked_sub(digits.len());
    let tried = |count: u32| {
        let mut whole = digits.to_vec();
        whole.resize(digits.len() + count as usize, b'0');
        (0..10_usize.pow(count)).any(|number| {
            // the digits of the number at the end
            let mut left = number;
            for place in whole[digits.len()..].iter_mut().rev() {
                *place = b'0' + (left % 10) as u8;
                left /= 10;
            }
            length(longest, &whole).is_some()
        })
    };
    more.is_some_and(|more| (0..=more as u32).any(tried))
}

/// Whether some row of n points that a text may say begins with this one: it is tried with every byte behind it, until a row is whole. "all
/// different", and said "just where the points are not 0 to n − 1 in order".
fn begins_row(n: usize, row: &mut Vec<u8>) -> bool {
    let (last, before) = row.split_last().expect("a point is tried");
    if before.contains(last) {
        return false;
    }
    if row.len() == n {
        return !row.iter().map(|&point| usize::from(point)).eq(0..n);
    }
    (0..=255).rev().any(|byte| {
        row.push(byte);
        let found = begins_row(n, row);
        row.pop();
        found
    })
}

/// A text that is gone through; the bytes before `at` make sense.
struct Walk<'a> {
    text: &'a [u8],
    at: usize,
}

impl<'a> Walk<'a> {
    fn rest(&self) -> &'a [u8] {
        &self.text[self.at..]
    }

    /// Goes on as far as one of these has bytes alike with the text; which it is, where all of it stands there.
    fn one_of<T>(&mut self, listed: impl IntoIterator<Item = (impl AsRef<[u8]>, T)>) -> Option<T> {
        let counted = |(bytes, what): (_, T)| {
            let bytes: &[u8] = AsRef::as_ref(&bytes);
            (alike(bytes, self.rest()), bytes.len(), what)
        };
        let (most, whole, what) = listed.into_iter().map(counted).max_by_key(|(count, ..)| *count)?;
        self.at += most;
        (most == whole).then_some(what)
    }

    /// The first four lines. In the order of bytes those with most in common with the text stand beside the place that it would have.
    fn head(&mut self) -> Option<Sizes> {
        let place = HEADS.partition_point(|(head, _)| head[..] < *self.text);
        let beside = &HEADS[place.saturating_sub(1)..HEADS.len().min(place + 1)];
        self.one_of(beside.iter().map(|(head, sizes)| (head, *sizes)))
    }

    fn node(&mut self, n: usize) -> Option<usize> {
        let nodes = (0..=2 * MAX_BOARDS).filter(|&node| node < n);
        self.one_of(nodes.map(|node| (format!("node={node}\n"), node)))
    }

    fn length(&mut self, longest: usize) -> Option<usize> {
        self.one_of([("length=", ())])?;
        let start = self.at;
        let begins = |digits: &[u8]| {
            ASKED.with_borrow_mut(|asked| {
                *asked.entry((longest, digits.to_vec())).or_insert_with(|| begins_length(longest, digits))
            })
        };
        while self.rest().first().is_some_and(u8::is_ascii_digit) && begins(&self.text[start..self.at + 1]) {
            self.at += 1;
        }
        let length = length(longest, &self.text[start..self.at])?;
        self.one_of([("\n", length)])
    }

    /// The pairs of n points, each by listing all bytes of which a row remains.
    fn points(&mut self, n: usize) -> Option<()> {
        let mut row = Vec::new();
        while row.len() < n {
            let mut found = (0, 0);
            for (byte, pair) in (0..=255).zip(PAIRS.iter()) {
                let count = alike(pair, self.rest());
                row.push(byte);
                if count > found.0 && begins_row(n, &mut row) {
                    found = (count, byte);
                }
                row.pop();
            }
            self.at += found.0;
            row.push((found.0 == 2).then_some(found.1)?);
        }
        self.one_of([("\n", ())])
    }

    /// So many pairs of any bytes.
    fn data(&mut self, count: usize) -> Option<()> {
        for _ in 0..count {
            let two = [0, 1].map(|place| self.rest().get(place).copied().unwrap_or(b'\n'));
            let found = OF_A_PAIR[usize::from(u16::from_be_bytes(two))];
            self.at += usize::from(found);
            (found == 2).then_some(())?;
        }
        self.one_of([("\n", ())])
    }

    fn text(&mut self) -> Option<()> {
        let sizes = self.head()?;
        self.node(sizes.n)?;
        let length = self.length(sizes.longest())?;
        if self.one_of([("points=", true), ("data=", false)])? {
            self.points(sizes.n)?;
            self.one_of([("data=", ())])?;
        }
        self.data(sizes.stripes(length) * sizes.share_len())
    }
}

/// How many bytes of a text, from its beginning, some accepted text begins with, too.
pub fn longest(text: &[u8]) -> usize {
    let mut walk = Walk { text, at: 0 };
    walk.text();
    walk.at
}
