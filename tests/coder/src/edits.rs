//! Edits (request A.6 of document 02): how their places are drawn, and which kinds of them are met.

use crate::call::refusal::{ACCEPTED, DISAGREE, EMPTY, RANGE};
use crate::call::{Call, Lent, Outcome};
use crate::code::Sizes;
use crate::random::Random;
use crate::store::{self, word};

/// What an edit may be, with what it is answered; one may be several. Each must have been met, and those that are not marked `Small` also with five
/// boards or more and over 100 stripes.
pub const KINDS: [(&str, u8, Where); 31] = [
    ("no bytes", ACCEPTED, Where::Any),
    ("no bytes, at L", ACCEPTED, Where::Any),
    ("no bytes of a file of none", ACCEPTED, Where::Small),
    ("one byte", ACCEPTED, Where::Any),
    ("four bytes", ACCEPTED, Where::Any),
    ("from byte 0 on", ACCEPTED, Where::Any),
    ("up to byte L − 1", ACCEPTED, Where::Any),
    ("the whole file, of several stripes", ACCEPTED, Where::Any),
    ("over a stripe's end", ACCEPTED, Where::Any),
    ("three stripes or more", ACCEPTED, Where::Any),
    ("between stripes that it leaves", ACCEPTED, Where::Any),
    ("in a last stripe that is cut", ACCEPTED, Where::Any),
    ("bytes as they are", ACCEPTED, Where::Any),
    ("a board out of service", ACCEPTED, Where::Any),
    ("k boards in service alone", ACCEPTED, Where::Any),
    ("a board in service holds wrong bytes", ACCEPTED, Where::Any),
    ("no bytes, at L + 1", RANGE, Where::Any),
    ("a byte beyond L", RANGE, Where::Any),
    ("more bytes than the file has", RANGE, Where::Any),
    ("an offset of 2^64 − 1", RANGE, Where::Any),
    ("a sum that wraps round to L or less", RANGE, Where::Any),
    ("a list of another length too", RANGE, Where::Any),
    ("an offset above 0 before a write", EMPTY, Where::Small),
    ("no bytes", DISAGREE, Where::Any),
    ("a stripe that it leaves", DISAGREE, Where::Any),
    ("a stripe that it reaches", DISAGREE, Where::Any),
    ("the padding alone, which it leaves", DISAGREE, Where::Any),
    ("up to a stripe's end that is not L", ACCEPTED, Where::Any),
    ("up to L, the last stripe full", ACCEPTED, Where::Any),
    ("an offset above 65,535", ACCEPTED, Where::Any),
    ("one board read", ACCEPTED, Where::Any),
];

/// Where a kind is due.
#[derive(Clone, Copy, PartialEq, Eq)]
pub enum Where {
    Small,
    Any,
}

/// The kinds that only who altered the area can tell.
pub const WRONG: usize = 15;
pub const LEFT: usize = 24;
pub const REACHED: usize = 25;
pub const PADDING: usize = 26;

/// How many edits of each kind were answered as they must be, and how many of them with five boards or more and over 100 stripes.
#[derive(Default)]
pub struct Met {
    all: [u64; KINDS.len()],
    large: [u64; KINDS.len()],
}

/// The stripes that an edit of some bytes reaches, the first and the last.
pub fn reached(sizes: Sizes, offset: usize, count: usize) -> (usize, usize) {
    (offset / sizes.stripe_len(), (offset + count - 1) / sizes.stripe_len())
}

impl Met {
    /// Counts an edit, of all kinds that the call and its outcome tell.
    pub fn count(&mut self, call: &Call, lent: &Lent, outcome: &Outcome) {
        let Call::Edit { offset, bytes, boards } = call else { return };
        let Some((sizes, _)) = store::given(&lent.record) else { return };
        let place = Place { sizes, length: lent.record[word::LENGTH] as usize, offset: *offset, count: bytes.len() };
        let kinds = match (outcome.answer & 255) as u8 {
            ACCEPTED => place.accepted(lent, outcome),
            RANGE => place.range(boards),
            EMPTY => vec![(22, *offset > 0)],
            DISAGREE => vec![(23, bytes.is_empty())],
            _ => return,
        };
        for (kind, _) in kinds.into_iter().filter(|(_, holds)| *holds) {
            self.tell(kind, sizes, place.length);
        }
    }

    /// Counts an edit of a kind, of a file of so many bytes.
    pub fn tell(&mut self, kind: usize, sizes: Sizes, length: usize) {
        self.all[kind] += 1;
        self.large[kind] += u64::from(sizes.n > 4 && length > 100 * sizes.stripe_len());
    }

    /// What must have been met, and was not.
    pub fn never(&self) -> Vec<String> {
        let mut missing = Vec::new();
        for (place, (kind, number, due)) in KINDS.iter().enumerate() {
            if self.all[place] == 0 {
                missing.push(format!("an edit, {kind}, answered with {number}"));
            }
            if *due == Where::Any && self.large[place] == 0 {
                missing.push(format!("an edit over 100 stripes, {kind}, answered with {number}"));
            }
        }
        missing
    }

    pub fn print(&self) {
        println!("{:38} refusal    times  >100 stripes, n over 4, of the calls of zbk_edit", "edits");
        for ((kind, number, _), (all, large)) in KINDS.iter().zip(self.all.iter().zip(self.large)) {
            println!("{kind:38} {number:>7} {all:>8} {large:>8}");
        }
    }
}

/// Where an edit stands in a file.
struct Place {
    sizes: Sizes,
    length: usize,
    offset: usize,
    count: usize,
}

impl Place {
    /// The kinds of an accepted edit, but those that only who altered the area can tell.
    fn accepted(&self, lent: &Lent, outcome: &Outcome) -> Vec<(usize, bool)> {
        let Place { sizes, length, offset, count } = *self;
        let stripes = sizes.stripes(length);
        let marks = lent.record[word::MARKS].count_ones() as usize;
        if count == 0 {
            return vec![(0, true), (1, offset == length), (2, length == 0)];
        }
        let (first, last) = reached(sizes, offset, count);
        let changed = outcome.lent.area != lent.area;
        vec![
            (3, count == 1),
            (4, count == 4),
            (5, offset == 0),
            (6, offset + count == length),
            (7, count == length && stripes > 1),
            (8, last > first),
            (9, last > first + 1),
            (10, first > 0 && last + 1 < stripes),
            (11, last + 1 == stripes && length < stripes * sizes.stripe_len()),
            (12, !changed),
            (13, changed && marks < sizes.n),
            (14, changed && marks == sizes.k),
            (27, offset + count < length && (offset + count) % sizes.stripe_len() == 0),
            (28, offset + count == length && length == stripes * sizes.stripe_len()),
            (29, changed && offset > 65_535),
            (30, changed && sizes.k == 1),
        ]
    }

    /// The kinds of one that goes beyond the file's end.
    fn range(&self, boards: &[usize]) -> Vec<(usize, bool)> {
        let Place { sizes, length, offset, count } = *self;
        let (sum, wraps) = offset.overflowing_add(count);
        vec![
            (16, count == 0 && offset == length + 1),
            (17, count > 0 && !wraps && sum == length + 1),
            (18, count > length && offset == 0),
            (19, offset == usize::MAX),
            (20, wraps && sum <= length),
            (21, boards.len() != sizes.k),
        ]
    }
}

/// An edit of a file of so many bytes, by k of these boards. Mostly in range.
pub fn draw(random: &mut Random, sizes: Sizes, length: usize, boards: &[usize]) -> Call {
    let (offset, count) = if random.once_in(6) { beyond(random, length) } else { within(random, sizes, length) };
    Call::Edit { offset, bytes: random.bytes(count), boards: random.choose(boards.to_vec(), sizes.k) }
}

/// Offset and count of an edit in range: often of four bytes, at the file's ends or over a stripe's, of nothing or of all.
pub fn within(random: &mut Random, sizes: Sizes, length: usize) -> (usize, usize) {
    let drawn = random.within(0, length);
    let count = random.pick(&[0, 1, 1, 2, 4, 4, 4, 4, 5, 3 * sizes.stripe_len(), length, drawn]).min(length);
    let last = length - count;
    let offset = match random.below(8) {
        0 => 0,
        1..=2 => last,
        // a stripe's end after the first of the bytes, before the last of them, or behind it
        3..=4 if count > 1 => {
            let end = random.within(0, sizes.stripes(length)) * sizes.stripe_len();
            end.saturating_sub(random.pick(&[1, count - 1, count])).min(last)
        }
        _ => random.within(0, last),
    };
    (offset, count)
}

/// Offset and count of an edit beyond the file's end.
fn beyond(random: &mut Random, length: usize) -> (usize, usize) {
    let count = random.pick(&[0, 1, 2, 4, 4, 9]);
    let low = random.within(0, length);
    match random.below(8) {
        0 => (length + 1, 0),
        1 => (length, count.max(1)),
        2 => ((length + 1).saturating_sub(count), count.max(1)),
        3 => (0, length + 1),
        4 => (usize::MAX, count),
        // the sum is low, once it has wrapped round in 64 bits; in 32 the offset
        5 => (low.min(count.max(1) - 1).wrapping_sub(count.max(1)), count.max(1)),
        6 => (low + (1 << 32), count),
        _ => (1 << 63, count),
    }
}
