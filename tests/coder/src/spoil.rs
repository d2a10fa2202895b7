//! Spoils the arguments of a call: illegal sizes, wrong points, lengths out of range, wrong lists and numbers, slices of another length, made-up
//! records. What must be answered then is the model's to say.

use crate::call::{Call, Lent, Parts};
use crate::code::{Sizes, MAX_BOARDS};
use crate::draw;
use crate::points;
use crate::random::Random;
use crate::store::{self, word};

/// Spoils a call and what it is lent in no, one or several places; `sizes` are those that the call was made for.
pub fn spoil(random: &mut Random, sizes: Sizes, call: &mut Call, lent: &mut Lent) {
    let places = random.pick(&[0, 0, 0, 0, 1, 1, 1, 2, 2, 3]);
    for _ in 0..places {
        if !lent.record.is_empty() && random.once_in(3) {
            spoil_store(random, sizes, lent);
        } else {
            spoil_arguments(random, sizes, call.parts());
        }
    }
}

fn spoil_arguments(random: &mut Random, sizes: Sizes, mut parts: Parts) {
    // every kind that the call has is as likely as the others
    let kinds = [
        parts.sizes.is_some(),
        parts.points.is_some(),
        parts.length.is_some(),
        parts.capacity.is_some(),
        parts.offset.is_some(),
        parts.allowance.is_some(),
        parts.point.is_some(),
        !parts.numbers.is_empty(),
        !parts.lists.is_empty(),
        !parts.slices.is_empty(),
    ];
    let there: Vec<usize> = (0..kinds.len()).filter(|&kind| kinds[kind]).collect();
    match random.pick(&there) {
        0 => {
            let spoilt = spoilt_sizes(random, sizes);
            *parts.sizes.expect("it is there") = spoilt;
            // sometimes the points are those of the new sizes, so that more than SIZE is asked
            if spoilt.legal() && random.once_in(2) {
                *parts.points.expect("it is there") = points::draw(random, spoilt.n);
            }
        }
        1 => spoil_points(random, sizes.n, parts.points.expect("it is there")),
        2 => spoil_length(random, sizes, parts.length.expect("it is there")),
        3 => *parts.capacity.expect("it is there") = random.pick(&[0, 1, 4096, 4097, 1 << 32, usize::MAX]),
        4 => spoil_offset(random, sizes, parts.offset.expect("it is there")),
        5 => *parts.allowance.expect("it is there") = random.pick(&[0, 1, 3, 255, 256, 1 << 32, 1 << 63, usize::MAX]),
        // mostly a board's, or 00
        6 => {
            let (low, any) = (random.below(sizes.n + 2) as u8, random.next() as u8);
            *parts.point.expect("it is there") = random.pick(&[low, 0, any]);
        }
        7 => {
            let place = random.below(parts.numbers.len());
            let named = parts.named();
            let again = random.once_in(3);
            *parts.numbers[place] = if again { random.pick(&named) } else { draw::any_number(random, sizes.n) };
        }
        8 if parts.lists.len() > 1 && random.once_in(3) => {
            let two = random.choose((0..parts.lists.len()).collect(), 2);
            let from = parts.lists[two[0]].clone();
            share_a_board(random, &from, parts.lists[two[1]]);
        }
        8 => {
            let place = random.below(parts.lists.len());
            spoil_list(random, sizes.n, parts.lists[place]);
        }
        _ => {
            let place = random.below(parts.slices.len());
            spoil_slice(random, sizes, parts.slices[place]);
        }
    }
}

/// Spoils points, where no other fault has made them of another length already.
fn spoil_points(random: &mut Random, n: usize, points: &mut Vec<u8>) {
    if points.len() == MAX_BOARDS {
        points::spoil(random, n, points);
    }
}

/// Other sizes than these legal ones, mostly not legal.
fn spoilt_sizes(random: &mut Random, sizes: Sizes) -> Sizes {
    let Sizes { n, k, d, r } = sizes;
    match random.below(14) {
        0 => Sizes { n: 33, ..sizes },
        1 => Sizes { n: d + r - 1, ..sizes },
        2 => Sizes { k: d + 1, ..sizes },
        3 => Sizes { k: 0, ..sizes },
        4 => Sizes { r: 0, ..sizes },
        5 => Sizes { r: n - d + 1, ..sizes },
        // sums that wrap round in 64 bits
        6 => Sizes { r: usize::MAX, ..sizes },
        7 => Sizes { d: usize::MAX, ..sizes },
        8 => Sizes { d: usize::MAX - r + 1, ..sizes },
        // sizes that are legal once cut to a byte or to four bytes
        9 => Sizes { n: n + 256, ..sizes },
        10 => Sizes { n: n + (1 << 32), k: k + (1 << 32), d: d + (1 << 32), r },
        11 => Sizes { n: d, k: d, d: n, r },
        12 => Sizes { k: k.max(2) - 1, ..sizes },
        _ => draw::sizes(random),
    }
}

fn spoil_length(random: &mut Random, sizes: Sizes, length: &mut usize) {
    let (now, stripe, longest) = (*length, sizes.stripe_len(), sizes.longest());
    let choices = [
        0,
        1,
        stripe - 1,
        stripe,
        stripe + 1,
        now.wrapping_sub(1),
        now.saturating_sub(1),
        now.wrapping_add(1),
        now.wrapping_add(1),
        longest,
        longest + 1,
        longest + 1,
        now.wrapping_add(1 << 32),
        1 << 63,
        usize::MAX,
    ];
    *length = random.pick(&choices);
}

/// Another offset, mostly beyond any file, some of them so that a sum with a few bytes wraps round in 64 bits or in 32.
fn spoil_offset(random: &mut Random, sizes: Sizes, offset: &mut usize) {
    let (now, few) = (*offset, random.below(9));
    let choices = [
        0,
        now.wrapping_sub(1),
        now.wrapping_add(1),
        now.wrapping_add(sizes.stripe_len()),
        now.wrapping_add(1 << 32),
        (1 << 32) - few.min(4),
        1 << 63,
        usize::MAX - few,
        usize::MAX,
    ];
    *offset = random.pick(&choices);
}

fn spoil_list(random: &mut Random, n: usize, list: &mut Vec<usize>) {
    match random.below(6) {
        0 => list.push(random.below(n)),
        1 => {
            list.pop();
        }
        2 if list.len() > 1 => {
            // one of them once more
            let (from, to) = (random.below(list.len()), random.below(list.len()));
            list[to] = list[from];
        }
        3 => list.clear(),
        _ if !list.is_empty() => {
            let place = random.below(list.len());
            list[place] = draw::any_number(random, n);
        }
        _ => list.push(draw::any_number(random, n)),
    }
}

/// Puts a board of one list into another: a fresh board among the helpers or the stand-ins, or a helper among the partners.
fn share_a_board(random: &mut Random, from: &[usize], to: &mut [usize]) {
    if !from.is_empty() && !to.is_empty() {
        let place = random.below(to.len());
        to[place] = random.pick(from);
    }
}

fn spoil_slice(random: &mut Random, sizes: Sizes, slice: &mut Vec<u8>) {
    let now = slice.len();
    let longest = sizes.longest();
    let length = match random.below(8) {
        0 => 0,
        1..=2 => now.saturating_sub(1),
        3..=4 => now + 1,
        5 => now + sizes.share_len(),
        // a file that is too long by one byte
        6 if longest < 200_000 => longest + 1,
        _ => random.within(0, 2 * now),
    };
    slice.resize(length, 0x5A);
}

fn spoil_store(random: &mut Random, sizes: Sizes, lent: &mut Lent) {
    if random.once_in(3) {
        let now = lent.area.len();
        let length = random.pick(&[0, now.saturating_sub(1), now + 1, now + sizes.share_len(), 2 * now]);
        lent.area.resize(length, 0x5A);
    } else if random.once_in(6) {
        let count = random.pick(&[0, 1, 12, 70, 72, 142]);
        lent.repair.resize(count, 0);
    } else if random.once_in(5) {
        // eight words are a record as calls without points handed it out
        let count = random.pick(&[0, 1, 7, 8, 8, 9, 11, 13, 16]);
        lent.record.resize(count, 0);
    } else if lent.record.len() == word::COUNT {
        spoil_words(random, sizes, &mut lent.record);
    }
}

/// Makes up a record: legal or not.
fn spoil_words(random: &mut Random, sizes: Sizes, words: &mut [u64]) {
    let most = words[word::CAPACITY].wrapping_mul(sizes.stripe_len() as u64);
    let any = random.below(64);
    let bit = random.pick(&[sizes.n, 31, 32, 33, 63, any]);
    match random.below(16) {
        0 => words[word::LENGTH] = most.wrapping_add(1),
        1 => words[word::LENGTH] = random.pick(&[0, most, u64::MAX, 1 << 32]),
        2 => words[word::MARKS] |= 1 << bit,
        3 => words[word::MARKS] = random.next() & ((1 << sizes.n) - 1),
        4 => words[word::MARKS] = 0,
        5 => words[word::WRITTEN] = random.pick(&[2, 256, 257, 1 << 32, u64::MAX]),
        6 => words[word::WRITTEN] ^= 1,
        7 => words[word::CAPACITY] = random.pick(&[0, 4097, 1 << 32, u64::MAX]),
        8 => {
            // no file
            words[word::WRITTEN] = 0;
            words[word::LENGTH] = 0;
            words[word::MARKS] = 0;
        }
        9 => {
            let place = random.below(word::COUNT);
            words[place] = random.next();
        }
        10..=13 => {
            let mut points = points::draw(random, sizes.n);
            if random.once_in(2) {
                points = store::given(words).map_or(points, |(_, told)| told);
            }
            points::spoil(random, sizes.n, &mut points);
            // a record has room for 32
            points.resize(MAX_BOARDS, 0);
            words[word::POINTS..].copy_from_slice(&store::words_of(&points));
        }
        14 => {
            let place = random.within(word::POINTS, word::COUNT - 1);
            words[place] = random.pick(&[0, 1, 1 << 63, u64::MAX, words[word::POINTS].swap_bytes()]);
        }
        _ => {
            let made_up = spoilt_sizes(random, sizes);
            let numbers = [made_up.n, made_up.k, made_up.d, made_up.r];
            for (word, number) in words.iter_mut().zip(numbers) {
                *word = number as u64;
            }
            if made_up.legal() && random.once_in(2) {
                let points = points::draw(random, made_up.n);
                words[word::POINTS..].copy_from_slice(&store::words_of(&points));
            }
        }
    }
}
