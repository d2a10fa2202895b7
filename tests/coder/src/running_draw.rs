//! Records of a started repair for calls to be lent (request A.8 of document 02): of none, of one that can run beside the store's record, and made-up
//! ones; and how many packets a step is allowed.

use crate::call::Call;
use crate::code::{Sizes, MAX_BOARDS};
use crate::draw;
use crate::random::Random;
use crate::repairs;
use crate::running::{self, word, Lists};

/// The record of no repair: 71 words 0, or any words of which the first is 0.
pub fn idle(random: &mut Random) -> Vec<u64> {
    if random.once_in(2) {
        return running::none();
    }
    let mut words: Vec<u64> = (0..word::COUNT).map(|_| random.next()).collect();
    words[word::RUNNING] = 0;
    words
}

/// Lists that a start takes beside these boards in service; none where too many are lost, or none is.
pub fn lists(random: &mut Random, sizes: Sizes, in_service: &[usize]) -> Option<Lists> {
    let (fewest, most) = repairs::numbers(sizes, sizes.n - in_service.len()).into_inner();
    (fewest <= most).then(|| {
        let t = random.within(fewest, most);
        lists_of(random, sizes, in_service, t)
    })
}

/// Lists of so many fresh boards, of those out of service as far as there are such.
pub fn lists_of(random: &mut Random, sizes: Sizes, in_service: &[usize], t: usize) -> Lists {
    match repairs::of(random, sizes, in_service, t) {
        Call::Repair { fresh, helpers, stand_ins } => Lists { fresh, helpers, stand_ins },
        other => unreachable!("{other}"),
    }
}

/// All packets of a repair by these lists: of helpers, of stand-ins, and of each fresh board for each other one.
pub fn total(lists: &Lists) -> usize {
    let t = lists.fresh.len();
    lists.helpers.len() + lists.stand_ins.len() + t * (t - 1)
}

/// The record of a repair by these lists of which any packets were carried; sometimes any bytes stand in the entries that the lists do not use.
pub fn running(random: &mut Random, lists: &Lists) -> Vec<u64> {
    let carried = random.below(total(lists));
    let mut words = running::words(lists, carried);
    if random.once_in(2) {
        fill_unused(random, lists, &mut words);
    }
    words
}

/// Any bytes in the entries that the lists do not use.
pub fn fill_unused(random: &mut Random, lists: &Lists, words: &mut [u64]) {
    let arrays = [
        (word::FRESH, word::HELPERS, lists.fresh.len()),
        (word::HELPERS, word::STAND_INS, lists.helpers.len()),
        (word::STAND_INS, word::COUNT, lists.stand_ins.len()),
    ];
    for (first, end, used) in arrays {
        for place in used..8 * (end - first) {
            set(words, first, place, random.next() as u8);
        }
    }
}

/// Puts a board number into an array of words.
fn set(words: &mut [u64], first: usize, place: usize, board: u8) {
    let mut bytes = words[first + place / 8].to_le_bytes();
    bytes[place % 8] = board;
    words[first + place / 8] = u64::from_le_bytes(bytes);
}

/// Makes up another record of a running one: mostly one that no call hands on.
pub fn spoil(random: &mut Random, sizes: Sizes, in_service: &[usize], lists: &Lists, words: &mut Vec<u64>) {
    let Sizes { n, d, r, .. } = sizes;
    let t = lists.fresh.len();
    let (total, any) = (total(lists) as u64, random.next());
    match random.below(16) {
        0 => words.resize(random.pick(&[0, 1, 12, 70, 72, 83, 142]), 0),
        // some of them are 0 or 1 once they are cut to a byte or to four bytes
        1 => words[word::RUNNING] = random.pick(&[2, 3, 255, 256, 257, 1 << 32, (1 << 32) + 1, 1 << 63, u64::MAX]),
        2 => words[word::FRESH_COUNT] = random.pick(&[0, t as u64 + 1, t as u64 - 1, r as u64 + 1]),
        3 => words[word::FRESH_COUNT] = random.pick(&[31, 32, 33, 34, u64::MAX]),
        4 => words[word::FRESH_COUNT] += random.pick(&[32, 64, 256, 1 << 32, 1 << 63]),
        5 => words[word::CARRIED] = random.pick(&[total, total, total + 1, total + 2]),
        6 => words[word::CARRIED] = random.pick(&[u64::MAX, 1 << 63, 1 << 32, 256, any]),
        7 => words[word::CARRIED] += random.pick(&[1 << 32, 256, 65_536, 1 << 56]),
        8..=9 => {
            let number = any_entry(random, n);
            set(words, word::FRESH, random.below(t), number);
        }
        10 => {
            // a fresh board twice, or one that is in service
            let again = random.pick(&[&lists.fresh[..], in_service].concat());
            set(words, word::FRESH, random.below(t), again as u8);
        }
        11..=14 => {
            let of_helpers = lists.stand_ins.is_empty() || random.once_in(2);
            let (first, count) = if of_helpers { (word::HELPERS, t * d) } else { (word::STAND_INS, t * (r - t)) };
            // a board that is none, that is out of service, that is fresh, or that is named already
            let other = random.below(n) as u8;
            let named = random.pick(&[&lists.fresh[..], &lists.helpers, &lists.stand_ins].concat()) as u8;
            let number = if random.once_in(3) { any_entry(random, n) } else { random.pick(&[other, named]) };
            set(words, first, random.below(count), number);
        }
        _ => *words = (0..word::COUNT).map(|place| if place == word::RUNNING { 1 } else { random.next() }).collect(),
    }
}

/// Records that no call hands on beside a store with these boards in service, each of another kind, made of a right one.
pub fn made_up(random: &mut Random, sizes: Sizes, in_service: &[usize], lists: &Lists, right: &[u64]) -> Vec<Vec<u64>> {
    let Sizes { n, r, .. } = sizes;
    let (t, total) = (lists.fresh.len() as u64, total(lists) as u64);
    let mut all: Vec<Vec<u64>> = Vec::new();
    for count in [0, 70, 72] {
        let mut words = right.to_vec();
        words.resize(count, 0);
        all.push(words);
    }
    let mut put = |place: usize, number: u64| {
        let mut words = right.to_vec();
        words[place] = number;
        all.push(words);
    };
    for first in [2, 256, 257, 1 << 32, u64::MAX] {
        put(word::RUNNING, first);
    }
    for count in [0, r as u64 + 1, 33, u64::MAX, t + 256, t + (1 << 32), t + 32] {
        put(word::FRESH_COUNT, count);
    }
    for carried in [total, total + 1, u64::MAX, 1 << 32] {
        put(word::CARRIED, carried);
    }

    let mut enter = |first: usize, place: usize, board: u8| {
        let mut words = right.to_vec();
        set(&mut words, first, place, board);
        all.push(words);
    };
    let lost: Vec<usize> = (0..n).filter(|board| !in_service.contains(board)).collect();
    let down: Vec<usize> = lost.into_iter().filter(|board| !lists.fresh.contains(board)).collect();
    let not_named: Vec<usize> = in_service.iter().copied().filter(|&board| !lists.name(board)).collect();
    let arrays = [(word::FRESH, &lists.fresh), (word::HELPERS, &lists.helpers), (word::STAND_INS, &lists.stand_ins)];
    for (first, list) in arrays {
        let Some(last) = list.len().checked_sub(1) else { continue };
        let some = random.below(list.len());
        for (place, board) in [(some, 255), (last, n as u8), (0, 128 + random.below(n) as u8)] {
            enter(first, place, board);
        }
        // a fresh board once more, as another one or as a sender
        if first != word::FRESH || list.len() > 1 {
            let again = lists.fresh[if first == word::FRESH { (some + 1) % list.len() } else { 0 }];
            enter(first, some, again as u8);
        }
        let other = if first == word::FRESH { &not_named } else { &down };
        if !other.is_empty() {
            enter(first, some, random.pick(other) as u8);
        }
    }
    if let Some(&stand_in) = lists.stand_ins.first() {
        // it helps the same board too
        enter(word::HELPERS, 0, stand_in as u8);
    }
    if sizes.d > 1 {
        enter(word::HELPERS, 1, lists.helpers[0] as u8);
    }
    all
}

/// An entry that is no board of n, or some board.
fn any_entry(random: &mut Random, n: usize) -> u8 {
    let below = random.below(n) as u8;
    random.pick(&[255, 255, n as u8, 31, 32, 33, 64 + below, 128 + below, below])
}

/// How many packets a step is allowed where so many are left: none, one, three, all but one, all, more than there are.
pub fn allowance(random: &mut Random, left: usize) -> usize {
    let some = random.within(0, left);
    let few = random.within(1, 9);
    let beyond = random.pick(&[left + few, 256, 1 << 32, (1 << 32) + 1, 1 << 63, usize::MAX, usize::MAX]);
    random.pick(&[0, 1, 1, 1, 2, 3, 3, few, some, left.saturating_sub(1), left, beyond])
}

/// The packet area of a step, of so many bytes where a repair runs; sometimes of another length, and of any where none runs.
pub fn packet_area(random: &mut Random, due: Option<usize>) -> Vec<u8> {
    let any = random.within(0, 2 * MAX_BOARDS);
    let length = match due {
        Some(due) if random.once_in(8) => random.pick(&[0, due.saturating_sub(1), due + 1, 2 * due, due + any]),
        Some(due) => due,
        None => random.pick(&[0, 0, 1, any]),
    };
    random.bytes(length)
}

/// A board number that a loss names while a repair runs: mostly one of those named, or one that is not.
pub fn to_lose(random: &mut Random, sizes: Sizes, lists: &Lists) -> usize {
    let not_named: Vec<usize> = (0..sizes.n).filter(|&board| !lists.name(board)).collect();
    match random.below(8) {
        0..=3 if !not_named.is_empty() => random.pick(&not_named),
        4 => random.pick(&lists.fresh),
        5 => random.pick(&lists.helpers),
        6 if !lists.stand_ins.is_empty() => random.pick(&lists.stand_ins),
        7 => draw::any_number(random, sizes.n),
        _ => random.below(sizes.n),
    }
}
