//! Repairs of 1 to r boards (request A.3 of document 02): how their lists are drawn, faults in these lists, and which kinds of repairs are met.

use crate::call::Call;
use crate::code::Sizes;
use crate::random::Random;
use std::ops::RangeInclusive;

/// What an accepted repair may be; one may be several.
pub const KINDS: [&str; 5] = [
    "t = r",
    "t = 1, r above 1",
    "t between 1 and r",
    "a helper of one stands in for another",
    "a stand-in was rebuilt before",
];

/// The kind that only a history can tell.
pub const REBUILT: usize = 4;

/// Which of KINDS, but the last, a repair with right lists is.
pub fn kinds(sizes: Sizes, fresh: &[usize], helpers: &[usize], stand_ins: &[usize]) -> Vec<usize> {
    let (t, r) = (fresh.len(), sizes.r);
    // each board's own lists differ, so that it is another one's
    let both = stand_ins.iter().any(|board| helpers.contains(board));
    let holds = [t == r, t == 1 && r > 1, 1 < t && t < r, both];
    (0..holds.len()).filter(|&kind| holds[kind]).collect()
}

/// How many of the boards that are lost can be rebuilt together: 1 to r of them, with d + r − t others in service. Empty where none can.
pub fn numbers(sizes: Sizes, lost: usize) -> RangeInclusive<usize> {
    let Sizes { n, d, r, .. } = sizes;
    let fewest = (d + r + lost).saturating_sub(n).max(1);
    fewest..=lost.min(r)
}

/// Whether boards can be rebuilt where so many are lost.
pub fn possible(sizes: Sizes, lost: usize) -> bool {
    !numbers(sizes, lost).is_empty()
}

/// A repair of boards out of service, each with helpers and stand-ins of its own in service. Where there are too few of either, as sometimes by the
/// number of fresh boards alone, others take their places, and it is refused.
pub fn draw(random: &mut Random, sizes: Sizes, in_service: &[usize]) -> Call {
    let Sizes { n, r, .. } = sizes;
    let lost = (0..n).filter(|board| !in_service.contains(board)).count();
    let (fewest, most) = numbers(sizes, lost).into_inner();
    let t = if fewest > most || random.once_in(8) {
        random.within(1, r)
    } else if random.once_in(6) {
        1
    } else {
        random.within(fewest, most)
    };
    of(random, sizes, in_service, t)
}

/// A start of a repair that `draw` gives.
pub fn start(random: &mut Random, sizes: Sizes, in_service: &[usize]) -> Call {
    match draw(random, sizes, in_service) {
        Call::Repair { fresh, helpers, stand_ins } => Call::Start { fresh, helpers, stand_ins },
        other => other,
    }
}

/// A repair of t boards, out of service as far as there are such.
pub fn of(random: &mut Random, sizes: Sizes, in_service: &[usize], t: usize) -> Call {
    let Sizes { n, d, r, .. } = sizes;
    let lost: Vec<usize> = (0..n).filter(|board| !in_service.contains(board)).collect();
    let fresh = first_of(random, &lost, in_service, t);
    let left = |from: &[usize]| from.iter().copied().filter(|board| !fresh.contains(board)).collect::<Vec<usize>>();
    let (first, then) = (left(in_service), left(&lost));
    let (mut helpers, mut stand_ins) = (Vec::new(), Vec::new());
    for _ in &fresh {
        let mut heard = first_of(random, &first, &then, d + r - t);
        stand_ins.extend(heard.split_off(d));
        helpers.extend(heard);
    }
    Call::Repair { fresh, helpers, stand_ins }
}

/// Different boards: of the first list, and where these are too few of the second.
fn first_of(random: &mut Random, first: &[usize], then: &[usize], count: usize) -> Vec<usize> {
    let mut boards = random.choose(first.to_vec(), count);
    let more = random.choose(then.to_vec(), count - boards.len());
    boards.extend(more);
    // in any order
    random.choose(boards, count)
}

/// The lists of a repair, to be spoilt.
struct Lists<'a> {
    sizes: Sizes,
    in_service: &'a [usize],
    fresh: &'a mut Vec<usize>,
    helpers: &'a mut Vec<usize>,
    stand_ins: &'a mut Vec<usize>,
}

/// Puts a fault into the lists of a repair or a start that `draw` gave, sometimes two, of which the one that comes first in the order decides. Any
/// other call stays as it is.
pub fn spoil(random: &mut Random, sizes: Sizes, in_service: &[usize], call: &mut Call) {
    let (Call::Repair { fresh, helpers, stand_ins } | Call::Start { fresh, helpers, stand_ins }) = call else { return };
    let mut lists = Lists { sizes, in_service, fresh, helpers, stand_ins };
    match random.below(18) {
        0..=2 => lists.sender_down(random),
        3..=4 => lists.fresh_in_service(random),
        5..=6 => {
            // 14 comes before 9
            lists.fresh_in_service(random);
            lists.sender_down(random);
        }
        7 => {
            // 6 comes before 14
            lists.fresh_in_service(random);
            lists.fresh_sends(random);
        }
        8..=9 => lists.fresh_sends(random),
        10..=11 => lists.sender_twice(random),
        12..=13 => lists.one_more_or_less(random),
        14 => lists.none_fresh(random),
        15 => lists.more_than_r(random),
        16 => lists.stand_in_beside_r(random),
        _ => lists.runs_of_another_count(random),
    }
}

impl Lists<'_> {
    /// The places of a fresh board's helpers, then those of its stand-ins behind all helpers.
    fn senders(&self, a: usize) -> Vec<usize> {
        let (d, each) = (self.sizes.d, self.sizes.r - self.fresh.len());
        let behind = self.helpers.len();
        (a * d..(a + 1) * d).chain((a * each..(a + 1) * each).map(|place| behind + place)).collect()
    }

    /// The helper or stand-in at a place.
    fn sender(&mut self, place: usize) -> &mut usize {
        match place.checked_sub(self.helpers.len()) {
            None => &mut self.helpers[place],
            Some(place) => &mut self.stand_ins[place],
        }
    }

    /// A place of a fresh board's stand-ins, sometimes of its helpers, which it always has.
    fn some_sender(&self, random: &mut Random, a: usize) -> usize {
        let (helpers, stand_ins) =
            self.senders(a).into_iter().partition::<Vec<usize>, _>(|&place| place < self.helpers.len());
        let of = if stand_ins.is_empty() || random.once_in(3) { helpers } else { stand_ins };
        random.pick(&of)
    }

    /// A board in service, or out of it, that these are not.
    fn other(&self, random: &mut Random, serving: bool, not: &[usize]) -> Option<usize> {
        let boards =
            (0..self.sizes.n).filter(|board| self.in_service.contains(board) == serving && !not.contains(board));
        random.choose(boards.collect(), 1).first().copied()
    }

    /// A helper or a stand-in that is out of service, if there is a board for it.
    fn sender_down(&mut self, random: &mut Random) {
        let a = random.below(self.fresh.len());
        let places = self.senders(a);
        let mut named = self.fresh.clone();
        named.extend(places.iter().map(|&place| *self.sender(place)));
        let place = self.some_sender(random, a);
        if let Some(board) = self.other(random, false, &named) {
            *self.sender(place) = board;
        }
    }

    /// A fresh board that is in service, if there is one that is not named.
    fn fresh_in_service(&mut self, random: &mut Random) {
        let named = [&self.fresh[..], self.helpers, self.stand_ins].concat();
        let a = random.below(self.fresh.len());
        if let Some(board) = self.other(random, true, &named) {
            self.fresh[a] = board;
        }
    }

    /// A fresh board, its own or another, as helper or stand-in.
    fn fresh_sends(&mut self, random: &mut Random) {
        let a = random.below(self.fresh.len());
        let place = self.some_sender(random, a);
        *self.sender(place) = random.pick(self.fresh);
    }

    /// A helper or a stand-in once more for the same fresh board; mostly a helper that stands in too.
    fn sender_twice(&mut self, random: &mut Random) {
        let a = random.below(self.fresh.len());
        let (from, to) = (random.pick(&self.senders(a)), self.some_sender(random, a));
        *self.sender(to) = *self.sender(from);
    }

    /// A helper or a stand-in too many or too few.
    fn one_more_or_less(&mut self, random: &mut Random) {
        let board = random.below(self.sizes.n);
        let list = if random.once_in(3) { &mut *self.helpers } else { &mut *self.stand_ins };
        if list.is_empty() || random.once_in(2) {
            list.push(board);
        } else {
            list.pop();
        }
    }

    /// No fresh board, mostly with the lists that would be right for none.
    fn none_fresh(&mut self, random: &mut Random) {
        self.fresh.clear();
        if !random.once_in(4) {
            self.helpers.clear();
            self.stand_ins.clear();
        }
    }

    /// r + 1 fresh boards, d helpers for each, and no stand-ins, as if there could be none less than none.
    fn more_than_r(&mut self, random: &mut Random) {
        let Sizes { n, d, r, .. } = self.sizes;
        while self.fresh.len() <= r {
            let board = self.other(random, false, self.fresh).or_else(|| self.other(random, true, self.fresh));
            self.fresh.push(board.expect("r + 1 boards are at most n"));
        }
        let left: Vec<usize> = (0..n).filter(|board| !self.fresh.contains(board)).collect();
        let lists = (0..self.fresh.len()).map(|_| random.choose(left.clone(), d));
        *self.helpers = lists.collect::<Vec<Vec<usize>>>().concat();
        self.helpers.resize((r + 1) * d, self.fresh[0]);
        self.stand_ins.clear();
    }

    /// r fresh boards, and a stand-in too.
    fn stand_in_beside_r(&mut self, random: &mut Random) {
        let Sizes { n, d, r, .. } = self.sizes;
        *self.fresh = random.choose((0..n).collect(), r);
        let left: Vec<usize> = (0..n).filter(|board| !self.fresh.contains(board)).collect();
        *self.helpers = (0..r).flat_map(|_| random.choose(left.clone(), d)).collect();
        *self.stand_ins = vec![random.pick(&left)];
    }

    /// Lists as long as another number of fresh boards would have them, or stand-ins for all together and not for each.
    fn runs_of_another_count(&mut self, random: &mut Random) {
        let Sizes { n, d, r, .. } = self.sizes;
        let t = self.fresh.len();
        let other = random.within(1, r);
        let (helpers, stand_ins) =
            random.pick(&[(r * d, t * (r - t)), (other * d, other * (r - other)), (t * d, r - t)]);
        let any = random.below(n);
        self.helpers.resize(helpers, any);
        self.stand_ins.resize(stand_ins, any);
    }
}
