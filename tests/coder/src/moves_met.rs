//! Which kinds of moves (request A.10 of document 02) are met.

use crate::call::refusal::{ACCEPTED, COUNT, DOWN, EMPTY, NODE, REPEAT};
use crate::call::{Call, Lent, Outcome};
use crate::code::{Sizes, MAX_BOARDS};
use crate::edits::Where;
use crate::points;
use crate::store::{self, has_repeat, word};

/// What a move may be, with what it is answered; one may be several. Each must have been met, and those that are not marked `Small` also with five
/// boards or more and over 100 stripes.
const KINDS: [(&str, u8, Where); 57] = [
    ("to 0 to n − 1", ACCEPTED, Where::Any),
    ("from 0 to n − 1", ACCEPTED, Where::Any),
    ("from i + 1", ACCEPTED, Where::Any),
    ("to 00, which numbers from n up keep", ACCEPTED, Where::Any),
    ("to 00 of 32 boards", ACCEPTED, Where::Any),
    ("to FF", ACCEPTED, Where::Any),
    ("board 0", ACCEPTED, Where::Any),
    ("board n − 1", ACCEPTED, Where::Any),
    ("r = 1, no partners", ACCEPTED, Where::Any),
    ("two partners or more", ACCEPTED, Where::Any),
    ("k = d", ACCEPTED, Where::Any),
    ("d = 1", ACCEPTED, Where::Any),
    ("d + r = n", ACCEPTED, Where::Any),
    ("d + r = n = 32", ACCEPTED, Where::Any),
    ("a file of no bytes", ACCEPTED, Where::Small),
    ("room behind the shares", ACCEPTED, Where::Any),
    ("boards that keep nothing of the moved one", ACCEPTED, Where::Any),
    ("any words behind the first, none running", ACCEPTED, Where::Any),
    ("its own byte", REPEAT, Where::Any),
    ("another board's byte", REPEAT, Where::Any),
    ("the byte of board n − 1", REPEAT, Where::Any),
    ("the moved board helps", REPEAT, Where::Any),
    ("the moved board is a partner", REPEAT, Where::Any),
    ("a helper is a partner", REPEAT, Where::Any),
    ("a helper twice", REPEAT, Where::Any),
    ("a partner twice", REPEAT, Where::Any),
    ("a board's byte, and a board is down", REPEAT, Where::Any),
    ("a helper too few", COUNT, Where::Any),
    ("a helper too many", COUNT, Where::Any),
    ("a partner too few", COUNT, Where::Any),
    ("a partner too many", COUNT, Where::Any),
    ("a partner where r = 1", COUNT, Where::Any),
    ("a board of n or more too", COUNT, Where::Any),
    ("the board is n or more", NODE, Where::Any),
    ("a helper is n or more", NODE, Where::Any),
    ("a partner is n or more", NODE, Where::Any),
    ("a board's byte too", NODE, Where::Any),
    ("the moved board is out of service", DOWN, Where::Any),
    ("a helper is out of service", DOWN, Where::Any),
    ("a partner is out of service", DOWN, Where::Any),
    ("a board not named is out of service", DOWN, Where::Any),
    ("all boards are out of service", DOWN, Where::Any),
    ("a list of another length, before a write", EMPTY, Where::Small),
    ("wrong bytes on a helper", ACCEPTED, Where::Any),
    ("wrong bytes on a partner", ACCEPTED, Where::Any),
    ("wrong bytes on the moved board", ACCEPTED, Where::Any),
    ("wrong bytes on a board not named", ACCEPTED, Where::Any),
    ("any bytes on all boards", ACCEPTED, Where::Any),
    ("bytes behind the shares", ACCEPTED, Where::Any),
    ("true shares, at the new points afterwards", ACCEPTED, Where::Any),
    ("behind an edit", ACCEPTED, Where::Any),
    ("behind a loss and its repair", ACCEPTED, Where::Any),
    ("behind a repair by steps", ACCEPTED, Where::Any),
    ("behind a power failure", ACCEPTED, Where::Any),
    ("behind a careful read", ACCEPTED, Where::Any),
    ("the last of n in turn, as written anew", ACCEPTED, Where::Any),
    ("the last of 32 in turn, as written anew", ACCEPTED, Where::Any),
];

/// The kinds that only who altered the area or made the calls before can tell.
pub const HELPER: usize = 43;
pub const PARTNER: usize = 44;
pub const MOVED: usize = 45;
pub const NOT_NAMED: usize = 46;
pub const ANY: usize = 47;
pub const BEHIND: usize = 48;
pub const TRUE: usize = 49;
pub const EDITED: usize = 50;
pub const REBUILT: usize = 51;
pub const STEPPED: usize = 52;
pub const FAILED: usize = 53;
pub const CAREFUL: usize = 54;
pub const IN_TURN: usize = 55;
pub const IN_TURN_32: usize = 56;

/// How many moves of each kind were answered as they must be, and how many of them with five boards or more and over 100 stripes.
#[derive(Default)]
pub struct Met {
    all: Vec<u64>,
    large: Vec<u64>,
}

impl Met {
    /// Counts a move, of all kinds that the call and its outcome tell.
    pub fn count(&mut self, call: &Call, lent: &Lent, outcome: &Outcome) {
        let Call::Move { board, point, helpers, partners } = call else { return };
        let Some((sizes, points)) = store::given(&lent.record) else { return };
        let asked = Asked { sizes, points, board: *board, point: *point, helpers, partners, lent };
        let kinds = match (outcome.answer & 255) as u8 {
            ACCEPTED => asked.accepted(outcome),
            REPEAT => asked.repeated(),
            COUNT => asked.counted(),
            NODE => asked.unknown(),
            DOWN => asked.down(),
            EMPTY => vec![(42, helpers.len() != sizes.d)],
            _ => return,
        };
        let length = lent.record[word::LENGTH] as usize;
        for (kind, _) in kinds.into_iter().filter(|(_, holds)| *holds) {
            self.tell(kind, sizes, length);
        }
    }

    /// Counts a move of a kind, of a file of so many bytes.
    pub fn tell(&mut self, kind: usize, sizes: Sizes, length: usize) {
        self.all.resize(KINDS.len(), 0);
        self.large.resize(KINDS.len(), 0);
        self.all[kind] += 1;
        self.large[kind] += u64::from(sizes.n > 4 && length > 100 * sizes.stripe_len());
    }

    /// What must have been met, and was not.
    pub fn never(&self) -> Vec<String> {
        let mut missing = Vec::new();
        for (kind, (name, number, due)) in KINDS.iter().enumerate() {
            let count = |counts: &[u64]| counts.get(kind).copied().unwrap_or(0);
            if count(&self.all) == 0 {
                missing.push(format!("a move, {name}, answered with {number}"));
            }
            if *due == Where::Any && count(&self.large) == 0 {
                missing.push(format!("a move over 100 stripes, {name}, answered with {number}"));
            }
        }
        missing
    }

    pub fn print(&self) {
        println!("{:42} refusal    times  >100 stripes, n over 4, of the calls of zbk_move", "moves");
        for (kind, (name, number, _)) in KINDS.iter().enumerate() {
            let count = |counts: &[u64]| counts.get(kind).copied().unwrap_or(0);
            println!("{name:42} {number:>7} {:>8} {:>8}", count(&self.all), count(&self.large));
        }
    }
}

/// A move over a record.
struct Asked<'a> {
    sizes: Sizes,
    points: Vec<u8>,
    board: usize,
    point: u8,
    helpers: &'a [usize],
    partners: &'a [usize],
    lent: &'a Lent,
}

impl Asked<'_> {
    fn taken(&self) -> bool {
        self.points[..self.sizes.n].contains(&self.point)
    }

    fn is_down(&self, board: usize) -> bool {
        self.lent.record[word::MARKS] >> board & 1 == 0
    }

    fn all(&self) -> std::ops::Range<usize> {
        0..self.sizes.n
    }

    fn accepted(&self, outcome: &Outcome) -> Vec<(usize, bool)> {
        let Sizes { n, k, d, r } = self.sizes;
        let kind_after = store::given(&outcome.lent.record).map(|(sizes, points)| points::kind(sizes, &points));
        let kind_before = points::kind(self.sizes, &self.points);
        let length = self.lent.record[word::LENGTH] as usize;
        let room = self.lent.record[word::CAPACITY] as usize > self.sizes.stripes(length);
        vec![
            (0, kind_after == Some(0)),
            (1, kind_before == 0),
            (2, kind_before == 1),
            (3, n < MAX_BOARDS && self.point == 0),
            (4, n == MAX_BOARDS && self.point == 0),
            (5, self.point == 0xFF),
            (6, self.board == 0),
            (7, self.board == n - 1),
            (8, r == 1),
            (9, r > 2),
            (10, k == d),
            (11, d == 1),
            (12, d + r == n),
            (13, d + r == MAX_BOARDS),
            (14, length == 0),
            (15, room),
            (16, d + r < n),
            (17, self.lent.repair[1..].iter().any(|&word| word != 0)),
        ]
    }

    fn repeated(&self) -> Vec<(usize, bool)> {
        let n = self.sizes.n;
        let named = [&[self.board], self.helpers, self.partners].concat();
        let lists = has_repeat(&named);
        let own = self.points.get(self.board) == Some(&self.point);
        // where only the byte is wrong
        let byte = !lists && self.taken();
        vec![
            (18, byte && own),
            (19, byte && !own),
            (20, byte && self.points[n - 1] == self.point && self.board != n - 1),
            (21, !self.taken() && self.helpers.contains(&self.board)),
            (22, !self.taken() && self.partners.contains(&self.board)),
            (23, !self.taken() && self.helpers.iter().any(|helper| self.partners.contains(helper))),
            (24, !self.taken() && has_repeat(self.helpers)),
            (25, !self.taken() && has_repeat(self.partners)),
            (26, byte && self.all().any(|board| self.is_down(board))),
        ]
    }

    fn counted(&self) -> Vec<(usize, bool)> {
        let Sizes { n, d, r, .. } = self.sizes;
        let (helpers, partners) = (self.helpers.len(), self.partners.len());
        let unknown = [&[self.board], self.helpers, self.partners].concat().iter().any(|&board| board >= n);
        vec![
            (27, helpers + 1 == d && partners + 1 == r),
            (28, helpers == d + 1 && partners + 1 == r),
            (29, helpers == d && partners + 2 == r),
            (30, helpers == d && partners == r),
            (31, helpers == d && r == 1 && partners == 1),
            (32, unknown),
        ]
    }

    fn unknown(&self) -> Vec<(usize, bool)> {
        let n = self.sizes.n;
        vec![
            (33, self.board >= n),
            (34, self.helpers.iter().any(|&helper| helper >= n)),
            (35, self.partners.iter().any(|&partner| partner >= n)),
            (36, self.taken()),
        ]
    }

    fn down(&self) -> Vec<(usize, bool)> {
        let some = |boards: &[usize]| boards.iter().any(|&board| self.is_down(board));
        let named =
            |board: usize| self.board == board || self.helpers.contains(&board) || self.partners.contains(&board);
        // those that are down are of one kind
        let alone = |boards: &[usize]| self.all().all(|board| !self.is_down(board) || boards.contains(&board));
        let others: Vec<usize> = self.all().filter(|&board| !named(board)).collect();
        vec![
            (37, alone(&[self.board])),
            (38, some(self.helpers) && alone(self.helpers)),
            (39, some(self.partners) && alone(self.partners)),
            (40, some(&others) && alone(&others)),
            (41, self.all().all(|board| self.is_down(board))),
        ]
    }
}
