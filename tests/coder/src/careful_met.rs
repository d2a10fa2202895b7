//! Which kinds of careful reads (request A.11 of document 02) are met.

use crate::call::refusal::{ACCEPTED, COUNT, DISAGREE, DOWN, EMPTY, NODE, REPEAT, SHORT};
use crate::call::{Call, Lent, Outcome};
use crate::code::Sizes;
use crate::edits::Where;
use crate::store::{self, word};

/// What a careful read may be, with what it is answered; one may be several. Each must have been met, and those that are not marked `Small` also with
/// five boards or more and over 100 stripes.
const KINDS: [(&str, u8, Where); 54] = [
    ("none odd", ACCEPTED, Where::Any),
    ("none odd, of a file of no bytes", ACCEPTED, Where::Small),
    ("none odd, k = 1", ACCEPTED, Where::Any),
    ("none odd, k + 2 = n", ACCEPTED, Where::Any),
    ("board 0 is odd", ACCEPTED, Where::Any),
    ("board n − 1 is odd", ACCEPTED, Where::Any),
    ("the first named is odd", ACCEPTED, Where::Any),
    ("the k-th named is odd", ACCEPTED, Where::Any),
    ("the last but one named is odd", ACCEPTED, Where::Any),
    ("the last named is odd", ACCEPTED, Where::Any),
    ("one is odd, k = 1", ACCEPTED, Where::Any),
    ("one is odd, k = d", ACCEPTED, Where::Any),
    ("one is odd, k + 2 = n", ACCEPTED, Where::Any),
    ("one is odd, just k + 2 in service", ACCEPTED, Where::Any),
    ("one is odd, others are out of service", ACCEPTED, Where::Any),
    ("one is odd, a last stripe that is cut", ACCEPTED, Where::Any),
    ("one is odd, a last stripe that is full", ACCEPTED, Where::Any),
    ("none odd, while a repair runs", ACCEPTED, Where::Any),
    ("one is odd, while a repair runs", ACCEPTED, Where::Any),
    ("a byte of one board", ACCEPTED, Where::Any),
    ("what a board keeps of a stripe", ACCEPTED, Where::Any),
    ("all bytes of a board", ACCEPTED, Where::Any),
    ("two stripes of one board", ACCEPTED, Where::Any),
    ("a share of another file", ACCEPTED, Where::Any),
    ("a share with a byte in the padding", ACCEPTED, Where::Any),
    ("the first k agree, on another file", ACCEPTED, Where::Any),
    ("a wrong board that is not named", ACCEPTED, Where::Any),
    ("bytes behind the shares", ACCEPTED, Where::Any),
    ("all boards of another file", ACCEPTED, Where::Any),
    ("two boards, in one stripe", DISAGREE, Where::Any),
    ("two boards, in different stripes", DISAGREE, Where::Any),
    ("two boards, all bytes", DISAGREE, Where::Any),
    ("two boards, one in the padding alone", DISAGREE, Where::Any),
    ("the padding of all boards", DISAGREE, Where::Any),
    ("the first k agree, the others are wrong", DISAGREE, Where::Any),
    ("two boards of another file", DISAGREE, Where::Any),
    ("any bytes on all boards", DISAGREE, Where::Any),
    ("no boards", COUNT, Where::Any),
    ("k boards", COUNT, Where::Any),
    ("k + 1 boards", COUNT, Where::Any),
    ("k + 3 boards", COUNT, Where::Any),
    ("k + 2 above n, and k + 2 numbers", COUNT, Where::Small),
    ("k + 2 above n, and n boards", COUNT, Where::Small),
    ("a list of another length, before a write", EMPTY, Where::Small),
    ("a board twice too", NODE, Where::Any),
    ("a board out of service too", REPEAT, Where::Any),
    ("an output that is too short too", DOWN, Where::Any),
    ("a byte too short, of boards that disagree", SHORT, Where::Any),
    ("a worn board, then an edit", ACCEPTED, Where::Any),
    ("a worn board, then a power failure", ACCEPTED, Where::Any),
    ("a worn board, lost and rebuilt", ACCEPTED, Where::Any),
    ("boards rebuilt by a worn one", DISAGREE, Where::Any),
    ("a worn board, then a move of another", ACCEPTED, Where::Any),
    ("a worn board, moved itself", ACCEPTED, Where::Any),
];

/// The kinds that only who altered the area can tell.
pub const BYTE: usize = 19;
pub const STRIPE: usize = 20;
pub const BOARD: usize = 21;
pub const TWO_STRIPES: usize = 22;
pub const OTHER_FILE: usize = 23;
pub const PADDED: usize = 24;
pub const FIRST_AGREE: usize = 25;
pub const NOT_NAMED: usize = 26;
pub const BEHIND: usize = 27;
pub const ALL_OTHER: usize = 28;
pub const ONE_STRIPE: usize = 29;
pub const DIFFERENT_STRIPES: usize = 30;
pub const TWO_BOARDS: usize = 31;
pub const ONE_PADDED: usize = 32;
pub const ALL_PADDED: usize = 33;
pub const OTHERS_WRONG: usize = 34;
pub const TWO_OF_OTHER: usize = 35;
pub const ANY: usize = 36;
pub const SHORT_TOO: usize = 47;
pub const EDITED: usize = 48;
pub const FAILED: usize = 49;
pub const REBUILT: usize = 50;
pub const SPREAD: usize = 51;
pub const OTHER_MOVED: usize = 52;
pub const ITSELF_MOVED: usize = 53;

/// How many careful reads of each kind were answered as they must be, and how many of them with five boards or more and over 100 stripes.
#[derive(Default)]
pub struct Met {
    all: Vec<u64>,
    large: Vec<u64>,
}

impl Met {
    /// Counts a careful read, of all kinds that the call and its outcome tell.
    pub fn count(&mut self, call: &Call, lent: &Lent, outcome: &Outcome) {
        let Call::Careful { boards } = call else { return };
        let Some((sizes, _)) = store::given(&lent.record) else { return };
        let length = lent.record[word::LENGTH] as usize;
        let kinds = match (outcome.answer & 255) as u8 {
            ACCEPTED => accepted(sizes, length, boards, lent, outcome),
            COUNT => counted(sizes, boards.len()),
            EMPTY => vec![(43, boards.len() != sizes.k + 2)],
            number @ (NODE | REPEAT | DOWN) => also(number, sizes, boards, lent),
            _ => return,
        };
        for (kind, _) in kinds.into_iter().filter(|(_, holds)| *holds) {
            self.tell(kind, sizes, length);
        }
    }

    /// Counts a careful read of a kind, of a file of so many bytes.
    pub fn tell(&mut self, kind: usize, sizes: Sizes, length: usize) {
        self.all.resize(KINDS.len(), 0);
        self.large.resize(KINDS.len(), 0);
        self.all[kind] += 1;
        self.large[kind] += u64::from(sizes.n > 4 && length > 100 * sizes.stripe_len());
    }

    /// What must have been met, and was not.
    pub fn never(&self) -> Vec<String> {
        let mut missing = Vec::new();
        for (kind, (name, number, due)) in KINDS.iter().enumerate() {
            let count = |counts: &[u64]| counts.get(kind).copied().unwrap_or(0);
            if count(&self.all) == 0 {
                missing.push(format!("a careful read, {name}, answered with {number}"));
            }
            if *due == Where::Any && count(&self.large) == 0 {
                missing.push(format!("a careful read over 100 stripes, {name}, answered with {number}"));
            }
        }
        missing
    }

    pub fn print(&self) {
        println!("{:42} refusal    times  >100 stripes, n over 4, of the calls of zbk_read_careful", "careful reads");
        for (kind, (name, number, _)) in KINDS.iter().enumerate() {
            let count = |counts: &[u64]| counts.get(kind).copied().unwrap_or(0);
            println!("{name:42} {number:>7} {:>8} {:>8}", count(&self.all), count(&self.large));
        }
    }
}

/// The kinds of one that is accepted, but those that only who altered the area can tell.
fn accepted(sizes: Sizes, length: usize, boards: &[usize], lent: &Lent, outcome: &Outcome) -> Vec<(usize, bool)> {
    let Sizes { n, k, d, .. } = sizes;
    let runs = lent.repair[0] == 1;
    let Some(odd) = (outcome.answer >> 8).checked_sub(1).map(|board| board as usize) else {
        return vec![(0, true), (1, length == 0), (2, k == 1), (3, k + 2 == n), (17, runs)];
    };
    let place = boards.iter().position(|&board| board == odd);
    let in_service = lent.record[word::MARKS].count_ones() as usize;
    let cut = length % sizes.stripe_len() != 0;
    vec![
        (4, odd == 0),
        (5, odd == n - 1),
        (6, place == Some(0)),
        (7, place == Some(k - 1)),
        (8, place == Some(k)),
        (9, place == Some(k + 1)),
        (10, k == 1),
        (11, k == d),
        (12, k + 2 == n),
        (13, in_service == k + 2),
        (14, in_service < n),
        (15, cut),
        (16, !cut),
        (18, runs),
    ]
}

/// The kinds of a list of so many boards that is COUNT.
fn counted(sizes: Sizes, boards: usize) -> Vec<(usize, bool)> {
    let Sizes { n, k, .. } = sizes;
    let few = k + 2 > n;
    vec![
        (37, boards == 0),
        (38, boards == k && !few),
        (39, boards == k + 1 && !few),
        (40, boards == k + 3 && !few),
        (41, boards == k + 2 && few),
        (42, boards == n && few),
    ]
}

/// The kinds of one that is refused by its boards, though a later line holds too.
fn also(number: u8, sizes: Sizes, boards: &[usize], lent: &Lent) -> Vec<(usize, bool)> {
    let twice = (1..boards.len()).any(|place| boards[..place].contains(&boards[place]));
    let down = boards.iter().any(|&board| board < sizes.n && lent.record[word::MARKS] >> board & 1 == 0);
    let short = (lent.out.len() as u64) < lent.record[word::LENGTH];
    vec![(44, number == NODE && twice), (45, number == REPEAT && down), (46, number == DOWN && short)]
}
