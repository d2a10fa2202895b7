//! What is met of repairs a packet at a time (request A.8 of document 02): steps, what goes on while a repair runs, losses, power failures, and
//! records that no call hands on.

use crate::call::refusal::{ACCEPTED, AREA, BUSY, DOWN, EMPTY, IDLE, LONG, NODE, REPEAT, SERVING, SIZE};
use crate::call::{Call, Lent, Outcome};
use crate::code::Sizes;
use crate::running::{self, word, Lists, Told};
use crate::steps::{self, Kind, Packet};
use crate::store::{self, Record};

/// What may be met, with what it is answered; a call may be several. Each must have been met, and those that are not marked `Small` also with five
/// boards or more and over 100 stripes.
const KINDS: [(&str, u8, Where); 70] = [
    ("a step of 0", ACCEPTED, Where::Any),
    ("a step of 1 packet", ACCEPTED, Where::Any),
    ("a step of 3 packets", ACCEPTED, Where::Any),
    ("all left, by as many", ACCEPTED, Where::Any),
    ("all left, by more", ACCEPTED, Where::Any),
    ("all left, by 2^64 − 1", ACCEPTED, Where::Any),
    ("all packets at once", ACCEPTED, Where::Any),
    ("up to the last but one", ACCEPTED, Where::Any),
    ("helper packets alone", ACCEPTED, Where::Any),
    ("stand-ins' packets alone", ACCEPTED, Where::Any),
    ("exchanges alone", ACCEPTED, Where::Any),
    ("helpers' with stand-ins'", ACCEPTED, Where::Any),
    ("helpers' with exchanges", ACCEPTED, Where::Any),
    ("stand-ins' with exchanges, 1 < t < r", ACCEPTED, Where::Any),
    ("the last is a helper's", ACCEPTED, Where::Small),
    ("the last is a stand-in's", ACCEPTED, Where::Any),
    ("the last is an exchange", ACCEPTED, Where::Any),
    ("three fresh boards or more", ACCEPTED, Where::Any),
    ("fresh boards in no order of numbers", ACCEPTED, Where::Any),
    ("an empty file", ACCEPTED, Where::Small),
    ("any bytes in entries not used", ACCEPTED, Where::Any),
    ("a last step that changes the area", ACCEPTED, Where::Any),
    ("a last step by a packet altered", ACCEPTED, Where::Any),
    ("an exchange of a packet altered", ACCEPTED, Where::Any),
    ("a wrong byte on a sender", ACCEPTED, Where::Any),
    ("a step after another board was lost", ACCEPTED, Where::Any),
    ("packets: a byte less", AREA, Where::Any),
    ("packets: a byte more", AREA, Where::Any),
    ("an area of another length", AREA, Where::Any),
    ("a step before a write", EMPTY, Where::Small),
    ("a step of 0, none running", IDLE, Where::Any),
    ("packets of some bytes, none running", IDLE, Where::Any),
    ("any words behind the first, none running", IDLE, Where::Any),
    ("a read meanwhile", ACCEPTED, Where::Any),
    ("a read of a fresh board meanwhile", DOWN, Where::Any),
    ("a write meanwhile", BUSY, Where::Any),
    ("a write meanwhile, too long", LONG, Where::Any),
    ("an edit meanwhile", BUSY, Where::Any),
    ("an edit meanwhile, beyond L", BUSY, Where::Any),
    ("a repair meanwhile", BUSY, Where::Any),
    ("a start meanwhile", BUSY, Where::Any),
    ("wrong lists meanwhile", BUSY, Where::Any),
    ("a loss of a fresh board", ACCEPTED, Where::Any),
    ("a loss of a helper", ACCEPTED, Where::Any),
    ("a loss of a stand-in", ACCEPTED, Where::Any),
    ("a loss of another board", ACCEPTED, Where::Any),
    ("a loss of another board that is lost", ACCEPTED, Where::Any),
    ("a loss of no board meanwhile", NODE, Where::Any),
    ("a set-up meanwhile", ACCEPTED, Where::Small),
    ("a set-up over words that are none", ACCEPTED, Where::Small),
    ("a set-up meanwhile, refused", SIZE, Where::Small),
    ("words: not 71", SIZE, Where::Any),
    ("words: the first above 1", SIZE, Where::Any),
    ("words: no fresh board", SIZE, Where::Any),
    ("words: r + 1 to 32 fresh boards", SIZE, Where::Any),
    ("words: 33 fresh boards", SIZE, Where::Any),
    ("words: 2^64 − 1 fresh boards", SIZE, Where::Any),
    ("words: a count right in its last bits", SIZE, Where::Any),
    ("words: a board of n or more", SIZE, Where::Any),
    ("words: an entry of 255", SIZE, Where::Any),
    ("words: a board twice", SIZE, Where::Any),
    ("words: a fresh board in service", SIZE, Where::Any),
    ("words: a sender out of service", SIZE, Where::Any),
    ("words: all carried", SIZE, Where::Any),
    ("words: more carried than there are", SIZE, Where::Any),
    ("words: 2^64 − 1 carried", SIZE, Where::Any),
    ("a careful read meanwhile", ACCEPTED, Where::Any),
    ("a careful read of a fresh board meanwhile", DOWN, Where::Any),
    ("a move meanwhile", BUSY, Where::Any),
    ("a move by wrong lists meanwhile", BUSY, Where::Any),
];

/// The kinds that only who altered something can tell.
pub const PACKET_ALTERED: usize = 22;
pub const EXCHANGE_ALTERED: usize = 23;
pub const SENDER_WRONG: usize = 24;
pub const AFTER_A_LOSS: usize = 25;

/// The first of those about records that no call hands on, and the first behind them.
const WORDS: usize = 51;
const CAREFUL: usize = 66;
const MOVE: usize = 68;

/// When power fails; told by who lets it.
pub const FAILURES: [&str; 4] =
    ["before the first packet", "between two packets", "before the last packet", "inside a last step"];

/// The calls that look at a running record, by their places in `CALLS`: each must have found one that no call hands on.
const LOOKING: std::ops::RangeInclusive<usize> = 7..=15;

/// Where a kind is due.
#[derive(Clone, Copy, PartialEq, Eq)]
enum Where {
    Small,
    Any,
}

/// How many calls of each kind were answered as they must be, and how many of them with five boards or more and over 100 stripes.
#[derive(Default)]
pub struct Met {
    all: Vec<u64>,
    large: Vec<u64>,
    failures: [[u64; 2]; FAILURES.len()],
    /// of each call, how often a record that no call hands on was found
    looking: [u64; 16],
}

/// A call while a repair runs, or by words that say so.
struct Meanwhile<'a> {
    call: &'a Call,
    lent: &'a Lent,
    outcome: &'a Outcome,
    number: u8,
    record: Record,
}

impl Met {
    /// Counts a call, of all kinds that it and its outcome tell.
    pub fn count(&mut self, call: &Call, lent: &Lent, outcome: &Outcome) {
        if !call.of_store() || (matches!(call, Call::SetUp { .. }) && lent.repair.first() == Some(&0)) {
            return;
        }
        let number = (outcome.answer & 255) as u8;
        let Some(record) = Record::read(&lent.record) else {
            if matches!(call, Call::SetUp { .. }) {
                self.set(49, number == ACCEPTED, None);
            }
            return;
        };
        let place = call.place();
        let now = Meanwhile { call, lent, outcome, number, record };
        let size = Some((now.record.sizes, now.record.stripes()));
        let kinds = match running::read(now.record.sizes, &lent.repair) {
            Told::Idle => now.idle(),
            Told::Nothing => now.nothing(),
            Told::Runs { lists, carried } => match steps::can_run(&now.record, &lists, carried) {
                true => now.running(&lists, carried as usize),
                false => now.unsound(&lists, carried),
            },
        };
        let looked = kinds.iter().any(|&(kind, holds)| (WORDS..CAREFUL).contains(&kind) && holds);
        self.looking[place] += u64::from(looked && LOOKING.contains(&place));
        for (kind, holds) in kinds {
            self.set(kind, holds && KINDS[kind].1 == number, size);
        }
    }

    /// Counts a kind where it holds, of sizes and a number of stripes.
    fn set(&mut self, kind: usize, holds: bool, size: Option<(Sizes, usize)>) {
        self.all.resize(KINDS.len(), 0);
        self.large.resize(KINDS.len(), 0);
        self.all[kind] += u64::from(holds);
        self.large[kind] += u64::from(holds && size.is_some_and(|(sizes, stripes)| large(sizes, stripes)));
    }

    /// Counts a call of a kind that only who altered something can tell.
    pub fn tell(&mut self, kind: usize, sizes: Sizes, stripes: usize) {
        self.set(kind, true, Some((sizes, stripes)));
    }

    /// Counts a power failure behind which all was as it must be.
    pub fn tell_failure(&mut self, kind: usize, sizes: Sizes, stripes: usize) {
        self.failures[kind][0] += 1;
        self.failures[kind][1] += u64::from(large(sizes, stripes));
    }

    /// What must have been met, and was not.
    pub fn never(&self) -> Vec<String> {
        let mut missing = Vec::new();
        for (kind, (name, number, due)) in KINDS.iter().enumerate() {
            let count = |counts: &[u64]| counts.get(kind).copied().unwrap_or(0);
            if count(&self.all) == 0 {
                missing.push(format!("a stepped repair, {name}, answered with {number}"));
            }
            if *due == Where::Any && count(&self.large) == 0 {
                missing.push(format!("a stepped repair over 100 stripes, {name}, answered with {number}"));
            }
        }
        for (name, counts) in FAILURES.iter().zip(self.failures) {
            if counts.contains(&0) {
                missing.push(format!("a power failure {name}, small and over 100 stripes"));
            }
        }
        for place in LOOKING {
            if self.looking[place] == 0 {
                missing.push(format!("{} over a repair's record that no call hands on", crate::call::CALLS[place].0));
            }
        }
        missing
    }

    pub fn print(&self) {
        println!("{:42} refusal    times  >100 stripes, n over 4", "repairs a packet at a time");
        for (kind, (name, number, _)) in KINDS.iter().enumerate() {
            let count = |counts: &[u64]| counts.get(kind).copied().unwrap_or(0);
            println!("{name:42} {number:>7} {:>8} {:>8}", count(&self.all), count(&self.large));
        }
        for (name, [all, large]) in FAILURES.iter().zip(self.failures) {
            println!("{:42} {:>7} {all:>8} {large:>8}", format!("power fails {name}"), "");
        }
    }
}

/// Whether a kind that is due at real sizes is met.
fn large(sizes: Sizes, stripes: usize) -> bool {
    sizes.n > 4 && stripes > 100
}

impl Meanwhile<'_> {
    /// Of words that are no record of a repair.
    fn nothing(&self) -> Vec<(usize, bool)> {
        let right = self.lent.repair.len() == word::COUNT;
        match self.call {
            Call::SetUp { .. } => vec![(49, true)],
            _ => vec![(WORDS, !right), (WORDS + 1, right)],
        }
    }

    /// Of a call where none runs.
    fn idle(&self) -> Vec<(usize, bool)> {
        let Call::Step { allowance } = self.call else { return Vec::new() };
        let any = self.lent.repair.iter().any(|&word| word != 0);
        vec![(29, true), (30, *allowance == 0), (31, !self.lent.packets.is_empty()), (32, any)]
    }

    /// Of a running record that no call hands on beside that of the store.
    fn unsound(&self, lists: &Lists, carried: u64) -> Vec<(usize, bool)> {
        if let Call::SetUp { .. } = self.call {
            return vec![(48, true), (50, true)];
        }
        let (r, count) = (self.record.sizes.r as u64, self.lent.repair[word::FRESH_COUNT]);
        let cut = [8, 16, 32].iter().any(|&bits| (1..=r).contains(&(count % (1 << bits))));
        let Lists { fresh, helpers, stand_ins } = lists;
        let refused = store::check_lists(&self.record, fresh, helpers, stand_ins).err();
        let entry = [fresh, helpers, stand_ins].into_iter().any(|list| list.contains(&255));
        let total = || steps::order(self.record.sizes, lists, self.record.stripes()).len() as u64;
        vec![
            (WORDS + 2, count == 0),
            (WORDS + 3, count > r && count <= 32),
            (WORDS + 4, count == 33),
            (WORDS + 5, count == u64::MAX),
            (WORDS + 6, count > 33 && cut),
            (WORDS + 7, refused == Some(NODE)),
            (WORDS + 8, refused == Some(NODE) && entry),
            (WORDS + 9, refused == Some(REPEAT)),
            (WORDS + 10, refused == Some(SERVING)),
            (WORDS + 11, refused == Some(DOWN)),
            (WORDS + 12, refused.is_none() && carried == total()),
            (WORDS + 13, refused.is_none() && carried > total() && carried < u64::MAX),
            (WORDS + 14, refused.is_none() && carried == u64::MAX),
        ]
    }

    /// Of a call while a repair runs.
    fn running(&self, lists: &Lists, carried: usize) -> Vec<(usize, bool)> {
        let other = |board: &usize| !lists.name(*board);
        match self.call {
            Call::SetUp { .. } => vec![(48, true), (50, true)],
            Call::Write { .. } => vec![(35, true), (36, true)],
            Call::Lose { board } => vec![
                (42, lists.fresh.contains(board)),
                (43, lists.helpers.contains(board)),
                (44, lists.stand_ins.contains(board)),
                (45, other(board)),
                (46, other(board) && !self.record.marks.get(*board).unwrap_or(&false)),
                (47, true),
            ],
            Call::Repair { fresh, helpers, stand_ins } => vec![(39, true), (41, self.wrong(fresh, helpers, stand_ins))],
            Call::Start { fresh, helpers, stand_ins } => vec![(40, true), (41, self.wrong(fresh, helpers, stand_ins))],
            Call::Read { boards } => vec![(33, true), (34, boards.iter().any(|board| lists.fresh.contains(board)))],
            Call::Careful { boards } => {
                vec![(CAREFUL, true), (CAREFUL + 1, boards.iter().any(|board| lists.fresh.contains(board)))]
            }
            Call::Edit { offset, .. } => {
                vec![(37, true), (38, *offset as u64 > self.lent.record[store::word::LENGTH])]
            }
            Call::Move { helpers, .. } => vec![(MOVE, true), (MOVE + 1, helpers.len() != self.record.sizes.d)],
            Call::Step { allowance } => self.stepped(lists, carried, *allowance),
            _ => Vec::new(),
        }
    }

    /// Whether a repair by these lists would be COUNT, NODE or REPEAT.
    fn wrong(&self, fresh: &[usize], helpers: &[usize], stand_ins: &[usize]) -> bool {
        let refused = store::check_lists(&self.record, fresh, helpers, stand_ins).err();
        refused.is_some_and(|number| number <= REPEAT)
    }

    /// Of a step.
    fn stepped(&self, lists: &Lists, carried: usize, allowance: usize) -> Vec<(usize, bool)> {
        let (sizes, stripes) = (self.record.sizes, self.record.stripes());
        let order = steps::order(sizes, lists, stripes);
        if self.number == AREA {
            let (now, due) = (self.lent.packets.len(), steps::area_len(&order));
            return vec![(26, now + 1 == due), (27, now == due + 1), (28, now == due)];
        }
        let t = lists.fresh.len();
        let now: &[Packet] = &order[carried..][..(self.outcome.answer >> 8) as usize];
        let left = order.len() - carried;
        let has = |kind: Kind| now.iter().any(|packet| packet.kind == kind);
        let last = now.last().filter(|_| now.len() == left).map(|packet| packet.kind);
        let (helper, stand_in, exchange) = (has(Kind::Helper), has(Kind::StandIn), has(Kind::Exchange));
        let after = running::words(lists, carried) != self.lent.repair;
        vec![
            (0, allowance == 0),
            (1, allowance == 1 && left > 1),
            (2, allowance == 3 && left > 3),
            (3, allowance == left),
            (4, allowance > left && allowance < usize::MAX),
            (5, allowance == usize::MAX),
            (6, now.len() == order.len()),
            (7, now.len() + 1 == left && left > 1),
            (8, helper && !stand_in && !exchange),
            (9, !helper && stand_in && !exchange),
            (10, !helper && !stand_in && exchange),
            (11, helper && stand_in),
            (12, helper && exchange),
            (13, stand_in && exchange && 1 < t && t < sizes.r),
            (14, last == Some(Kind::Helper)),
            (15, last == Some(Kind::StandIn)),
            (16, last == Some(Kind::Exchange)),
            (17, t > 2),
            (18, lists.fresh.windows(2).any(|two| two[0] > two[1])),
            (19, stripes == 0),
            (20, after),
            (21, self.outcome.lent.area != self.lent.area),
        ]
    }
}
