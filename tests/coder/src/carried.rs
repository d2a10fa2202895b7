//! Robots of the first series carried to the present points with the robot running (request A.10 of document 02): boards 0 to n − 1 moved in turn from
//! i + 1 to i, and between the moves the file is read, carefully too, and edited, a board is lost and rebuilt, at once or a packet at a time, and power
//! fails. All boards hold their shares of one file, which is kept here: reads must give it. Behind the last move the first S stripes of every board are
//! what a store newly set up at points 0 to n − 1 holds once the same file is written.

use crate::call::refusal::{BUSY, DOWN, REPEAT};
use crate::call::{Call, Lent, Outcome};
use crate::code::{self, Sizes};
use crate::move_draw;
use crate::moves_met as met;
use crate::points;
use crate::random::Random;
use crate::running::Lists;
use crate::running_draw;
use crate::steps;
use crate::store;
use crate::trial::Trial;

/// What is done between two moves.
#[derive(Clone, Copy)]
enum Between {
    Nothing,
    Read,
    Careful,
    Edit,
    /// a loss, a move that is DOWN, and a repair
    Loss,
    /// a loss, and a repair by steps, with a move that is BUSY
    Steps,
    /// the same, with a power failure behind some packets, a move that is DOWN, and the repair started anew
    Failure,
}

const BETWEEN: [Between; 7] =
    [Between::Edit, Between::Loss, Between::Steps, Between::Failure, Between::Careful, Between::Read, Between::Nothing];

/// The store as the last call left it, and its file.
struct Carried {
    sizes: Sizes,
    capacity: usize,
    file: Vec<u8>,
    lent: Lent,
}

/// A few stripes, or none.
pub fn run(trial: &mut Trial, random: &mut Random, sizes: Sizes) {
    let capacity = random.pick(&[1, 1, 2, 3]);
    let most = capacity * sizes.stripe_len();
    let any = random.within(0, most);
    let length = random.pick(&[0, 1, sizes.stripe_len(), any, most]);
    let file = random.bytes(length);
    over(trial, random, sizes, capacity, file);
}

/// A file in an area with room for so many stripes.
pub fn over(trial: &mut Trial, random: &mut Random, sizes: Sizes, capacity: usize, file: Vec<u8>) {
    let points = points::first_series(sizes.n);
    let Some(mut lent) = written(trial, random, sizes, &points, capacity, &file) else { return };
    lent.repair = running_draw::idle(random);
    let mut carried = Carried { sizes, capacity, file, lent };
    carried.in_turn(trial, random);
}

/// A store newly set up over any words and any bytes, with a file written; none where the archive answered otherwise.
fn written(
    trial: &mut Trial,
    random: &mut Random,
    sizes: Sizes,
    points: &[u8],
    capacity: usize,
    file: &[u8],
) -> Option<Lent> {
    let record = (0..store::word::COUNT).map(|_| random.next()).collect();
    let area = random.bytes(sizes.n * capacity * sizes.share_len());
    let lent = Lent { repair: running_draw::idle(random), ..Lent::idle(record, area, Vec::new()) };
    let lent = performed(trial, &Call::SetUp { sizes, points: points.to_vec(), capacity }, &lent)?;
    performed(trial, &Call::Write { file: file.to_vec() }, &lent)
}

/// A call that the coder's model accepts; what it leaves, where the archive leaves the same.
fn performed(trial: &mut Trial, call: &Call, lent: &Lent) -> Option<Lent> {
    let expected = store::expect(call, lent);
    if expected.answer & 255 != 0 {
        trial.report(&format!("{call}: the coder itself refuses it"));
        return None;
    }
    trial.check(call, lent, &expected).then_some(expected.lent)
}

impl Carried {
    /// All boards in turn; none where the archive answered otherwise.
    fn in_turn(&mut self, trial: &mut Trial, random: &mut Random) -> Option<()> {
        let first = random.below(BETWEEN.len());
        for board in 0..self.sizes.n {
            let between = BETWEEN[(first + board) % BETWEEN.len()];
            let told = self.between(trial, random, between, board)?;
            // wrong bytes on the board that is moved do not matter
            if random.once_in(3) {
                let board_len = self.capacity * self.sizes.share_len();
                let share_len = self.sizes.stripes(self.file.len()) * self.sizes.share_len();
                let any = random.bytes(share_len);
                self.lent.area[board * board_len..][..share_len].copy_from_slice(&any);
            }
            let call = move_draw::to(random, self.sizes, board, board as u8);
            self.lent = performed(trial, &call, &self.lent)?;
            if let Some(kind) = told {
                self.tell(trial, kind);
            }
            // the byte is its own now
            let again = move_draw::to(random, self.sizes, board, board as u8);
            self.refused(trial, &again, REPEAT)?;
        }
        self.as_written(trial, random)
    }

    fn tell(&self, trial: &mut Trial, kind: usize) {
        trial.moves.tell(kind, self.sizes, self.file.len());
    }

    fn refused(&self, trial: &mut Trial, call: &Call, number: u8) -> Option<()> {
        if store::expect(call, &self.lent).answer != u64::from(number) {
            trial.report(&format!("{call}: the coder itself does not answer {number}"));
        }
        trial.check(call, &self.lent, &Outcome::refused(number, &self.lent)).then_some(())
    }

    /// Behind the last move: points 0 to n − 1, and the first S stripes of all boards as written anew.
    fn as_written(&self, trial: &mut Trial, random: &mut Random) -> Option<()> {
        let Sizes { n, .. } = self.sizes;
        let standard = points::standard(n);
        let fresh = written(trial, random, self.sizes, &standard, self.capacity, &self.file)?;
        if fresh.record != self.lent.record {
            trial.report("n moves in turn do not leave the record of a fresh write");
        }
        let board_len = self.capacity * self.sizes.share_len();
        let share_len = self.sizes.stripes(self.file.len()) * self.sizes.share_len();
        for board in 0..n {
            let share = |area: &[u8]| area[board * board_len..][..share_len].to_vec();
            if share(&fresh.area) != share(&self.lent.area) {
                trial.report(&format!("n moves in turn leave board {board} another share than a fresh write"));
            }
        }
        self.tell(trial, met::IN_TURN);
        if n == code::MAX_BOARDS {
            self.tell(trial, met::IN_TURN_32);
        }
        Some(())
    }

    /// What is done before the move of a board; which kind that move then is. Nothing at all where the archive answered otherwise.
    fn between(&mut self, trial: &mut Trial, random: &mut Random, what: Between, next: usize) -> Option<Option<usize>> {
        let Sizes { n, k, .. } = self.sizes;
        let all: Vec<usize> = (0..n).collect();
        let told = match what {
            Between::Nothing => None,
            Between::Read => {
                self.read(trial, random, &all)?;
                None
            }
            Between::Careful if n < k + 2 => None,
            Between::Careful => {
                let boards = random.choose(all, k + 2);
                self.gives_the_file(trial, random, Call::Careful { boards })?;
                Some(met::CAREFUL)
            }
            Between::Edit => {
                self.edit(trial, random)?;
                Some(met::EDITED)
            }
            Between::Loss => {
                self.rebuild(trial, random, next)?;
                self.read(trial, random, &all)?;
                Some(met::REBUILT)
            }
            Between::Steps => {
                self.rebuild_by_steps(trial, random, next, false)?;
                Some(met::STEPPED)
            }
            Between::Failure => {
                self.rebuild_by_steps(trial, random, next, true)?;
                Some(met::FAILED)
            }
        };
        Some(told)
    }

    /// Loses a board and rebuilds it; the next move is DOWN in between.
    fn rebuild(&mut self, trial: &mut Trial, random: &mut Random, next: usize) -> Option<()> {
        let lost = random.below(self.sizes.n);
        self.lose(trial, random, lost)?;
        self.move_refused(trial, random, next, DOWN)?;
        let Lists { fresh, helpers, stand_ins } = self.lists(random, lost);
        self.lent = performed(trial, &Call::Repair { fresh, helpers, stand_ins }, &self.lent)?;
        Some(())
    }

    /// Loses a board and rebuilds it by steps; the next move is BUSY in between. Power may fail behind some packets: the next move is DOWN then, and the
    /// repair is started anew.
    fn rebuild_by_steps(
        &mut self,
        trial: &mut Trial,
        random: &mut Random,
        next: usize,
        power_fails: bool,
    ) -> Option<()> {
        let total = self.sizes.d + self.sizes.r - 1;
        let lost = random.below(self.sizes.n);
        self.lose(trial, random, lost)?;
        if power_fails {
            let packets = self.start(trial, random, lost)?;
            self.step(trial, packets, random.below(total))?;
            self.lent.repair = running_draw::idle(random);
            self.move_refused(trial, random, next, DOWN)?;
        }
        let packets = self.start(trial, random, lost)?;
        let packets = self.step(trial, packets, random.below(total))?;
        self.move_refused(trial, random, next, BUSY)?;
        self.step(trial, packets, usize::MAX).map(drop)
    }

    /// A board is lost, and holds any bytes.
    fn lose(&mut self, trial: &mut Trial, random: &mut Random, board: usize) -> Option<()> {
        self.lent = performed(trial, &Call::Lose { board }, &self.lent)?;
        let board_len = self.capacity * self.sizes.share_len();
        let any = random.bytes(board_len);
        self.lent.area[board * board_len..][..board_len].copy_from_slice(&any);
        let others: Vec<usize> = (0..self.sizes.n).filter(|&other| other != board).collect();
        if others.len() < self.sizes.k {
            return Some(());
        }
        self.read(trial, random, &others)
    }

    fn move_refused(&self, trial: &mut Trial, random: &mut Random, board: usize, number: u8) -> Option<()> {
        let call = move_draw::to(random, self.sizes, board, board as u8);
        self.refused(trial, &call, number)
    }

    fn lists(&self, random: &mut Random, lost: usize) -> Lists {
        let others: Vec<usize> = (0..self.sizes.n).filter(|&other| other != lost).collect();
        running_draw::lists_of(random, self.sizes, &others, 1)
    }

    /// Starts to rebuild a board; a packet area for it.
    fn start(&mut self, trial: &mut Trial, random: &mut Random, lost: usize) -> Option<Vec<u8>> {
        let lists = self.lists(random, lost);
        let order = steps::order(self.sizes, &lists, self.sizes.stripes(self.file.len()));
        let call = Call::Start { fresh: lists.fresh, helpers: lists.helpers, stand_ins: lists.stand_ins };
        self.lent = performed(trial, &call, &self.lent)?;
        Some(random.bytes(steps::area_len(&order)))
    }

    /// A step over a packet area; what it leaves there.
    fn step(&mut self, trial: &mut Trial, packets: Vec<u8>, allowance: usize) -> Option<Vec<u8>> {
        self.lent.packets = packets;
        self.lent = performed(trial, &Call::Step { allowance }, &self.lent)?;
        Some(std::mem::take(&mut self.lent.packets))
    }

    /// A read of k of these boards.
    fn read(&mut self, trial: &mut Trial, random: &mut Random, boards: &[usize]) -> Option<()> {
        let boards = random.choose(boards.to_vec(), self.sizes.k);
        self.gives_the_file(trial, random, Call::Read { boards })
    }

    /// A read, careful or not, that must give the file, and names no board.
    fn gives_the_file(&mut self, trial: &mut Trial, random: &mut Random, call: Call) -> Option<()> {
        let room = self.file.len() + random.below(2);
        self.lent.out = random.bytes(room);
        let mut after = self.lent.clone();
        after.out[..self.file.len()].copy_from_slice(&self.file);
        let alike = trial.check(&call, &self.lent, &Outcome::accepted(0, after));
        self.lent.out.clear();
        alike.then_some(())
    }

    /// Four bytes of the file, or all where it has fewer.
    fn edit(&mut self, trial: &mut Trial, random: &mut Random) -> Option<()> {
        let count = self.file.len().min(4);
        let offset = random.within(0, self.file.len() - count);
        let bytes = random.bytes(count);
        let boards = random.choose((0..self.sizes.n).collect(), self.sizes.k);
        let after = store::edited(&self.file, offset, &bytes, &self.lent);
        self.file[offset..][..count].copy_from_slice(&bytes);
        let call = Call::Edit { offset, bytes, boards };
        trial.check(&call, &self.lent, &Outcome::accepted(0, after.clone())).then_some(())?;
        self.lent = after;
        Some(())
    }
}
