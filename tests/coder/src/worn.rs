//! Lists of calls on one store of which boards are worn (request A.11 of document 02): between calls any bytes are altered, of boards in service too, and
//! power fails. Each call is held to the coder's model over the bytes as they are. After each both records are the book's, whatever the boards hold, and so
//! is each refusal but DISAGREE; and where all the named boards but at most one hold their shares of the book's file, a careful read gives that file and
//! names the one. An edit that boards refuse with DISAGREE the book takes: its file is then none that they hold, until the next write.

use crate::call::refusal::DISAGREE;
use crate::call::{Call, Lent, Outcome};
use crate::careful_met as met;
use crate::code::{self, Sizes};
use crate::draw;
use crate::ledger::Book;
use crate::matrix::Matrix;
use crate::move_draw;
use crate::points;
use crate::random::Random;
use crate::repairs;
use crate::running;
use crate::running_draw;
use crate::scene::Scene;
use crate::spoil::spoil;
use crate::steps;
use crate::store;
use crate::store_draw;
use crate::trial::Trial;

/// The store as the last call left it, and the book beside it.
struct Worn {
    book: Book,
    lent: Lent,
    /// what makes each board's share
    generators: Vec<Matrix>,
    /// the packet area of the repair that runs
    packets: Vec<u8>,
}

/// From how many products of a byte on that the checks of k + 2 boards take a list has few calls, and over many stripes none.
const HEAVY: usize = 50_000_000;

/// The most calls that are drawn over many stripes.
const FEW: usize = 4;

/// A few stripes.
pub fn run(trial: &mut Trial, random: &mut Random, sizes: Sizes) {
    let capacity = random.pick(&[1, 2, 3, 4]);
    let length = draw::length(random, sizes, capacity);
    let scene = Scene::new(sizes, points::draw(random, sizes.n), random.bytes(length));
    let calls = random.within(10, 40);
    whole(trial, random, &scene, capacity, calls);
}

/// A file written, a board worn and named, an edit, the board lost and rebuilt; another one worn, a third one moved, and the worn one moved; one worn while a
/// repair runs, which power ends; a board rebuilt by the worn one; and then so many calls as they are drawn.
pub fn whole(trial: &mut Trial, random: &mut Random, scene: &Scene, capacity: usize, calls: usize) {
    let Sizes { n, k, .. } = scene.sizes;
    let heavy = scene.sizes.stripe_len().pow(2) * (k + 2) * scene.sizes.share_len() > HEAVY;
    if heavy && scene.stripes() > 100 {
        return;
    }
    let Some(mut worn) = Worn::new(trial, random, scene, capacity) else { return };
    if n >= k + 2 {
        let alike = worn.through_an_edit(trial, random)
            && !heavy
            && worn.through_a_move(trial, random)
            && worn.through_a_failure(trial, random)
            && worn.spread(trial, random)
            && worn.write(trial, &scene.file);
        if !alike {
            return;
        }
    }
    let calls = if scene.stripes() > 100 || heavy { calls.min(FEW) } else { calls };
    worn.go_on(trial, random, calls);
}

impl Worn {
    /// A store with the scene's file, all boards in service.
    fn new(trial: &mut Trial, random: &mut Random, scene: &Scene, capacity: usize) -> Option<Worn> {
        let Scene { sizes, ref points, .. } = *scene;
        let area = random.bytes(sizes.n * capacity * sizes.share_len());
        let record = store::words(sizes, points, capacity, None, &[]);
        let lent = Lent { repair: running_draw::idle(random), ..Lent::idle(record, area, Vec::new()) };
        let generators = code::generators(sizes, points);
        let book = Book::new(sizes, points.clone(), capacity, lent.area.len());
        let mut worn = Worn { book, lent, generators, packets: Vec::new() };
        worn.write(trial, &scene.file).then_some(worn)
    }

    fn write(&mut self, trial: &mut Trial, file: &[u8]) -> bool {
        self.lent.out.clear();
        self.check(trial, &Call::Write { file: file.to_vec() }).is_some()
    }

    fn file_len(&self) -> usize {
        self.book.file.as_ref().map_or(0, Vec::len)
    }

    fn board_len(&self) -> usize {
        self.book.capacity * self.book.sizes.share_len()
    }

    fn in_service(&self) -> Vec<usize> {
        self.book.in_service.iter().copied().collect()
    }

    fn others(&self, than: &[usize]) -> Vec<usize> {
        self.in_service().into_iter().filter(|board| !than.contains(board)).collect()
    }

    /// A board's share of the book's file.
    fn share(&self, board: usize) -> Vec<u8> {
        let file = self.book.file.as_deref().unwrap_or(&[]);
        code::share_by(self.book.sizes, &self.generators[board], file)
    }

    /// Those of some boards that do not hold their shares of the book's file.
    fn wrong(&self, boards: &[usize]) -> Vec<usize> {
        let held = |board: usize| &self.lent.area[board * self.board_len()..];
        boards.iter().copied().filter(|&board| !held(board).starts_with(&self.share(board))).collect()
    }

    /// A call, held to the model and to the book; what it answers, where the archive made of it what the coder does.
    fn check(&mut self, trial: &mut Trial, call: &Call) -> Option<Outcome> {
        let ran = self.book.repairing.is_some();
        let expected = store::expect(call, &self.lent);
        let wrong = match call {
            Call::Careful { boards } if boards.iter().all(|&board| board < self.book.sizes.n) => self.wrong(boards),
            _ => Vec::new(),
        };
        let reply = self.book.enter(call, &self.lent.out, self.lent.packets.len());
        let length = self.book.file.as_ref().map(Vec::len);
        let record = store::words(self.book.sizes, &self.book.points, self.book.capacity, length, &self.in_service());
        let repair = match &self.book.repairing {
            Some(repairing) => running::words(&repairing.lists, self.book.carried()),
            None if ran => running::none(),
            None => self.lent.repair.clone(),
        };
        if (&expected.lent.record, &expected.lent.repair) != (&record, &repair) {
            trial.report(&format!("{call}: the coder itself hands on other records than the book's"));
        }
        let number = |answer: u64| answer & 255;
        if number(expected.answer) != number(reply.answer) && number(expected.answer) != u64::from(DISAGREE) {
            trial.report(&format!("{call}: the coder itself refuses otherwise than the book"));
        }
        // "If all the named boards but at most one hold their share of the last file, that file is the answer."
        if matches!(call, Call::Careful { .. }) && reply.answer == 0 && wrong.len() <= 1 {
            let odd = wrong.first().map_or(0, |&board| board as u64 + 1);
            if expected.answer != odd << 8 || expected.lent.out != reply.out {
                trial.report(&format!("{call}: the coder itself does not give the last file"));
            }
        }
        let alike = trial.check(call, &self.lent, &expected);
        self.lent = expected.lent.clone();
        let packets = std::mem::take(&mut self.lent.packets);
        if number(expected.answer) == 0 {
            self.follow(call, packets);
        }
        alike.then_some(expected)
    }

    /// What an accepted start or step leaves of the packet area, and what makes the shares behind a move.
    fn follow(&mut self, call: &Call, packets: Vec<u8>) {
        match (call, &self.book.repairing) {
            (Call::Start { .. }, Some(repairing)) => {
                let sizes = self.book.sizes;
                let order = steps::order(sizes, &repairing.lists, sizes.stripes(self.file_len()));
                self.packets = vec![0; steps::area_len(&order)];
            }
            (Call::Step { .. }, _) => self.packets = packets,
            (Call::Move { .. }, _) => self.generators = code::generators(self.book.sizes, &self.book.points),
            _ => {}
        }
    }

    /// Makes bytes of a board's share others: one of them, or all.
    fn wear(&mut self, random: &mut Random, board: usize, all: bool) {
        let (start, length) = (board * self.board_len(), self.share(board).len());
        let places = match length {
            0 => 0..0,
            _ if all => 0..length,
            _ => {
                let place = random.below(length);
                place..place + 1
            }
        };
        for place in places {
            self.lent.area[start + place] ^= random.within(1, 255) as u8;
        }
    }

    /// A careful read of boards in service, these first, as far as there are k + 2; what it answers.
    fn careful(&mut self, trial: &mut Trial, random: &mut Random, first: &[usize]) -> Option<Outcome> {
        let more = random.choose(self.others(first), self.book.sizes.k + 2 - first.len());
        let boards = random.choose([first, &more].concat(), self.book.sizes.k + 2);
        self.lent.out = random.bytes(self.file_len() + 1);
        self.check(trial, &Call::Careful { boards })
    }

    /// Counts a careful read of a kind, where it was answered so.
    fn tell(&self, trial: &mut Trial, kind: usize, holds: bool) {
        if holds {
            trial.careful.tell(kind, self.book.sizes, self.file_len());
        }
    }

    /// A board is worn, and named; the file is edited by others; it is named again, with the edited file; it is lost, and rebuilt from others.
    fn through_an_edit(&mut self, trial: &mut Trial, random: &mut Random) -> bool {
        let board = random.pick(&self.in_service());
        let all = random.once_in(2);
        self.wear(random, board, all);
        let named = |outcome: Option<Outcome>| outcome.map(|outcome| outcome.answer == (board as u64 + 1) << 8);
        let answered = self.careful(trial, random, &[board]);
        let Some(before) = named(answered) else { return false };
        let length = self.file_len();
        let count = length.min(4);
        let readers = random.choose(self.others(&[board]), self.book.sizes.k);
        let edit = Call::Edit { offset: random.within(0, length - count), bytes: random.bytes(count), boards: readers };
        self.lent.out.clear();
        let Some(edited) = self.check(trial, &edit) else { return false };
        let answered = self.careful(trial, random, &[board]);
        let Some(after) = named(answered) else { return false };
        self.tell(trial, met::EDITED, before && after && edited.answer == 0 && count > 0);
        self.rebuild(trial, random, board) && {
            let answered = self.careful(trial, random, &[board]);
            self.tell(trial, met::REBUILT, before && answered.as_ref().is_some_and(|outcome| outcome.answer == 0));
            answered.is_some()
        }
    }

    /// A board is worn; another one is moved by boards that are not, where there are enough of them, and the worn one is named, at the new points. Then it is
    /// moved itself, by which it holds its share again, since no byte of it is read.
    fn through_a_move(&mut self, trial: &mut Trial, random: &mut Random) -> bool {
        let Sizes { n, d, r, .. } = self.book.sizes;
        let board = random.below(n);
        self.wear(random, board, true);
        if d + r < n {
            let right = random.choose(self.others(&[board]), d + r);
            let (moved, senders) = right.split_first().expect("d + r boards");
            let point = move_draw::free(random, self.book.sizes, &self.book.points, *moved);
            let (helpers, partners) = senders.split_at(d);
            let call = Call::Move { board: *moved, point, helpers: helpers.to_vec(), partners: partners.to_vec() };
            self.lent.out.clear();
            if self.check(trial, &call).is_none() {
                return false;
            }
            let Some(outcome) = self.careful(trial, random, &[board, *moved]) else { return false };
            self.tell(trial, met::OTHER_MOVED, outcome.answer == (board as u64 + 1) << 8);
        }
        let worn = self.wrong(&[board]) == [board];
        let call = move_draw::of(random, self.book.sizes, &self.book.points, board);
        self.lent.out.clear();
        if self.check(trial, &call).is_none() {
            return false;
        }
        let Some(outcome) = self.careful(trial, random, &[board]) else { return false };
        self.tell(trial, met::ITSELF_MOVED, worn && outcome.answer == 0);
        true
    }

    /// A board lost, and rebuilt by any others.
    fn rebuild(&mut self, trial: &mut Trial, random: &mut Random, board: usize) -> bool {
        self.lent.out.clear();
        if self.check(trial, &Call::Lose { board }).is_none() {
            return false;
        }
        let repair = repairs::of(random, self.book.sizes, &self.in_service(), 1);
        self.check(trial, &repair).is_some()
    }

    /// A board is worn, another one lost, and its repair started; power fails behind some packets. The worn one is named meanwhile, and afterwards, where
    /// there are boards enough.
    fn through_a_failure(&mut self, trial: &mut Trial, random: &mut Random) -> bool {
        let two = random.choose(self.in_service(), 2);
        let (board, lost) = (two[0], two[1]);
        self.wear(random, board, false);
        self.lent.out.clear();
        if self.check(trial, &Call::Lose { board: lost }).is_none() || !self.start(trial, random) {
            return false;
        }
        let allowance = random.below(self.book.total(1));
        let meanwhile = self.step(trial, random, allowance) && self.careful(trial, random, &[board]).is_some();
        self.power_fails(random);
        let Some(outcome) = self.careful(trial, random, &[board]) else { return false };
        self.tell(trial, met::FAILED, meanwhile && outcome.answer == (board as u64 + 1) << 8);
        meanwhile
    }

    /// Starts to rebuild one of the boards that are lost.
    fn start(&mut self, trial: &mut Trial, random: &mut Random) -> bool {
        self.lent.out.clear();
        let lists = running_draw::lists_of(random, self.book.sizes, &self.in_service(), 1);
        let call = Call::Start { fresh: lists.fresh, helpers: lists.helpers, stand_ins: lists.stand_ins };
        self.check(trial, &call).is_some()
    }

    /// A step, over the packet area as the last one left it, or with bytes altered there too.
    fn step(&mut self, trial: &mut Trial, random: &mut Random, allowance: usize) -> bool {
        self.lent.out.clear();
        self.lend_packets(random);
        self.check(trial, &Call::Step { allowance }).is_some()
    }

    fn lend_packets(&mut self, random: &mut Random) {
        if self.book.repairing.is_none() {
            self.lent.packets = running_draw::packet_area(random, None);
            return;
        }
        self.lent.packets.clone_from(&self.packets);
        if !self.packets.is_empty() && random.once_in(4) {
            let place = random.below(self.packets.len());
            self.lent.packets[place] ^= random.within(1, 255) as u8;
        }
    }

    fn power_fails(&mut self, random: &mut Random) {
        self.book.power_fails();
        self.lent.repair = running_draw::idle(random);
    }

    /// The board that is lost is rebuilt with a worn one among its helpers, and holds wrong bytes then, like that one.
    fn spread(&mut self, trial: &mut Trial, random: &mut Random) -> bool {
        let Sizes { n, d, r, .. } = self.book.sizes;
        let in_service = self.in_service();
        let Some(lost) = (0..n).find(|board| !in_service.contains(board)) else { return true };
        let worn = match self.wrong(&in_service)[..] {
            [board, ..] => board,
            [] => random.pick(&in_service),
        };
        self.wear(random, worn, true);
        let mut senders = random.choose(self.others(&[worn]), d + r - 2);
        senders.insert(0, worn);
        let (helpers, stand_ins) = senders.split_at(d);
        let call = Call::Repair { fresh: vec![lost], helpers: helpers.to_vec(), stand_ins: stand_ins.to_vec() };
        self.lent.out.clear();
        if self.check(trial, &call).is_none() {
            return false;
        }
        let both = self.wrong(&[worn, lost]).len() == 2;
        let Some(outcome) = self.careful(trial, random, &[worn, lost]) else { return false };
        self.tell(trial, met::SPREAD, both && outcome.answer == u64::from(DISAGREE));
        true
    }

    /// So many calls as they are drawn, half of them careful reads, with bytes altered between and failures of power.
    fn go_on(&mut self, trial: &mut Trial, random: &mut Random, calls: usize) {
        for _ in 0..calls {
            if random.once_in(2) {
                self.alter(random);
            }
            if random.once_in(if self.book.repairing.is_some() { 8 } else { 40 }) {
                self.power_fails(random);
            }
            let alike = match random.once_in(2) {
                true => self.careful(trial, random, &[]).is_some(),
                false => self.next(trial, random),
            };
            if !alike {
                return;
            }
        }
    }

    /// Alters any bytes: a byte of the area, a board in service, or one to its share of another file; where two boards are wrong, mostly one of them to its
    /// share.
    fn alter(&mut self, random: &mut Random) {
        let in_service = self.in_service();
        let wrong = self.wrong(&in_service);
        let any = random.choose(in_service, 1).pop();
        match (any, random.below(6)) {
            (_, turn) if wrong.len() > 1 && turn > 0 => {
                let board = random.pick(&wrong);
                self.put(board, &self.share(board));
            }
            (Some(board), 1..=2) => self.wear(random, board, false),
            (Some(board), 3) => self.wear(random, board, true),
            (Some(board), 4) => {
                let file = random.bytes(self.file_len());
                self.put(board, &code::share_by(self.book.sizes, &self.generators[board], &file));
            }
            _ => {
                let place = random.below(self.lent.area.len());
                self.lent.area[place] ^= random.within(1, 255) as u8;
            }
        }
    }

    fn put(&mut self, board: usize, share: &[u8]) {
        let start = board * self.board_len();
        self.lent.area[start..start + share.len()].copy_from_slice(share);
    }

    /// One call, mostly a right one; false where the archive answered otherwise.
    fn next(&mut self, trial: &mut Trial, random: &mut Random) -> bool {
        let sizes = self.book.sizes;
        let mut call = match &self.book.repairing {
            Some(repairing) => store_draw::call_meanwhile(random, &self.book, repairing),
            None => store_draw::next_call(random, &self.book),
        };
        if random.once_in(6) {
            // the records and the area are those that the last call left
            spoil(random, sizes, &mut call, &mut Lent::default());
        }
        self.lent.out = store_draw::output(random, &call, self.file_len());
        if let Call::Step { .. } = call {
            self.lend_packets(random);
        }
        self.check(trial, &call).is_some()
    }
}
