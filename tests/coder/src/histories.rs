//! Long lists of calls on one store, held to the ledger of document 01. Between calls any bytes of boards out of service are altered, and bytes of the
//! packet area in which nothing was carried yet; and power fails (request A.8 of document 02). After each call the answer and a read's output are the
//! book's, and both records and every byte of both areas are what the book makes them: each board in service holds its share of the last file accepted,
//! each packet carried is of values of that file's F, and all else is as it was.

use crate::call::{Call, Lent, Outcome};
use crate::code::{self, Sizes};
use crate::draw;
use crate::ledger::Book;
use crate::matrix::Matrix;
use crate::move_draw;
use crate::points;
use crate::random::Random;
use crate::repairs;
use crate::running;
use crate::running_draw;
use crate::scene::Scene;
use crate::spoil::spoil;
use crate::steps::{self, Kind, Packet};
use crate::store;
use crate::store_draw;
use crate::trial::Trial;
use std::collections::BTreeSet;

/// The store as the last call left it, and the book beside it.
struct History {
    book: Book,
    lent: Lent,
    /// what makes each board's share
    generators: Vec<Matrix>,
    /// the boards rebuilt since the last write
    rebuilt: BTreeSet<usize>,
    /// which of PARTS it has had
    had: BTreeSet<usize>,
    /// the packets of the repair that runs, with their bytes
    going: Vec<(Packet, Vec<u8>)>,
    /// its packet area, as the last accepted step left it
    packets: Vec<u8>,
}

/// What a whole history has had, beside its set-up: accepted calls, bytes altered of boards out of service, and failures of power.
const PARTS: [&str; 13] = [
    "write",
    "loss",
    "repair of r boards",
    "repair with stand-ins",
    "read",
    "edit with all boards in service",
    "edit with some lost",
    "repair by steps",
    "loss that ends a repair",
    "bytes altered",
    "power failure",
    "careful read",
    "move",
];

/// The places of some of them.
const STEPPED: usize = 7;
const ENDED: usize = 8;
const ALTERED: usize = 9;
const FAILED: usize = 10;
const CAREFUL: usize = 11;
const MOVED: usize = 12;

pub fn run(trial: &mut Trial, random: &mut Random, sizes: Sizes) {
    let capacity = draw::stripes(random, sizes);
    let long = capacity <= 8 && sizes.n <= 12 && random.once_in(8);
    let right = sizes.n * capacity * sizes.share_len();
    let area_len = if random.once_in(20) { random.pick(&[0, right - 1, right + 1]) } else { right };
    let points = points::draw(random, sizes.n);
    let Some(mut history) = History::new(trial, random, sizes, points, capacity, area_len) else { return };
    let calls = if long { random.within(200, 400) } else { random.within(20, 80) };
    history.go_on(trial, random, calls, None);
}

/// A history that has all parts: a file of some length after others, an edit of it, reads, a careful one too, r boards lost and rebuilt, a board moved, fewer
/// of them lost and rebuilt with stand-ins, with an edit before each repair, reads, some lost and rebuilt by steps, once more after a power failure, another
/// board moved, a repair that a loss ends, and then so many calls as they are drawn. True where it had them all and the archive answered each call as the
/// book.
pub fn whole(trial: &mut Trial, random: &mut Random, scene: &Scene, capacity: usize, calls: usize) -> bool {
    let sizes = scene.sizes;
    let area_len = sizes.n * capacity * sizes.share_len();
    let points = scene.points.clone();
    let Some(mut history) = History::new(trial, random, sizes, points, capacity, area_len) else { return false };
    let room = capacity * sizes.stripe_len();
    // too long by a byte, all that there is room for, and its own
    let files = [random.bytes(room + 1), random.bytes(room), scene.file.clone()];
    let written = files.into_iter().all(|file| history.check(trial, &Call::Write { file }));
    // where r is 1 there are no stand-ins
    let fewer = if sizes.r > 1 { random.within(1, sizes.r - 1) } else { 1 };
    let alike = written
        && history.edit_four(trial, random)
        && history.read_any(trial, random)
        && history.read_careful(trial, random)
        && history.rebuild(trial, random, sizes.r)
        && history.move_any(trial, random)
        && history.rebuild(trial, random, fewer)
        && history.rebuild_by_steps(trial, random, fewer)
        && history.move_any(trial, random)
        && history.end_by_a_loss(trial, random, &scene.file)
        && history.go_on(trial, random, calls, Some(scene.length()));
    // and of too few boards there is no careful read
    let parts = PARTS.len() - usize::from(sizes.r == 1) - usize::from(sizes.k + 2 > sizes.n);
    alike && history.had.len() == parts
}

impl History {
    /// A store newly set up over any words, with any bytes in its area, whose length may be wrong.
    fn new(
        trial: &mut Trial,
        random: &mut Random,
        sizes: Sizes,
        points: Vec<u8>,
        capacity: usize,
        area_len: usize,
    ) -> Option<History> {
        let area = random.bytes(area_len);
        let record = (0..store::word::COUNT).map(|_| random.next()).collect();
        let repair = (0..running::word::COUNT).map(|_| random.next()).collect();
        let mut lent = Lent { record, repair, area, ..Lent::default() };
        // sometimes it is first tried with other points, mostly such as are refused
        let mut tries = vec![points.clone()];
        if random.once_in(2) {
            points::spoil(random, sizes.n, &mut tries[0]);
            tries.push(points.clone());
        }
        for points in tries {
            let call = Call::SetUp { sizes, points, capacity };
            let expected = store::expect(&call, &lent);
            if !trial.check(&call, &lent, &expected) {
                return None;
            }
            lent = expected.lent;
        }
        let generators = code::generators(sizes, &points);
        let book = Book::new(sizes, points, capacity, area_len);
        Some(History {
            book,
            lent,
            generators,
            rebuilt: BTreeSet::new(),
            had: BTreeSet::new(),
            going: Vec::new(),
            packets: Vec::new(),
        })
    }

    /// So many calls as they are drawn, with bytes altered between, and a read at their end; false where the archive answered otherwise.
    fn go_on(&mut self, trial: &mut Trial, random: &mut Random, calls: usize, length: Option<usize>) -> bool {
        for _ in 0..calls {
            self.alter(random);
            if random.once_in(if self.book.repairing.is_some() { 20 } else { 100 }) {
                self.power_fails(random);
            }
            if !self.next(trial, random, length) {
                return false;
            }
        }
        self.alter(random);
        self.read_any(trial, random)
    }

    /// Loses so many boards, and alters them.
    fn lose(&mut self, trial: &mut Trial, random: &mut Random, count: usize) -> bool {
        self.lent.out.clear();
        random.choose(self.in_service(), count).into_iter().all(|board| {
            let alike = self.check(trial, &Call::Lose { board });
            self.alter_board(random, board);
            alike
        })
    }

    /// Loses so many boards, edits the file on the others, rebuilds them together, and reads.
    fn rebuild(&mut self, trial: &mut Trial, random: &mut Random, count: usize) -> bool {
        if !self.lose(trial, random, count) {
            return false;
        }
        let repair = repairs::of(random, self.book.sizes, &self.in_service(), count);
        self.edit_four(trial, random) && self.check(trial, &repair) && self.read_any(trial, random)
    }

    /// Loses so many boards and starts to rebuild them; power fails, and they are rebuilt anew. Reads in between.
    fn rebuild_by_steps(&mut self, trial: &mut Trial, random: &mut Random, count: usize) -> bool {
        if !self.lose(trial, random, count) || !self.start(trial, random, count) {
            return false;
        }
        let some = random.below(self.book.total(count));
        let failed = self.step(trial, random, some) && self.read_any(trial, random);
        self.power_fails(random);
        let anew = failed && self.read_any(trial, random) && self.start(trial, random, count);
        let some = random.below(self.book.total(count));
        let stepped = [some, 0, usize::MAX];
        anew && stepped.into_iter().all(|allowance| self.step(trial, random, allowance) && self.read_any(trial, random))
    }

    /// Moves any board to any byte that is free, edits the file and reads.
    fn move_any(&mut self, trial: &mut Trial, random: &mut Random) -> bool {
        self.lent.out.clear();
        let Book { sizes, ref points, .. } = self.book;
        let board = random.below(sizes.n);
        let call = move_draw::of(random, sizes, points, board);
        self.check(trial, &call) && self.edit_four(trial, random) && self.read_any(trial, random)
    }

    /// Loses a board and starts to rebuild it, loses one of those that help, and writes a file.
    fn end_by_a_loss(&mut self, trial: &mut Trial, random: &mut Random, file: &[u8]) -> bool {
        let some = random.below(self.book.total(1));
        if !self.lose(trial, random, 1) || !self.start(trial, random, 1) || !self.step(trial, random, some) {
            return false;
        }
        let lists = self.book.repairing.as_ref().map(|repairing| repairing.lists.helpers.clone());
        let board = random.pick(&lists.expect("a repair runs"));
        self.check(trial, &Call::Lose { board }) && self.step(trial, random, 1) && self.write(trial, file)
    }

    fn write(&mut self, trial: &mut Trial, file: &[u8]) -> bool {
        self.lent.out.clear();
        self.check(trial, &Call::Write { file: file.to_vec() })
    }

    /// Starts to rebuild so many of the boards that are lost.
    fn start(&mut self, trial: &mut Trial, random: &mut Random, count: usize) -> bool {
        self.lent.out.clear();
        let lists = running_draw::lists_of(random, self.book.sizes, &self.in_service(), count);
        let call = Call::Start { fresh: lists.fresh, helpers: lists.helpers, stand_ins: lists.stand_ins };
        self.check(trial, &call)
    }

    /// A step, over the packet area as the last one left it.
    fn step(&mut self, trial: &mut Trial, random: &mut Random, allowance: usize) -> bool {
        self.lent.out.clear();
        self.lend_packets(random, true);
        self.check(trial, &Call::Step { allowance })
    }

    /// The packet area for a step: while a repair runs that of the last step, with other bytes where nothing was carried yet; sometimes, unless it must be
    /// right, of another length. Any where none runs.
    fn lend_packets(&mut self, random: &mut Random, right: bool) {
        if self.book.repairing.is_none() {
            self.lent.packets = running_draw::packet_area(random, None);
            return;
        }
        self.lent.packets.clone_from(&self.packets);
        if self.book.carried() == 0 || random.once_in(3) {
            let from = self.going[self.book.carried()].0.at.start;
            let bytes = random.bytes(self.packets.len() - from);
            self.lent.packets[from..].copy_from_slice(&bytes);
        }
        if !right && random.once_in(10) {
            let length = self.packets.len();
            self.lent.packets.resize(random.pick(&[0, length.saturating_sub(1), length + 1, 2 * length]), 0x5A);
        }
    }

    /// "the calls after it are given an idle record beside the store's": any.
    fn power_fails(&mut self, random: &mut Random) {
        self.book.power_fails();
        self.lent.repair = running_draw::idle(random);
        self.had.insert(FAILED);
    }

    /// Four bytes of the file, or all where it has fewer, by any boards in service.
    fn edit_four(&mut self, trial: &mut Trial, random: &mut Random) -> bool {
        self.lent.out.clear();
        let length = self.file_len();
        let count = length.min(4);
        let offset = random.within(0, length - count);
        let boards = random.choose(self.in_service(), self.book.sizes.k);
        self.check(trial, &Call::Edit { offset, bytes: random.bytes(count), boards })
    }

    fn file_len(&self) -> usize {
        self.book.file.as_ref().map_or(0, Vec::len)
    }

    fn board_len(&self) -> usize {
        self.book.capacity * self.book.sizes.share_len()
    }

    fn in_service(&self) -> Vec<usize> {
        self.book.in_service.iter().copied().collect()
    }

    /// Alters bytes of boards out of service.
    fn alter(&mut self, random: &mut Random) {
        for board in 0..self.book.sizes.n {
            let end = (board + 1) * self.board_len();
            if !self.book.in_service.contains(&board) && end <= self.lent.area.len() && random.once_in(3) {
                self.alter_board(random, board);
            }
        }
    }

    /// Alters the bytes of a board out of service.
    fn alter_board(&mut self, random: &mut Random, board: usize) {
        let board_len = self.board_len();
        let bytes = random.bytes(board_len);
        self.lent.area[board * board_len..][..board_len].copy_from_slice(&bytes);
        self.had.insert(ALTERED);
    }

    /// One call, mostly a right one; false where the archive answered otherwise. Where a length is given, most files that are written have it.
    fn next(&mut self, trial: &mut Trial, random: &mut Random, length: Option<usize>) -> bool {
        let sizes = self.book.sizes;
        let mut call = match &self.book.repairing {
            Some(repairing) => store_draw::call_meanwhile(random, &self.book, repairing),
            None => store_draw::next_call(random, &self.book),
        };
        if let (Call::Write { file }, Some(length)) = (&mut call, length) {
            if !random.once_in(3) {
                *file = random.bytes(length);
            }
        }
        if random.once_in(6) {
            repairs::spoil(random, sizes, &self.in_service(), &mut call);
            move_draw::spoil(random, sizes, &self.book.points, &mut call);
        }
        if random.once_in(4) {
            // the record and the area are those that the last call left, so only the arguments are spoilt
            spoil(random, sizes, &mut call, &mut Lent::default());
        }
        self.lent.out = store_draw::output(random, &call, self.file_len());
        if let Call::Step { .. } = call {
            self.lend_packets(random, false);
        }
        self.check(trial, &call)
    }

    fn check(&mut self, trial: &mut Trial, call: &Call) -> bool {
        let (ran, carried) = (self.book.repairing.is_some(), self.book.carried());
        let reply = self.book.enter(call, &self.lent.out, self.lent.packets.len());
        if let (Call::Move { .. }, 0) = (call, reply.answer & 255) {
            self.generators = code::generators(self.book.sizes, &self.book.points);
        }
        let mut after = self.lent.clone();
        after.out = reply.out;
        let length = self.book.file.as_ref().map(Vec::len);
        after.record = store::words(self.book.sizes, &self.book.points, self.book.capacity, length, &self.in_service());
        after.repair = match &self.book.repairing {
            Some(repairing) => running::words(&repairing.lists, self.book.carried()),
            None if ran => running::none(),
            None => after.repair,
        };
        self.put_shares(&mut after.area, &reply.made);
        for (packet, bytes) in self.going.iter().skip(carried).take(reply.carried) {
            after.packets[packet.at.clone()].copy_from_slice(bytes);
        }
        let expected = Outcome { answer: reply.answer, lent: after };
        let alike = trial.check(call, &self.lent, &expected);
        self.lent = expected.lent;
        let packets = std::mem::take(&mut self.lent.packets);
        if expected.answer & 255 == 0 {
            self.follow(call, packets);
            if alike {
                self.note(trial, call, ran);
            }
        }
        alike
    }

    /// What an accepted start or step leaves: the packets of the repair, all of values of F, and the packet area.
    fn follow(&mut self, call: &Call, packets: Vec<u8>) {
        match (call, &self.book.repairing, &self.book.file) {
            (Call::Start { .. }, Some(repairing), Some(file)) => {
                let Book { sizes, ref points, .. } = self.book;
                let order = steps::order(sizes, &repairing.lists, sizes.stripes(file.len()));
                self.packets = vec![0; steps::area_len(&order)];
                self.going = valued(sizes, points, file, order);
            }
            (Call::Step { .. }, ..) => self.packets = packets,
            _ => {}
        }
    }

    /// Notes the boards that an accepted call has rebuilt, and whether some that were rebuilt before stood in. Before it a repair ran or not.
    fn note(&mut self, trial: &mut Trial, call: &Call, ran: bool) {
        let ended = ran && self.book.repairing.is_none();
        let part = match call {
            Call::Write { .. } => 0,
            Call::Lose { .. } if ended => ENDED,
            Call::Lose { .. } => 1,
            Call::Step { .. } if ended => STEPPED,
            Call::Start { .. } | Call::Step { .. } => return,
            Call::Repair { stand_ins, .. } if stand_ins.is_empty() => 2,
            Call::Repair { .. } => 3,
            Call::Edit { .. } if self.book.in_service.len() == self.book.sizes.n => 5,
            Call::Edit { .. } => 6,
            Call::Careful { .. } => CAREFUL,
            Call::Move { .. } => MOVED,
            _ => 4,
        };
        self.had.insert(part);
        match call {
            Call::Repair { fresh, stand_ins, .. } => {
                if stand_ins.iter().any(|board| self.rebuilt.contains(board)) {
                    trial.repairs[repairs::REBUILT] += 1;
                }
                self.rebuilt.extend(fresh);
            }
            Call::Write { .. } => self.rebuilt.clear(),
            _ => {}
        }
    }

    /// Puts the shares of the last file accepted where boards keep them.
    fn put_shares(&self, area: &mut [u8], boards: &[usize]) {
        for &board in boards {
            let file = self.book.file.as_ref().expect("a file was accepted");
            let share = code::share_by(self.book.sizes, &self.generators[board], file);
            area[board * self.board_len()..][..share.len()].copy_from_slice(&share);
        }
    }

    /// A careful read of any k + 2 boards in service, as far as there are so many; false where the archive answered otherwise.
    fn read_careful(&mut self, trial: &mut Trial, random: &mut Random) -> bool {
        self.lent.out = random.bytes(self.file_len());
        let boards = random.choose(self.in_service(), self.book.sizes.k + 2);
        self.check(trial, &Call::Careful { boards })
    }

    /// "After the list, a read of any k different boards in service"; false where the archive answered otherwise.
    fn read_any(&mut self, trial: &mut Trial, random: &mut Random) -> bool {
        let in_service = self.in_service();
        if in_service.len() < self.book.sizes.k {
            return true;
        }
        self.lent.out = random.bytes(self.file_len());
        let boards = random.choose(in_service, self.book.sizes.k);
        self.check(trial, &Call::Read { boards })
    }
}

/// The packets of a repair with their bytes, each of F's values where boards in service hold their shares: of a helper j for board i F(x_j, y_i) and then
/// F(x_i, y_j) for each stripe, of any other sender the latter alone.
fn valued(sizes: Sizes, points: &[u8], file: &[u8], order: Vec<Packet>) -> Vec<(Packet, Vec<u8>)> {
    let at = |board: usize| points[board];
    let places = order.iter().flat_map(|&Packet { kind, sender: j, receiver: i, .. }| match kind {
        Kind::Helper => vec![(at(j), at(i)), (at(i), at(j))],
        Kind::StandIn | Kind::Exchange => vec![(at(i), at(j))],
    });
    let mut values = code::values(sizes, file, &places.collect::<Vec<(u8, u8)>>()).into_iter();
    let mut next = || values.next().expect("a value for each place");
    let bytes = |packet: Packet| {
        let first = next();
        let bytes = match packet.kind {
            Kind::Helper => first.into_iter().zip(next()).flat_map(|(first, second)| [first, second]).collect(),
            Kind::StandIn | Kind::Exchange => first,
        };
        (packet, bytes)
    };
    order.into_iter().map(bytes).collect()
}
