//! What calls do while a repair runs (request A.8 of document 02), each over the same state: reads and losses go on, others are BUSY, steps are lent
//! packet areas of other lengths; and what calls make of records of a repair that no call hands on.

use crate::call::refusal::SIZE;
use crate::call::{Call, Lent, Outcome};
use crate::code::Sizes;
use crate::move_draw;
use crate::random::Random;
use crate::running::{self, word, Lists};
use crate::running_draw;
use crate::scene::Scene;
use crate::step_cases::Stepping;
use crate::store;
use crate::trial::Trial;

impl Stepping<'_> {
    /// Each call, where some packets are carried.
    pub fn meanwhile(&self, trial: &mut Trial, random: &mut Random) -> Option<()> {
        let count = random.below(self.order.len());
        let mut lent = self.carried(trial, random, count)?;
        if random.once_in(2) {
            running_draw::fill_unused(random, &self.lists, &mut lent.repair);
        }
        self.read(trial, random, &lent, &self.in_service)?;
        self.read_careful(trial, random, &lent)?;
        for call in self.refused(random) {
            let packets = if random.once_in(2) { Vec::new() } else { lent.packets.clone() };
            Stepping::check(trial, &call, &Lent { packets, ..lent.clone() })?;
        }
        self.lengths(trial, random, &lent)?;
        self.losses(trial, random, &lent)?;
        self.set_ups(trial, random, &lent)?;
        self.before_a_write(trial, random)?;
        self.after_the_end(trial, random, lent)
    }

    /// A careful read of boards in service, where there are enough of them.
    fn read_careful(&self, trial: &mut Trial, random: &mut Random, lent: &Lent) -> Option<()> {
        let boards = random.choose(self.in_service.clone(), self.scene.sizes.k + 2);
        let lent = Lent { out: random.bytes(self.scene.length() + 1), ..lent.clone() };
        Stepping::check(trial, &Call::Careful { boards }, &lent).map(drop)
    }

    /// A start and a step where no file was written, whatever the lists and the packet area are.
    fn before_a_write(&self, trial: &mut Trial, random: &mut Random) -> Option<()> {
        let Scene { sizes, ref points, .. } = *self.scene;
        let record = store::words(sizes, points, self.capacity, None, &[]);
        let lent = Lent { record, ..self.lent(random) };
        Stepping::check(trial, &self.start(), &lent)?;
        Stepping::check(trial, &Call::Start { fresh: vec![], helpers: vec![], stand_ins: vec![] }, &lent)?;
        let packets = running_draw::packet_area(random, None);
        Stepping::check(trial, &Call::Step { allowance: random.below(2) }, &Lent { packets, ..lent }).map(drop)
    }

    /// Calls that are refused while a repair runs, whatever else they are.
    fn refused(&self, random: &mut Random) -> Vec<Call> {
        let sizes = self.scene.sizes;
        let Sizes { n, k, d, .. } = sizes;
        let Lists { fresh, helpers, stand_ins } = self.lists.clone();
        let length = self.scene.length();
        let room = self.capacity * self.scene.sizes.stripe_len();
        let mut with_fresh = random.choose(self.in_service.clone(), k);
        with_fresh[0] = random.pick(&fresh);
        let boards = random.choose(self.in_service.clone(), k);
        let count = length.min(4);
        // one of n boards or more, or one that is fresh
        let careful = [&fresh[..1], &self.in_service, &[n, n]].concat();
        vec![
            Call::Read { boards: with_fresh },
            Call::Careful { boards: careful[..k + 2].to_vec() },
            Call::Write { file: random.bytes(length) },
            Call::Write { file: random.bytes(room + 1) },
            Call::Edit { offset: random.within(0, length - count), bytes: random.bytes(count), boards: boards.clone() },
            Call::Edit { offset: length + 1, bytes: random.bytes(1), boards: boards[1..].to_vec() },
            Call::Repair { fresh: fresh.clone(), helpers: helpers.clone(), stand_ins: stand_ins.clone() },
            self.start(),
            move_draw::draw(random, sizes, &self.scene.points),
            Call::Move { board: n, point: self.scene.points[0], helpers: helpers[..d - 1].to_vec(), partners: vec![] },
            Call::Start { fresh: vec![n], helpers: helpers[1..].to_vec(), stand_ins: stand_ins.clone() },
            Call::Repair { fresh: [&fresh[..], &fresh[..1]].concat(), helpers, stand_ins },
        ]
    }

    /// A step that is lent slices of other lengths.
    fn lengths(&self, trial: &mut Trial, random: &mut Random, lent: &Lent) -> Option<()> {
        let due = lent.packets.len();
        let allowance = running_draw::allowance(random, self.order.len());
        for length in [due.wrapping_sub(1), due + 1, 0, 2 * due + 1] {
            let packets = random.bytes(if length > 2 * due + 1 { 1 } else { length });
            Stepping::check(trial, &Call::Step { allowance }, &Lent { packets, ..lent.clone() })?;
        }
        for length in [lent.area.len() - 1, lent.area.len() + 1] {
            let mut area = lent.area.clone();
            area.resize(length, 0x5A);
            Stepping::check(trial, &Call::Step { allowance }, &Lent { area, ..lent.clone() })?;
        }
        Stepping::check(trial, &Call::Step { allowance: 0 }, lent).map(drop)
    }

    /// A loss of a board of each kind.
    fn losses(&self, trial: &mut Trial, random: &mut Random, lent: &Lent) -> Option<()> {
        for list in [&self.lists.fresh, &self.lists.helpers, &self.lists.stand_ins] {
            let Some(board) = random.choose(list.clone(), 1).pop() else { continue };
            let after = Stepping::check(trial, &Call::Lose { board }, lent)?;
            let out_of_service =
                self.lists.fresh.iter().all(|&fresh| after.record[store::word::MARKS] >> fresh & 1 == 0);
            if after.repair != running::none() || !out_of_service {
                trial.report("the coder itself goes on with a repair of which a board is lost");
            }
            let packets = lent.packets.clone();
            Stepping::check(trial, &Call::Step { allowance: 1 }, &Lent { packets, ..after })?;
        }
        let n = self.scene.sizes.n;
        let others: Vec<usize> = (0..n).filter(|&board| !self.lists.name(board)).collect();
        let (serving, lost) = others.into_iter().partition::<Vec<usize>, _>(|board| self.in_service.contains(board));
        for boards in [serving, lost] {
            if let Some(board) = random.choose(boards, 1).pop() {
                self.goes_on_after(trial, lent, board)?;
            }
        }
        let board = random.pick(&[n, 32, 255, 256, usize::MAX]);
        Stepping::check(trial, &Call::Lose { board }, lent).map(drop)
    }

    /// Set up in the middle of it, accepted and refused, and over words that are no record of a repair.
    fn set_ups(&self, trial: &mut Trial, random: &mut Random, lent: &Lent) -> Option<()> {
        let (sizes, points) = (self.scene.sizes, self.scene.points.clone());
        for capacity in [self.capacity, 0] {
            let call = Call::SetUp { sizes, points: points.clone(), capacity };
            Stepping::check(trial, &call, lent)?;
            let repair: Vec<u64> = (0..word::COUNT).map(|_| random.next() | 2).collect();
            Stepping::check(trial, &call, &Lent { repair, ..lent.clone() })?;
        }
        Some(())
    }

    /// Steps where none runs any more: of any allowance, over any packet area, beside any idle record.
    fn after_the_end(&self, trial: &mut Trial, random: &mut Random, lent: Lent) -> Option<()> {
        let ended = self.finish(trial, lent)?;
        for allowance in [0, 1, usize::MAX] {
            let length = random.pick(&[0, 1, ended.packets.len(), ended.packets.len() + 1]);
            let lent = Lent { repair: running_draw::idle(random), packets: random.bytes(length), ..ended.clone() };
            Stepping::check(trial, &Call::Step { allowance }, &lent)?;
        }
        let mut repair = running::words(&self.lists, 1);
        repair[word::RUNNING] = 0;
        Stepping::check(trial, &Call::Step { allowance: 0 }, &Lent { repair, packets: vec![1], ..ended })?;
        Some(())
    }

    /// Records of a repair that no call hands on, beside a right one of the store; and right ones beside a record of which a mark is another one.
    /// Every call is SIZE over them.
    pub fn made_up(&self, trial: &mut Trial, random: &mut Random) -> Option<()> {
        let right = running_draw::running(random, &self.lists);
        let lent = Lent { repair: right.clone(), ..self.lent(random) };
        let mut all: Vec<Lent> = running_draw::made_up(random, self.scene.sizes, &self.in_service, &self.lists, &right)
            .into_iter()
            .map(|repair| Lent { repair, ..lent.clone() })
            .collect();
        // a sender is out of service, or a fresh board in service
        for list in [&self.lists.fresh, &self.lists.helpers, &self.lists.stand_ins] {
            if let Some(board) = random.choose(list.clone(), 1).pop() {
                let mut record = lent.record.clone();
                record[store::word::MARKS] ^= 1 << board;
                all.push(Lent { record, ..lent.clone() });
            }
        }
        // no file
        let mut record = lent.record.clone();
        record[store::word::WRITTEN..=store::word::MARKS].fill(0);
        all.push(Lent { record, ..lent.clone() });
        let first = random.below(9);
        for (turn, lent) in all.into_iter().enumerate() {
            let call = self.any_call(random, (first + turn) % 9);
            let packets =
                if random.once_in(2) { random.bytes(crate::steps::area_len(&self.order)) } else { Vec::new() };
            let lent = Lent { packets, ..lent };
            if store::expect(&Call::Step { allowance: 0 }, &lent).answer != u64::from(SIZE) {
                trial.report("the coder itself takes a record of a repair that was made up not to be taken");
            }
            trial.check(&call, &lent, &Outcome::refused(SIZE, &lent)).then_some(())?;
        }
        Some(())
    }

    /// One of the nine calls that look at the repair's record, mostly with arguments that are right.
    fn any_call(&self, random: &mut Random, which: usize) -> Call {
        let k = self.scene.sizes.k;
        let Lists { fresh, helpers, stand_ins } = self.lists.clone();
        let boards = random.choose(self.in_service.clone(), k);
        match which {
            0 => Call::Write { file: self.scene.file.clone() },
            1 => Call::Lose { board: running_draw::to_lose(random, self.scene.sizes, &self.lists) },
            2 => Call::Repair { fresh, helpers, stand_ins },
            3 => Call::Read { boards },
            4 => Call::Edit { offset: 0, bytes: Vec::new(), boards },
            5 => self.start(),
            6 => Call::Careful { boards: random.choose(self.in_service.clone(), k + 2) },
            7 => move_draw::draw(random, self.scene.sizes, &self.scene.points),
            _ => Call::Step { allowance: running_draw::allowance(random, self.order.len()) },
        }
    }
}
