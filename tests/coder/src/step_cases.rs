//! Repairs a packet at a time (request A.8 of document 02) over one store, from a start on: to their ends by steps of every kind, held to the whole
//! repair in the place of the last one; over packets that are altered where they lie, and over wrong bytes on boards in service; and up to a power
//! failure, at every count of packets, behind which the file is read and the repair started anew. `step_meanwhile` has what other calls do meanwhile.

use crate::altered;
use crate::call::{Call, Lent};
use crate::code::Sizes;
use crate::points;
use crate::random::Random;
use crate::running::{self, word, Lists};
use crate::running_draw;
use crate::scene::Scene;
use crate::steps::{self, Kind, Packet};
use crate::steps_met::{AFTER_A_LOSS, EXCHANGE_ALTERED, PACKET_ALTERED, SENDER_WRONG};
use crate::store;
use crate::store_cases;
use crate::trial::Trial;

/// Up to how many packets power fails before each of them.
const EVERY: usize = 24;

/// From how many bytes carried on a repair is stepped to its end in fewer ways.
const MANY: usize = 50_000;

/// A file in a store with boards out of service, and the lists by which some of them are rebuilt.
pub struct Stepping<'a> {
    pub scene: &'a Scene,
    pub capacity: usize,
    /// true shares on boards in service, any bytes on the others
    pub area: Vec<u8>,
    pub in_service: Vec<usize>,
    pub lists: Lists,
    pub order: Vec<Packet>,
}

/// How a repair is stepped to its end.
#[derive(Clone, Copy)]
enum Pace {
    Ones,
    Threes,
    /// all but one, then none, then the last
    LastApart,
    /// all, by as many
    AtOnce,
    /// all, by 2^64 − 1
    Unbounded,
    /// none, one, three, half of those left, and so on
    Mixed,
    /// as it is drawn, over bytes of the packet area that change where nothing was carried yet
    Drawn,
}

/// A few stripes, or none.
pub fn run(trial: &mut Trial, random: &mut Random, sizes: Sizes) {
    let stripes = random.pick(&[0, 1, 1, 2, 3]);
    let last = random.within(1, sizes.stripe_len());
    let length = if stripes == 0 { 0 } else { (stripes - 1) * sizes.stripe_len() + last };
    let capacity = (stripes + random.below(2)).max(1);
    let file = random.bytes(length);
    let scene = Scene::new(sizes, points::draw(random, sizes.n), file);
    let t = random.within(1, sizes.r);
    over(trial, random, &scene, capacity, t);
}

/// Repairs of so many boards, of a file in an area with room for so many stripes.
pub fn over(trial: &mut Trial, random: &mut Random, scene: &Scene, capacity: usize, t: usize) {
    let stepping = Stepping::new(random, scene, capacity, t);
    let many = steps::area_len(&stepping.order) > MANY;
    let few = [Pace::Mixed, Pace::Unbounded];
    let all = [Pace::Mixed, Pace::Ones, Pace::Threes, Pace::LastApart, Pace::AtOnce, Pace::Unbounded, Pace::Drawn];
    for &pace in if many { &few[..] } else { &all } {
        stepping.to_the_end(trial, random, pace);
    }
    stepping.altered(trial, random);
    stepping.failures(trial, random);
    stepping.meanwhile(trial, random);
    stepping.made_up(trial, random);
}

impl<'a> Stepping<'a> {
    fn new(random: &mut Random, scene: &'a Scene, capacity: usize, t: usize) -> Stepping<'a> {
        let Sizes { n, d, r, .. } = scene.sizes;
        // other boards are lost too, as far as those in service are enough; of real sizes always one
        let spare = n - d - r;
        let more = if scene.stripes() > 100 { 1 } else { random.pick(&[0, 0, 1, spare]) };
        let lost = t + more.min(spare);
        let in_service = random.choose((0..n).collect(), n - lost);
        let lists = running_draw::lists_of(random, scene.sizes, &in_service, t);
        let mut area = store_cases::true_area(random, scene, capacity);
        let board_len = capacity * scene.sizes.share_len();
        for board in (0..n).filter(|board| !in_service.contains(board)) {
            let bytes = random.bytes(board_len);
            area[board * board_len..][..board_len].copy_from_slice(&bytes);
        }
        let order = steps::order(scene.sizes, &lists, scene.stripes());
        Stepping { scene, capacity, area, in_service, lists, order }
    }

    pub fn record(&self, in_service: &[usize]) -> Vec<u64> {
        let Scene { sizes, ref points, .. } = *self.scene;
        store::words(sizes, points, self.capacity, Some(self.scene.length()), in_service)
    }

    /// Where a board's share begins, and how many bytes it has.
    fn share_at(&self, board: usize) -> (usize, usize) {
        let width = self.scene.sizes.share_len();
        (board * self.capacity * width, self.scene.stripes() * width)
    }

    /// The area once the fresh boards hold their shares.
    fn area_due(&self) -> Vec<u8> {
        let mut area = self.area.clone();
        for &board in &self.lists.fresh {
            let (start, length) = self.share_at(board);
            area[start..start + length].copy_from_slice(self.scene.share(board));
        }
        area
    }

    /// The call by these lists.
    pub fn start(&self) -> Call {
        let Lists { fresh, helpers, stand_ins } = self.lists.clone();
        Call::Start { fresh, helpers, stand_ins }
    }

    fn whole(&self) -> Call {
        let Lists { fresh, helpers, stand_ins } = self.lists.clone();
        Call::Repair { fresh, helpers, stand_ins }
    }

    /// What is lent before a start.
    pub fn lent(&self, random: &mut Random) -> Lent {
        let repair = running_draw::idle(random);
        Lent { repair, ..Lent::idle(self.record(&self.in_service), self.area.clone(), Vec::new()) }
    }

    /// A call; what it leaves, where the archive made of it what the coder does.
    pub fn check(trial: &mut Trial, call: &Call, lent: &Lent) -> Option<Lent> {
        let expected = store::expect(call, lent);
        trial.check(call, lent, &expected).then_some(expected.lent)
    }

    /// A start, and a packet area of any bytes.
    pub fn started(&self, trial: &mut Trial, random: &mut Random) -> Option<Lent> {
        let lent = self.lent(random);
        let after = Stepping::check(trial, &self.start(), &lent)?;
        if after.repair != running::words(&self.lists, 0) || (&after.record, &after.area) != (&lent.record, &lent.area)
        {
            trial.report("the coder itself starts a repair otherwise than by its lists");
        }
        Some(Lent { packets: random.bytes(steps::area_len(&self.order)), ..after })
    }

    /// A start, and steps until so many packets are carried.
    pub fn carried(&self, trial: &mut Trial, random: &mut Random, count: usize) -> Option<Lent> {
        let mut lent = self.started(trial, random)?;
        let first = random.within(0, count);
        for allowance in [first, count - first] {
            lent = Stepping::check(trial, &Call::Step { allowance }, &lent)?;
        }
        Some(lent)
    }

    /// How many packets are left, by words that a call left.
    fn left(&self, lent: &Lent) -> usize {
        if lent.repair[word::RUNNING] == 0 {
            return 0;
        }
        self.order.len() - lent.repair[word::CARRIED] as usize
    }

    /// Steps from a start to the end, with nothing altered but bytes that do not count; then the whole repair in the place of the last step.
    fn to_the_end(&self, trial: &mut Trial, random: &mut Random, pace: Pace) -> Option<()> {
        let mut lent = self.started(trial, random)?;
        let mut before = lent.clone();
        for turn in 0.. {
            let left = self.left(&lent);
            if left == 0 {
                break;
            }
            let allowance = match pace {
                Pace::Mixed => [0, 1, 3, left / 2, 1, left - 1, 1][turn % 7],
                Pace::Ones => 1,
                Pace::Threes => 3,
                Pace::LastApart if left == self.order.len() && left > 1 => left - 1,
                Pace::LastApart => 1,
                Pace::AtOnce => left,
                Pace::Unbounded => usize::MAX,
                Pace::Drawn => running_draw::allowance(random, left),
            };
            if let Pace::Drawn = pace {
                self.alter_freely(random, &mut lent);
            }
            if let (Pace::LastApart, 1) = (pace, left) {
                lent = Stepping::check(trial, &Call::Step { allowance: 0 }, &lent)?;
            }
            before = lent;
            lent = Stepping::check(trial, &Call::Step { allowance }, &before)?;
        }
        if lent.area != self.area_due() && !matches!(pace, Pace::Drawn) {
            trial.report("the coder itself leaves fresh boards other shares than those of the file");
        }
        let whole = Lent { repair: running_draw::idle(random), packets: Vec::new(), ..before };
        let due = Stepping::check(trial, &self.whole(), &whole)?;
        if (&due.record, &due.area) != (&lent.record, &lent.area) || lent.repair != running::none() {
            trial.report("the coder itself leaves something else by steps than by a whole repair");
        }
        Stepping::check(trial, &Call::Step { allowance: random.below(2) }, &lent).map(drop)
    }

    /// Other bytes where nothing was carried yet, and on boards out of service.
    fn alter_freely(&self, random: &mut Random, lent: &mut Lent) {
        let carried = self.order.len() - self.left(lent);
        let from = self.order.get(carried).map_or(lent.packets.len(), |packet| packet.at.start);
        let bytes = random.bytes(lent.packets.len() - from);
        lent.packets[from..].copy_from_slice(&bytes);
        let (start, length) = self.share_at(random.pick(&self.lists.fresh));
        let bytes = random.bytes(length);
        lent.area[start..start + length].copy_from_slice(&bytes);
    }

    /// Over bytes altered: of a packet that was carried, of the helper packets that exchanges are made of, of senders before they send and behind.
    fn altered(&self, trial: &mut Trial, random: &mut Random) -> Option<()> {
        let stripes = self.scene.stripes();
        if stripes == 0 {
            return None;
        }
        let total = self.order.len();
        let due = self.area_due();
        for _ in 0..if steps::area_len(&self.order) > MANY { 1 } else { 2 } {
            let count = random.below(total);
            let mut lent = self.carried(trial, random, count)?;
            if count > 0 {
                let packet = &self.order[random.below(count)];
                alter(random, &mut lent.packets, packet.at.clone());
            }
            let after = self.finish(trial, lent)?;
            self.tell(trial, PACKET_ALTERED, count > 0 && after.area != due);
        }
        // a first byte of the helper packets of the last fresh board, once all helper packets lie there: it sends an exchange before the last packet
        let (of_helpers, d) = (self.lists.helpers.len(), self.scene.sizes.d);
        if of_helpers < total {
            let mut lent = self.carried(trial, random, of_helpers)?;
            let packet = &self.order[random.within(of_helpers - d, of_helpers - 1)];
            let place = packet.at.start + 2 * random.below(stripes);
            alter(random, &mut lent.packets, place..place + 1);
            let truth = self.carried(trial, random, total - 1)?;
            let after = Stepping::check(trial, &Call::Step { allowance: total - 1 - of_helpers }, &lent)?;
            let from = self.order[of_helpers].at.start;
            let to = self.order[total - 1].at.start;
            self.tell(trial, EXCHANGE_ALTERED, after.packets[from..to] != truth.packets[from..to]);
            self.finish(trial, after)?;
        }
        self.wrong_senders(trial, random)
    }

    /// A wrong byte on a sender before all packets, and on one behind the helper packets; it may be any byte of the sender's part.
    fn wrong_senders(&self, trial: &mut Trial, random: &mut Random) -> Option<()> {
        let of_helpers = self.lists.helpers.len();
        for count in [0, of_helpers.min(self.order.len() - 1)] {
            let mut lent = self.carried(trial, random, count)?;
            let senders = self.order.iter().filter(|packet| packet.kind != Kind::Exchange);
            let sender = random.pick(&senders.map(|packet| packet.sender).collect::<Vec<usize>>());
            let (start, length) = self.share_at(sender);
            alter(random, &mut lent.area, start..start + length);
            let after = self.finish(trial, lent)?;
            let mut due = self.area_due();
            due[start..start + length].copy_from_slice(&after.area[start..start + length]);
            self.tell(trial, SENDER_WRONG, count == 0 && after.area != due);
        }
        Some(())
    }

    /// Steps to the end: one packet, then all that are left.
    pub fn finish(&self, trial: &mut Trial, lent: Lent) -> Option<Lent> {
        let after = Stepping::check(trial, &Call::Step { allowance: 1 }, &lent)?;
        if self.left(&after) == 0 {
            return Some(after);
        }
        Stepping::check(trial, &Call::Step { allowance: usize::MAX }, &after)
    }

    /// Counts a call of a kind that only the alteration tells.
    pub fn tell(&self, trial: &mut Trial, kind: usize, holds: bool) {
        if holds {
            trial.steps.tell(kind, self.scene.sizes, self.scene.stripes());
        }
    }

    /// Power that fails before each packet, or before some of many; and inside the last step.
    fn failures(&self, trial: &mut Trial, random: &mut Random) {
        let total = self.order.len();
        let mut counts: Vec<usize> = vec![0, random.below(total), random.below(total), total - 1];
        if total <= EVERY && self.scene.stripes() < 4 {
            counts = (0..total).collect();
        }
        for count in counts {
            self.failure(trial, random, count, false);
        }
        self.failure(trial, random, total - 1, true);
    }

    /// Power that fails where so many packets are carried, or inside the last step, which has changed bytes of fresh boards by then. The store's record
    /// and area are as before the start but for what was lost; the file is read, and the repair started anew, or done as a whole.
    fn failure(&self, trial: &mut Trial, random: &mut Random, count: usize, inside: bool) -> Option<()> {
        let mut lent = self.carried(trial, random, count)?;
        let mut in_service = self.in_service.clone();
        // perhaps a board was lost since that the repair does not name
        let others: Vec<usize> = in_service.iter().copied().filter(|&board| !self.lists.name(board)).collect();
        if !others.is_empty() && random.once_in(3) {
            let board = random.pick(&others);
            lent = Stepping::check(trial, &Call::Lose { board }, &lent)?;
            in_service.retain(|&other| other != board);
        }
        if lent.record != self.record(&in_service) || lent.area != self.area {
            trial.report("the coder itself changes record or area before the last packet");
        }
        if inside {
            self.alter_freely(random, &mut lent);
        }
        // "the repair's own record and packets are gone"
        lent.repair = running_draw::idle(random);
        lent.packets.clear();
        self.read(trial, random, &lent, &in_service)?;
        let due = self.area_due();
        let anew = random.once_in(2);
        let after = if anew {
            let started = Stepping::check(trial, &self.start(), &lent)?;
            let packets = random.bytes(steps::area_len(&self.order));
            Stepping::check(trial, &Call::Step { allowance: usize::MAX }, &Lent { packets, ..started })?
        } else {
            Stepping::check(trial, &self.whole(), &lent)?
        };
        if after.area != due {
            trial.report("the coder itself leaves fresh boards other shares than those of the file");
        }
        let kind = match (inside, count) {
            (true, _) => 3,
            (_, 0) => 0,
            _ if count + 1 == self.order.len() => 2,
            _ => 1,
        };
        trial.steps.tell_failure(kind, self.scene.sizes, self.scene.stripes());
        Some(())
    }

    /// A read of any k boards in service, which gives the file.
    pub fn read(&self, trial: &mut Trial, random: &mut Random, lent: &Lent, in_service: &[usize]) -> Option<()> {
        let boards = random.choose(in_service.to_vec(), self.scene.sizes.k);
        if boards.len() < self.scene.sizes.k {
            return Some(());
        }
        let lent = Lent { out: random.bytes(self.scene.length() + 1), ..lent.clone() };
        let call = Call::Read { boards };
        trial.check(&call, &lent, &altered::expected(&call, &lent, Some(&self.scene.file))).then_some(())
    }

    /// A loss of a board that the repair does not name, and the steps behind it.
    pub fn goes_on_after(&self, trial: &mut Trial, lent: &Lent, board: usize) -> Option<()> {
        let after = Stepping::check(trial, &Call::Lose { board }, lent)?;
        if after.repair != lent.repair {
            trial.report("the coder itself ends a repair with a board that it does not name");
        }
        let ended = self.finish(trial, Lent { packets: lent.packets.clone(), ..after })?;
        if ended.area != self.area_due() {
            trial.report("the coder itself leaves fresh boards other shares than those of the file");
        }
        self.tell(trial, AFTER_A_LOSS, true);
        Some(())
    }
}

/// Makes a byte of a range another one.
fn alter(random: &mut Random, bytes: &mut [u8], range: std::ops::Range<usize>) {
    let place = random.within(range.start, range.end - 1);
    bytes[place] ^= random.within(1, 255) as u8;
}
