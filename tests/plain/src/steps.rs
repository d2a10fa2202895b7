//! A repair a packet at a time (request A.8): a start, and steps that carry its packets through a lent packet area.

use crate::board;
use crate::running::{Running, CARRIED};
use crate::sizes::{refuse_if, Refusal, Sizes};
use crate::store::{check_repair, Named, Record, MARKS};

/// Starts a repair. It carries nothing and reports 0.
pub fn start(
    words: &[u64],
    repair: &mut [u64],
    area: &[u8],
    fresh: &[usize],
    helpers: &[usize],
    stand_ins: &[usize],
) -> Result<usize, Refusal> {
    let record = Record::with_area(words, repair, area)?;
    let named = Named { fresh, helpers, stand_ins };
    check_repair(&record, repair, named)?;
    Running::begin(repair, named);
    Ok(0)
}

/// Carries at most so many packets, and reports how many; with the last one the fresh boards get their shares and come into service.
pub fn step(
    words: &mut [u64],
    repair: &mut [u64],
    area: &mut [u8],
    packets: &mut [u8],
    allowance: usize,
) -> Result<usize, Refusal> {
    let record = Record::with_area(words, repair, area)?;
    let running = Running::from_words(record.sizes, repair);
    let due = running.as_ref().map_or(packets.len(), |running| running.packets_len(&record));
    refuse_if(packets.len() != due, Refusal::Area)?;
    refuse_if(!record.written, Refusal::Empty)?;
    let running = running.ok_or(Refusal::Idle)?;
    let bus = Bus { record: &record, named: running.named() };
    let left = running.total(record.sizes) - running.carried;
    let count = allowance.min(left);
    for q in running.carried..running.carried + count {
        bus.carry(q, area, packets);
    }
    if count < left {
        repair[CARRIED] += count as u64;
        return Ok(count);
    }
    for a in 0..running.fresh.len() {
        bus.finish(a, area, packets);
    }
    for &board in &running.fresh {
        words[MARKS] |= 1 << board;
    }
    repair.fill(0);
    Ok(count)
}

/// A packet for the a-th fresh board: of its h-th helper, of its s-th stand-in, or of the b-th of all fresh boards.
#[derive(Clone, Copy)]
enum Packet {
    Helper { a: usize, h: usize },
    StandIn { a: usize, s: usize },
    Exchange { a: usize, b: usize },
}

/// A repair under way.
struct Bus<'a> {
    record: &'a Record,
    named: Named<'a>,
}

impl Bus<'_> {
    fn sizes(&self) -> Sizes {
        self.record.sizes
    }

    /// How many boards are fresh.
    fn t(&self) -> usize {
        self.named.fresh.len()
    }

    /// How many helper packets there are, and how many of stand-ins.
    fn counts(&self) -> (usize, usize) {
        let Sizes { d, r, .. } = self.sizes();
        (self.t() * d, self.t() * (r - self.t()))
    }

    /// Which packet is carried q-th.
    fn packet(&self, q: usize) -> Packet {
        let Sizes { d, r, .. } = self.sizes();
        let (helpers, stand_ins) = self.counts();
        if q < helpers {
            return Packet::Helper { a: q / d, h: q % d };
        }
        let q = q - helpers;
        if q < stand_ins {
            let each = r - self.t();
            return Packet::StandIn { a: q / each, s: q % each };
        }
        // the others in the order of the fresh list
        let (a, other) = ((q - stand_ins) / (self.t() - 1), (q - stand_ins) % (self.t() - 1));
        Packet::Exchange { a, b: if other < a { other } else { other + 1 } }
    }

    /// Where the q-th begins: helper packets have two bytes for each stripe, the others one.
    fn place(&self, q: usize) -> usize {
        (q + q.min(self.counts().0)) * self.record.stripes()
    }

    /// What the a-th fresh board's helpers sent, as it lies there.
    fn received<'a>(&self, a: usize, packets: &'a [u8]) -> &'a [u8] {
        let d = self.sizes().d;
        &packets[self.place(a * d)..self.place((a + 1) * d)]
    }

    /// Carries the q-th packet to its place.
    fn carry(&self, q: usize, area: &[u8], packets: &mut [u8]) {
        let Record { sizes, ref points, .. } = *self.record;
        let mut made = vec![0; self.place(q + 1) - self.place(q)];
        match self.packet(q) {
            Packet::Helper { a, h } => {
                let (helper, board) = (self.named.helpers_of(sizes, a)[h], self.named.fresh[a]);
                board::help(sizes, points, helper, board, self.record.share(area, helper), &mut made);
            }
            Packet::StandIn { a, s } => {
                let (stand_in, board) = (self.named.stand_ins_of(sizes, a)[s], self.named.fresh[a]);
                board::stand_in(sizes, points, stand_in, board, self.record.share(area, stand_in), &mut made);
            }
            Packet::Exchange { a, b } => {
                let heard = self.received(b, packets);
                let gs = board::all_g(sizes, points, self.named.helpers_of(sizes, b), heard, self.record.stripes());
                board::exchange(sizes, points, &gs, self.named.fresh[a], &mut made);
            }
        }
        packets[self.place(q)..][..made.len()].copy_from_slice(&made);
    }

    /// The share of the a-th fresh board, of just the packets that lie there.
    fn finish(&self, a: usize, area: &mut [u8], packets: &[u8]) {
        let Record { sizes, ref points, .. } = *self.record;
        let (helpers, stand_ins) = self.counts();
        let (board, each) = (self.named.fresh[a], sizes.r - self.t());
        let lying = |first: usize, count: usize| &packets[self.place(first)..self.place(first + count)];
        let stood_in = lying(helpers + a * each, each);
        let exchanged = lying(helpers + stand_ins + a * (self.t() - 1), self.t() - 1);
        let others = self.named.fresh.iter().filter(|&&other| other != board);
        let partners: Vec<usize> = self.named.stand_ins_of(sizes, a).iter().chain(others).copied().collect();
        let sent = [stood_in, exchanged].concat();
        let (list, heard) = (self.named.helpers_of(sizes, a), self.received(a, packets));
        let gs = board::all_g(sizes, points, list, heard, self.record.stripes());
        let out = self.record.share_mut(area, board);
        board::finish(sizes, points, board, &gs, list, heard, &partners, &sent, out);
    }
}
