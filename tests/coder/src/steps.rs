//! The coder's own model of a repair a packet at a time (request A.8 of document 02): a start, and a step over any records and any bytes in both areas.
//! The packets are written down as one list, each with its place behind those before it, and what a board received is looked up in it.

use crate::call::refusal::{AREA, EMPTY, IDLE};
use crate::call::{Lent, Outcome};
use crate::code::{self, Sizes};
use crate::running::{self, word, Lists};
use crate::store::{self, Record};
use std::collections::BTreeSet;
use std::ops::Range;

#[derive(Clone, Copy, Debug, PartialEq, Eq)]
pub enum Kind {
    Helper,
    StandIn,
    Exchange,
}

/// A packet, and where it lies in the packet area.
#[derive(Clone, Debug)]
pub struct Packet {
    pub kind: Kind,
    pub sender: usize,
    pub receiver: usize,
    pub at: Range<usize>,
}

/// All packets of a repair, of a file of so many stripes: "helper packets first, then stand-ins' packets, then exchanges, each by fresh board (the
/// receiver) and then by list".
pub fn order(sizes: Sizes, lists: &Lists, stripes: usize) -> Vec<Packet> {
    let Lists { fresh, helpers, stand_ins } = lists;
    let runs = store::runs(sizes, fresh, helpers, stand_ins).expect("the lists have their lengths");
    let mut carried: Vec<(Kind, usize, usize)> = Vec::new();
    for &(board, helpers, _) in &runs {
        carried.extend(helpers.iter().map(|&helper| (Kind::Helper, helper, board)));
    }
    for &(board, _, stand_ins) in &runs {
        carried.extend(stand_ins.iter().map(|&stand_in| (Kind::StandIn, stand_in, board)));
    }
    for &board in fresh {
        carried.extend(fresh.iter().filter(|&&other| other != board).map(|&other| (Kind::Exchange, other, board)));
    }
    let mut end = 0;
    let mut lay = |(kind, sender, receiver)| {
        let start = end;
        // "A packet is 2S bytes"; "An exchange packet is S bytes", and so is what a stand-in sends
        end += if kind == Kind::Helper { 2 * stripes } else { stripes };
        Packet { kind, sender, receiver, at: start..end }
    };
    carried.into_iter().map(&mut lay).collect()
}

/// The bytes of a packet area: "just its packets".
pub fn area_len(order: &[Packet]) -> usize {
    order.last().map_or(0, |last| last.at.end)
}

/// "lists that a start would refuse, or a count carried at or above its total".
pub fn can_run(record: &Record, lists: &Lists, carried: u64) -> bool {
    let Lists { fresh, helpers, stand_ins } = lists;
    store::check_lists(record, fresh, helpers, stand_ins).is_ok()
        && carried < order(record.sizes, lists, record.stripes()).len() as u64
}

pub fn start(fresh: &[usize], helpers: &[usize], stand_ins: &[usize], lent: &Lent) -> Result<Outcome, u8> {
    store::check_repair(fresh, helpers, stand_ins, lent)?;
    let lists = Lists { fresh: fresh.to_vec(), helpers: helpers.to_vec(), stand_ins: stand_ins.to_vec() };
    Ok(Outcome::accepted(0, Lent { repair: running::words(&lists, 0), ..lent.clone() }))
}

/// "17 IDLE, a step with none running, at the same place" as 16, "after 8".
pub fn step(allowance: usize, lent: &Lent) -> Result<Outcome, u8> {
    let (record, running) = store::opened(lent)?;
    let carried = lent.repair[word::CARRIED] as usize;
    let plan = running.map(|lists| order(record.sizes, &lists, record.stripes()));
    if plan.as_ref().is_some_and(|order| lent.packets.len() != area_len(order)) {
        return Err(AREA);
    }
    if !record.written {
        return Err(EMPTY);
    }
    let order = plan.ok_or(IDLE)?;
    let now: Vec<&Packet> = order[carried..].iter().take(allowance).collect();
    let mut after = lent.clone();
    for packet in &now {
        let bytes = made(&record, &order, packet, &after);
        after.packets[packet.at.clone()].copy_from_slice(&bytes);
    }
    if carried + now.len() < order.len() {
        after.repair[word::CARRIED] += now.len() as u64;
    } else {
        finish(record, &order, &mut after);
    }
    Ok(Outcome::accepted(now.len(), after))
}

/// The senders of a board's packets of some kinds, and their bytes as they lie there.
fn received(order: &[Packet], board: usize, kinds: &[Kind], packets: &[u8]) -> (Vec<usize>, Vec<u8>) {
    let heard = order.iter().filter(|packet| packet.receiver == board && kinds.contains(&packet.kind));
    let (mut senders, mut bytes) = (Vec::new(), Vec::new());
    for packet in heard {
        senders.push(packet.sender);
        bytes.extend_from_slice(&packets[packet.at.clone()]);
    }
    (senders, bytes)
}

/// "from helpers and stand-ins their board-level packets over the boards as they then are, an exchange made from its sender's helper packets lying
/// there".
fn made(record: &Record, order: &[Packet], packet: &Packet, lent: &Lent) -> Vec<u8> {
    let Packet { kind, sender, receiver, .. } = *packet;
    let (sizes, points) = (record.sizes, &record.points[..]);
    match kind {
        Kind::Helper => code::helper_packet(sizes, points, sender, receiver, &lent.area[record.share(sender)]),
        Kind::StandIn => code::stand_in_packet(sizes, points, sender, receiver, &lent.area[record.share(sender)]),
        Kind::Exchange => {
            let (helpers, heard) = received(order, sender, &[Kind::Helper], &lent.packets);
            code::exchange_packet(points, &helpers, &heard, receiver)
        }
    }
}

/// "the last makes each fresh share the finished share of just the packets lying there", and all "enter service only with the last".
fn finish(mut record: Record, order: &[Packet], after: &mut Lent) {
    let fresh: BTreeSet<usize> = order.iter().map(|packet| packet.receiver).collect();
    for board in fresh {
        record.marks[board] = true;
        let (helpers, heard) = received(order, board, &[Kind::Helper], &after.packets);
        let (partners, sent) = received(order, board, &[Kind::StandIn, Kind::Exchange], &after.packets);
        let share = code::finished_share(record.sizes, &record.points, board, &helpers, &heard, &partners, &sent);
        after.area[record.share(board)].copy_from_slice(&share);
    }
    after.record = record.words();
    after.repair = running::none();
}
