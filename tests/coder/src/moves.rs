//! The coder's own model of a board's move to another point (request A.10 of document 02), over any records and any area. All is made of the area before the
//! call: what helpers and partners send is of their f and g through the values kept at the old points, taken at the new byte, so that nothing rests on
//! what they keep afterwards; and each other board keeps all its values anew, whether their places have changed or not.

use crate::call::refusal::{BUSY, COUNT, DOWN, EMPTY, NODE, REPEAT};
use crate::call::{Lent, Outcome};
use crate::code::{self, Sizes};
use crate::store::{self, Record};

/// "A call moves one board to a new byte, with all n in service and d helpers and r − 1 partners named."
pub fn moved(board: usize, point: u8, helpers: &[usize], partners: &[usize], lent: &Lent) -> Result<Outcome, u8> {
    let (mut record, running) = store::opened(lent)?;
    if !record.written {
        return Err(EMPTY);
    }
    if running.is_some() {
        return Err(BUSY);
    }
    check(&record, board, point, helpers, partners)?;
    let Sizes { n, .. } = record.sizes;
    let (sizes, before) = (record.sizes, record.points.clone());
    record.points[board] = point;
    let held = |other: usize| &lent.area[record.share(other)];
    let sent = |sender: usize| code::packet_to(sizes, &before, sender, point, held(sender));
    let packets: Vec<u8> = helpers.iter().flat_map(|&helper| sent(helper)).collect();
    // "partners sending as stand-ins do"
    let partner_packets: Vec<u8> = partners.iter().flat_map(|&partner| code::seconds_of(sent(partner))).collect();
    let mut after = lent.clone();
    let points = &record.points;
    let share = code::finished_share(sizes, points, board, helpers, &packets, partners, &partner_packets);
    after.area[record.share(board)].copy_from_slice(&share);
    // "Every other board works out its own kept values afresh from f and g"
    for other in (0..n).filter(|&other| other != board) {
        let share = code::afresh(sizes, &before, points, other, held(other));
        after.area[record.share(other)].copy_from_slice(&share);
    }
    after.record = record.words();
    Ok(Outcome::accepted(packets.len() + partner_packets.len(), after))
}

/// "Lists and marks are checked as in a repair of one board, .. SERVING left out; any board out of service is DOWN. A new byte that is some board's point,
/// its own included, is REPEAT."
fn check(record: &Record, board: usize, point: u8, helpers: &[usize], partners: &[usize]) -> Result<(), u8> {
    let Sizes { n, d, r, .. } = record.sizes;
    if (helpers.len(), partners.len() + 1) != (d, r) {
        return Err(COUNT);
    }
    let named = [&[board], helpers, partners].concat();
    if named.iter().any(|&named| named >= n) {
        return Err(NODE);
    }
    if store::has_repeat(&named) || (0..n).any(|any| record.points[any] == point) {
        return Err(REPEAT);
    }
    if record.some_down(&(0..n).collect::<Vec<usize>>()) {
        return Err(DOWN);
    }
    Ok(())
}
