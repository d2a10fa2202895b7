//! Makes calls through the archive. What a call may change stands between guards, so that a byte written outside is seen.

use crate::call::{Call, Lent, Outcome};

/// How many elements stand on each side of what is lent.
const GUARD: usize = 64;

/// Memory to lend, with a guard on each side.
struct Guarded<T> {
    cells: Vec<T>,
    guard: T,
}

impl<T: Copy + PartialEq> Guarded<T> {
    fn new(content: &[T], guard: T) -> Guarded<T> {
        let mut cells = vec![guard; GUARD];
        cells.extend_from_slice(content);
        cells.extend([guard; GUARD]);
        Guarded { cells, guard }
    }

    fn end(&self) -> usize {
        self.cells.len() - GUARD
    }

    fn lent(&mut self) -> &mut [T] {
        let end = self.end();
        &mut self.cells[GUARD..end]
    }

    fn intact(&self) -> bool {
        self.cells[..GUARD].iter().chain(&self.cells[self.end()..]).all(|&cell| cell == self.guard)
    }

    fn content(&self) -> Vec<T> {
        self.cells[GUARD..self.end()].to_vec()
    }
}

/// What the archive made of a call, and whether it kept to the memory that it was lent.
pub struct Performed {
    pub outcome: Outcome,
    pub kept_inside: bool,
}

/// Does a call through the archive, over a copy of what it is lent.
pub fn perform(call: &Call, lent: &Lent) -> Performed {
    let mut record = Guarded::new(&lent.record, 0xA5A5_5A5A_C3C3_3C3C);
    let mut repair = Guarded::new(&lent.repair, 0x3C3C_C3C3_5A5A_A5A5);
    let mut area = Guarded::new(&lent.area, 0xA5);
    let mut packets = Guarded::new(&lent.packets, 0x5A);
    let mut out = Guarded::new(&lent.out, 0xC3);
    let answer = call.ask(record.lent(), repair.lent(), area.lent(), packets.lent(), out.lent());
    let records_intact = record.intact() && repair.intact();
    let kept_inside = records_intact && area.intact() && packets.intact() && out.intact();
    let lent = Lent {
        record: record.content(),
        repair: repair.content(),
        area: area.content(),
        packets: packets.content(),
        out: out.content(),
    };
    Performed { outcome: Outcome { answer, lent }, kept_inside }
}
