//! The ledger of document 01: a plain book kept beside the store. It is fed the sizes, the points, the capacity, the area's length and each call's
//! arguments other than record and area, and never an answer. It keeps the last file accepted and the boards in service; and of a repair that runs
//! (request A.8 of document 02) its lists and how many packets are left. Of a step's packet area it is fed the length. A power failure is told to it. Its
//! points change by accepted moves (request A.10).

use crate::call::refusal::{AREA, BUSY, COUNT, DOWN, EMPTY, IDLE, LONG, NODE, RANGE, REPEAT, SERVING, SHORT};
use crate::call::Call;
use crate::code::Sizes;
use crate::running::Lists;
use std::collections::BTreeSet;

pub struct Book {
    pub sizes: Sizes,
    pub points: Vec<u8>,
    pub capacity: usize,
    pub area_len: usize,
    pub file: Option<Vec<u8>>,
    pub in_service: BTreeSet<usize>,
    pub repairing: Option<Repairing>,
}

/// A repair that runs.
#[derive(Clone)]
pub struct Repairing {
    pub lists: Lists,
    pub left: usize,
}

/// What the book answers: the answer, all bytes of a read's output, the boards whose shares the call makes anew, and how many packets it carries.
pub struct Reply {
    pub answer: u64,
    pub out: Vec<u8>,
    pub made: Vec<usize>,
    pub carried: usize,
}

impl Book {
    pub fn new(sizes: Sizes, points: Vec<u8>, capacity: usize, area_len: usize) -> Book {
        Book { sizes, points, capacity, area_len, file: None, in_service: BTreeSet::new(), repairing: None }
    }

    /// The number of the first line that holds for a call, "1, 2, 3, 8, 16, 17, 15, 4, 5, 6, 14, 9, 7, 10"; 1 and 10 never hold in it. The output and
    /// the packet area that it is lent have so many bytes.
    fn refusal(&self, call: &Call, out: usize, packets: usize) -> Option<u8> {
        let Sizes { n, k, d, r } = self.sizes;
        let wrong_area = self.area_len != n * self.capacity * self.sizes.share_len();
        let busy = self.repairing.is_some();
        let known = |boards: &[usize]| boards.iter().all(|board| (0..n).contains(board));
        let serving = |boards: &[usize]| boards.iter().all(|board| self.in_service.contains(board));
        let different = |boards: &[usize]| boards.iter().collect::<BTreeSet<_>>().len() == boards.len();
        let lines: Vec<(u8, bool)> = match call {
            Call::Write { file } => {
                let long = file.len() > self.capacity * self.sizes.stripe_len();
                vec![(AREA, wrong_area), (LONG, long), (BUSY, busy)]
            }
            Call::Lose { board } => vec![(NODE, !known(&[*board]))],
            Call::Repair { fresh, helpers, stand_ins } | Call::Start { fresh, helpers, stand_ins } => {
                let t = fresh.len();
                // the lists of each fresh board; none where COUNT holds
                let right = (1..=r).contains(&t) && (helpers.len(), stand_ins.len()) == (t * d, t * (r - t));
                let count = if right { t } else { 0 };
                let run = |list: &[usize], a: usize| list[a * list.len() / t..(a + 1) * list.len() / t].to_vec();
                let own = |a: usize| [run(helpers, a), run(stand_ins, a)].concat();
                let named_differ = (0..count).all(|a| different(&own(a)));
                let apart = (0..count).all(|a| own(a).iter().all(|board| !fresh.contains(board)));
                vec![
                    (AREA, wrong_area),
                    (EMPTY, self.file.is_none()),
                    (BUSY, busy),
                    (COUNT, !right),
                    (NODE, !known(fresh) || !known(helpers) || !known(stand_ins)),
                    (REPEAT, !different(fresh) || !named_differ || !apart),
                    (SERVING, fresh.iter().any(|board| self.in_service.contains(board))),
                    (DOWN, !serving(helpers) || !serving(stand_ins)),
                ]
            }
            Call::Read { boards } => vec![
                (AREA, wrong_area),
                (EMPTY, self.file.is_none()),
                (COUNT, boards.len() != k),
                (NODE, !known(boards)),
                (REPEAT, !different(boards)),
                (DOWN, !serving(boards)),
                (SHORT, out < self.file_len()),
            ],
            Call::Edit { offset, bytes, boards } => vec![
                (AREA, wrong_area),
                (EMPTY, self.file.is_none()),
                (BUSY, busy),
                (RANGE, *offset > self.file_len() || bytes.len() > self.file_len() - offset),
                (COUNT, boards.len() != k),
                (NODE, !known(boards)),
                (REPEAT, !different(boards)),
                (DOWN, !serving(boards)),
            ],
            Call::Careful { boards } => vec![
                (AREA, wrong_area),
                (EMPTY, self.file.is_none()),
                (COUNT, n < k + 2 || boards.len() != k + 2),
                (NODE, !known(boards)),
                (REPEAT, !different(boards)),
                (DOWN, !serving(boards)),
                (SHORT, out < self.file_len()),
            ],
            Call::Move { board, point, helpers, partners } => {
                let named = [&[*board], &helpers[..], partners].concat();
                let taken = self.points.iter().take(n).any(|other| other == point);
                vec![
                    (AREA, wrong_area),
                    (EMPTY, self.file.is_none()),
                    (BUSY, busy),
                    (COUNT, helpers.len() != d || partners.len() != r - 1),
                    (NODE, !known(&named)),
                    (REPEAT, !different(&named) || taken),
                    (DOWN, self.in_service.len() < n),
                ]
            }
            Call::Step { .. } => {
                // "with none running its length is not checked"
                let due = self.repairing.as_ref().map(|repairing| self.moved(repairing.lists.fresh.len()));
                let wrong = wrong_area || due.is_some_and(|due| packets != due);
                vec![(AREA, wrong), (EMPTY, self.file.is_none()), (IDLE, !busy)]
            }
            _ => unreachable!("a call that stands in no list of document 01"),
        };
        lines.into_iter().find(|(_, holds)| *holds).map(|(number, _)| number)
    }

    pub fn file_len(&self) -> usize {
        self.file.as_ref().map_or(0, Vec::len)
    }

    /// S × t × (2d + r − 1), the bytes of all packets of a repair.
    fn moved(&self, t: usize) -> usize {
        self.sizes.stripes(self.file_len()) * t * (2 * self.sizes.d + self.sizes.r - 1)
    }

    /// "t(d + r − 1)".
    pub fn total(&self, t: usize) -> usize {
        t * (self.sizes.d + self.sizes.r - 1)
    }

    /// How many packets of the repair that runs were carried.
    pub fn carried(&self) -> usize {
        self.repairing.as_ref().map_or(0, |Repairing { lists, left }| self.total(lists.fresh.len()) - left)
    }

    /// "the repair's own record and packets are gone, the store's record and boards in service are as before".
    pub fn power_fails(&mut self) {
        self.repairing = None;
    }

    /// Carries so many packets of the repair that runs, or all that are left: how many, and which boards then have their shares.
    fn carry(&mut self, allowance: usize) -> (usize, Vec<usize>) {
        let repairing = self.repairing.as_mut().expect("IDLE does not hold");
        if allowance < repairing.left {
            repairing.left -= allowance;
            return (allowance, Vec::new());
        }
        let Repairing { lists, left } = self.repairing.take().expect("IDLE does not hold");
        self.in_service.extend(&lists.fresh);
        (left, lists.fresh)
    }

    /// Enters a call, which is lent this output and a packet area of so many bytes: what the store must answer and make.
    pub fn enter(&mut self, call: &Call, out: &[u8], packets: usize) -> Reply {
        let mut reply = Reply { answer: 0, out: out.to_vec(), made: Vec::new(), carried: 0 };
        if let Some(number) = self.refusal(call, out.len(), packets) {
            reply.answer = u64::from(number);
            return reply;
        }
        match call {
            Call::Write { file } => {
                self.file = Some(file.clone());
                self.in_service = (0..self.sizes.n).collect();
                reply.made = (0..self.sizes.n).collect();
            }
            Call::Lose { board } => {
                self.in_service.remove(board);
                self.repairing = self.repairing.take().filter(|repairing| !repairing.lists.name(*board));
            }
            Call::Repair { fresh, .. } => {
                self.in_service.extend(fresh);
                reply.answer = (self.moved(fresh.len()) as u64) << 8;
                reply.made.clone_from(fresh);
            }
            // of boards that hold their shares none is odd
            Call::Read { .. } | Call::Careful { .. } => {
                let file = self.file.as_ref().expect("EMPTY does not hold");
                reply.out[..file.len()].copy_from_slice(file);
            }
            // "The file that reads must return is from then on the edited one."
            Call::Edit { offset, bytes, .. } => {
                let file = self.file.as_mut().expect("EMPTY does not hold");
                file.splice(*offset..offset + bytes.len(), bytes.iter().copied());
                reply.made = self.in_service.iter().copied().collect();
            }
            // every board then has its share at the new points
            Call::Move { board, point, .. } => {
                self.points[*board] = *point;
                reply.answer = (self.moved(1) as u64) << 8;
                reply.made = (0..self.sizes.n).collect();
            }
            Call::Start { fresh, helpers, stand_ins } => {
                let (fresh, helpers, stand_ins) = (fresh.clone(), helpers.clone(), stand_ins.clone());
                let left = self.total(fresh.len());
                self.repairing = Some(Repairing { lists: Lists { fresh, helpers, stand_ins }, left });
            }
            Call::Step { allowance } => {
                (reply.carried, reply.made) = self.carry(*allowance);
                reply.answer = (reply.carried as u64) << 8;
            }
            _ => unreachable!("a call that stands in no list of document 01"),
        }
        reply
    }
}
