//! The turns of the coders, and the times that are taken.

use crate::coders::{self, Coder, Edit, Named};
use std::time::{Duration, Instant};
use zebrankai::{trial_file, Sizes};

/// What is measured, in the order of a turn.
pub const OPERATIONS: [&str; 10] =
    ["encode", "read", "repair r", "repair 1", "one share", "edit 4", "rewrite", "careful", "one worn", "move"];

/// The places of a write of the whole file, of a read, of an edit, and of a read with a write behind it that does the same.
pub const WRITE: usize = 0;
pub const READ: usize = 1;
pub const EDIT: usize = 5;
pub const REWRITE: usize = 6;

/// The places of careful reads of k + 2 boards that hold their shares, and of such a read with a byte altered: of the last stripe of the board that is
/// named first, where it takes longest to find.
pub const CAREFUL: [usize; 2] = [7, 8];

/// The places of the repair of one board, and of a move of the same board by the same others.
pub const REPAIR_ONE: usize = 3;
pub const MOVE: usize = 9;

/// The points between which that board is moved in turn; the last move of a turn is to the second. Present robots have neither.
const POINTS: [u8; 2] = [0xFE, 0xFF];

/// How many bytes an edit has: those of one pack count.
pub const EDITED: usize = 4;

/// The place of the repair of r boards.
pub const REPAIR: usize = 2;

/// How many packets a step of that repair carries, where it is stepped: one, and all.
pub const PACES: [usize; 2] = [1, usize::MAX];

/// A short file is written, read and so on so often in one turn that the clock is no part of the time: at least for so many stripes.
const STRIPES_A_TURN: usize = 64;

/// At least so many turns are made.
const FEWEST_TURNS: usize = 4;

/// A file, and the boards that the calls name. In the repair of r boards the first r are fresh, and each hears the d behind them; in that of one the
/// first is fresh, hears the d behind it, and the r − 1 behind these stand in. The file is read from the last k boards, also by an edit, of four bytes in
/// its middle, in one stripe; a careful read names the last k + 2; the one share is the last board's; and a move is of the
/// board that is rebuilt alone, by the same others.
pub struct Work {
    pub sizes: Sizes,
    pub stripes: usize,
    pub file: Vec<u8>,
    all: Named,
    one: Named,
    readers: Vec<usize>,
    careful: Vec<usize>,
    node: usize,
    /// where an edit is
    offset: usize,
    /// how often each call is made in a turn
    calls: usize,
}

impl Work {
    pub fn new(sizes: Sizes, length: usize) -> Work {
        let Sizes { n, k, d, r } = sizes;
        let stripes = sizes.stripes(length);
        Work {
            sizes,
            stripes,
            file: some_bytes(length),
            all: Named {
                fresh: (0..r).collect(),
                helpers: (r..r + d).collect::<Vec<usize>>().repeat(r),
                stand_ins: vec![],
            },
            one: Named { fresh: vec![0], helpers: (1..1 + d).collect(), stand_ins: (1 + d..d + r).collect() },
            readers: (n - k..n).collect(),
            careful: (n - k - 2..n).collect(),
            node: n - 1,
            offset: length / 2,
            calls: STRIPES_A_TURN.div_ceil(stripes),
        }
    }
}

/// The trial file of the seed 1, which `zbk trial --file 1 LENGTH` writes.
fn some_bytes(length: usize) -> Vec<u8> {
    let mut file = vec![0; length];
    trial_file(1, &mut file);
    file
}

/// What one turn leaves, to compare.
#[derive(Clone, PartialEq)]
struct Left {
    written: Vec<u8>,
    read: Vec<u8>,
    repaired: Vec<u8>,
    repaired_one: Vec<u8>,
    share: Vec<u8>,
    edited: Vec<u8>,
    rewritten: Vec<u8>,
    /// with a board moved, and with it moved back
    with_moved: Vec<u8>,
    moved_back: Vec<u8>,
    /// the file by both careful reads, and what they report
    careful: [Vec<u8>; 2],
    odd: [usize; 2],
    moved: usize,
    moved_one: usize,
    moved_by_a_move: usize,
}

/// What a stepped repair leaves.
#[derive(Clone, PartialEq)]
struct Stepped {
    area: Vec<u8>,
    packets: Vec<u8>,
    carried: Option<usize>,
}

impl Stepped {
    fn new(work: &Work) -> Stepped {
        let Sizes { r, .. } = work.sizes;
        let packets = vec![0; work.stripes * r * work.sizes.share_len()];
        Stepped { area: vec![0; work.sizes.area_len(work.stripes)], packets, carried: None }
    }

    /// Whether the fresh boards hold what was written, and r(d + r − 1) packets were carried.
    fn is_right(&self, work: &Work, written: &[u8]) -> bool {
        let Sizes { d, r, .. } = work.sizes;
        self.area == written && self.carried == Some(r * (d + r - 1))
    }
}

impl Left {
    fn new(work: &Work) -> Left {
        let area = vec![0; work.sizes.area_len(work.stripes)];
        let share = vec![0; work.stripes * work.sizes.share_len()];
        let read = vec![0; work.file.len()];
        Left {
            written: area.clone(),
            careful: [read.clone(), read.clone()],
            odd: [0; 2],
            read,
            repaired: area.clone(),
            repaired_one: area.clone(),
            share,
            edited: area.clone(),
            rewritten: area.clone(),
            with_moved: area.clone(),
            moved_back: area,
            moved: 0,
            moved_one: 0,
            moved_by_a_move: 0,
        }
    }

    /// Whether the file came back, by careful reads too, of which the second names the altered board, the fresh boards hold what was written, the share is
    /// the one that was written, an edit leaves what a write of the edited file does, which is another one, and a board that is moved and moved back leaves
    /// what was written, and moves the bytes of a repair of one.
    fn is_right(&self, work: &Work) -> bool {
        let written = self.written.chunks(self.share.len()).nth(work.node);
        let rebuilt = self.repaired == self.written && self.repaired_one == self.written;
        let edited = self.edited == self.rewritten && self.edited != self.written;
        let careful = self.careful.iter().all(|file| *file == work.file) && self.odd == [0, work.careful[0] + 1];
        let back = self.with_moved != self.written && self.moved_back == self.written;
        let moved = back && self.moved_by_a_move == self.moved_one;
        self.read == work.file && careful && rebuilt && written == Some(&self.share[..]) && edited && moved
    }
}

/// The best time of each operation, for one call.
pub type Best = [Duration; OPERATIONS.len()];

/// What the turns gave.
pub struct Measured {
    pub turns: usize,
    /// of each coder
    pub best: [Best; 3],
    /// by the repair of r boards, and by that of one
    pub moved: usize,
    pub moved_one: usize,
    /// of the coders that have steps, the archive and plain: the repair of r boards at each of PACES
    pub stepped: [[Duration; PACES.len()]; 2],
    /// whether all coders left the same, and the right, bytes in every turn
    pub alike: bool,
}

/// Lets the coders take turns for so long.
pub fn measure(work: &Work, time: Duration) -> Measured {
    let mut coders = coders::all(work.sizes, work.stripes);
    let mut left = [(); 3].map(|_| Left::new(work));
    let best = [[Duration::MAX; OPERATIONS.len()]; 3];
    let mut stepped = [(); 2].map(|_| Stepped::new(work));
    let mut measured =
        Measured { turns: 0, best, moved: 0, moved_one: 0, stepped: [[Duration::MAX; PACES.len()]; 2], alike: true };
    let start = Instant::now();
    while measured.turns < FEWEST_TURNS || start.elapsed() < time {
        for ((coder, left), best) in coders.iter_mut().zip(&mut left).zip(&mut measured.best) {
            let times = turn(coder.as_mut(), work, left);
            for (best, time) in best.iter_mut().zip(times) {
                *best = time.min(*best);
            }
        }
        measured.alike &= left[0].is_right(work) && left[1..].iter().all(|other| *other == left[0]);
        for (place, &allowance) in PACES.iter().enumerate() {
            for (coder, best) in measured.stepped.iter_mut().enumerate() {
                let written = &left[coder].written;
                let time = step(coders[coder].as_mut(), work, allowance, written, &mut stepped[coder]);
                best[place] = time.min(best[place]);
                measured.alike &= stepped[coder].is_right(work, written);
            }
            measured.alike &= stepped[0] == stepped[1];
        }
        measured.turns += 1;
    }
    measured.moved = left[0].moved;
    measured.moved_one = left[0].moved_one;
    measured
}

/// One turn of a coder. The buffers are filled with EE before each operation, outside of the time; the bytes of the fresh boards before a repair, when
/// they are also lost.
fn turn(coder: &mut dyn Coder, work: &Work, left: &mut Left) -> Best {
    left.written.fill(0xEE);
    let write = timed(work, || coder.write(&work.file, &mut left.written));
    left.read.fill(0xEE);
    let read = timed(work, || coder.read(&work.readers, &left.written, &mut left.read));
    lose(coder, &work.all, work, &left.written, &mut left.repaired);
    let repair = timed(work, || left.moved = coder.repair(&work.all, &mut left.repaired));
    lose(coder, &work.one, work, &left.written, &mut left.repaired_one);
    let repair_one = timed(work, || left.moved_one = coder.repair(&work.one, &mut left.repaired_one));
    left.share.fill(0xEE);
    let share = timed(work, || coder.share(work.node, &work.file, &mut left.share));
    left.edited.copy_from_slice(&left.written);
    let edit = edit(coder, work, &mut left.edited);
    left.rewritten.copy_from_slice(&left.written);
    let rewrite = rewrite(coder, work, &mut left.rewritten);
    let [careful, one_worn] = [false, true].map(|worn| read_careful(coder, work, worn, left));
    let moved = move_board(coder, work, left);
    [write, read, repair, repair_one, share, edit, rewrite, careful, one_worn, moved]
}

/// Moves a board between two points, and, outside of the time, back to its own, which is 00. Its bytes are EE before the first move.
fn move_board(coder: &mut dyn Coder, work: &Work, left: &mut Left) -> Duration {
    lose(coder, &work.one, work, &left.written, &mut left.with_moved);
    coder.lose(&[]);
    let mut calls = work.calls;
    let time = timed(work, || {
        left.moved_by_a_move = coder.move_board(&work.one, POINTS[calls % 2], &mut left.with_moved);
        calls -= 1;
    });
    left.moved_back.copy_from_slice(&left.with_moved);
    coder.move_board(&work.one, 0, &mut left.moved_back);
    time
}

/// A careful read over what was written, or with a byte of it altered.
fn read_careful(coder: &mut dyn Coder, work: &Work, worn: bool, left: &mut Left) -> Duration {
    let mut area = left.written.clone();
    if worn {
        area[(work.careful[0] + 1) * work.stripes * work.sizes.share_len() - 1] ^= 0x5A;
    }
    let (file, odd) = (&mut left.careful[usize::from(worn)], &mut left.odd[usize::from(worn)]);
    file.fill(0xEE);
    timed(work, || *odd = coder.read_careful(&work.careful, &area, file))
}

/// The repair of r boards by steps of so many packets. Area and packet area are filled before it, outside of the time.
fn step(coder: &mut dyn Coder, work: &Work, allowance: usize, written: &[u8], left: &mut Stepped) -> Duration {
    lose(coder, &work.all, work, written, &mut left.area);
    left.packets.fill(0xEE);
    timed(work, || left.carried = coder.stepped(&work.all, allowance, &mut left.area, &mut left.packets))
}

/// The four bytes that stand in the middle of the file, and others.
fn counts(work: &Work) -> [[u8; EDITED]; 2] {
    let old: [u8; EDITED] = work.file[work.offset..][..EDITED].try_into().expect("they are four");
    [old, old.map(|byte| byte ^ 0x5A)]
}

/// Edits to the other four bytes and back in turn, so that there is a difference to spread; the last call is to the other ones.
fn edit(coder: &mut dyn Coder, work: &Work, area: &mut [u8]) -> Duration {
    let counts = counts(work);
    let mut left = work.calls;
    timed(work, || {
        let edit = Edit { length: work.file.len(), offset: work.offset, bytes: &counts[left % 2] };
        coder.edit(&edit, &work.readers, area);
        left -= 1;
    })
}

/// The same without an edit: the file is read, the four bytes are put into it, and it is written.
fn rewrite(coder: &mut dyn Coder, work: &Work, area: &mut [u8]) -> Duration {
    let [_, new] = counts(work);
    let mut file = vec![0xEE; work.file.len()];
    timed(work, || {
        coder.read(&work.readers, area, &mut file);
        file[work.offset..][..EDITED].copy_from_slice(&new);
        coder.write(&file, area);
    })
}

/// Loses the boards that are fresh: what was written, their bytes EE, in the area of the repair. They are the first ones.
fn lose(coder: &mut dyn Coder, named: &Named, work: &Work, written: &[u8], area: &mut [u8]) {
    coder.lose(&named.fresh);
    area.copy_from_slice(written);
    area[..named.fresh.len() * work.stripes * work.sizes.share_len()].fill(0xEE);
}

/// The time of a call, as the mean of those of a turn.
fn timed(work: &Work, mut call: impl FnMut()) -> Duration {
    let start = Instant::now();
    for _ in 0..work.calls {
        call();
    }
    start.elapsed() / work.calls as u32
}
