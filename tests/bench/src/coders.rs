//! The three coders that are measured, behind the same calls.

use zebrankai::{board, Points, Record, Sizes, RECORD_WORDS, REPAIR_WORDS};

/// A coder at work on one store. Each call is one that is accepted.
pub trait Coder {
    /// A file to all boards.
    fn write(&mut self, file: &[u8], area: &mut [u8]);
    /// The file from k boards.
    fn read(&mut self, boards: &[usize], area: &[u8], out: &mut [u8]);
    /// The file from k + 2 boards of which one may be wrong; 0, or the number of that one plus 1.
    fn read_careful(&mut self, boards: &[usize], area: &[u8], out: &mut [u8]) -> usize;
    /// Bytes in the place of others of the file of so many bytes, by k boards.
    fn edit(&mut self, edit: &Edit, boards: &[usize], area: &mut [u8]);
    /// Takes boards out of service for the repairs that follow, or none for moves, and for these alone.
    fn lose(&mut self, boards: &[usize]);
    /// The boards that were lost, with their helpers and stand-ins; the bytes moved. They are lost as before, however often it is called.
    fn repair(&mut self, named: &Named, area: &mut [u8]) -> usize;
    /// The same repair started, and stepped to its end by so many packets at a time; how many were carried. None of a coder that has no steps.
    fn stepped(&mut self, named: &Named, allowance: usize, area: &mut [u8], packets: &mut [u8]) -> Option<usize>;
    /// Moves the board that is named fresh to a point, with all boards in service, by its helpers and stand-ins; the bytes moved. The next move finds it
    /// there.
    fn move_board(&mut self, named: &Named, point: u8, area: &mut [u8]) -> usize;
    /// One board's share of a file.
    fn share(&mut self, node: usize, file: &[u8], out: &mut [u8]);
}

/// An edit of a file of `length` bytes.
pub struct Edit<'a> {
    pub length: usize,
    pub offset: usize,
    pub bytes: &'a [u8],
}

/// The boards that a repair names.
pub struct Named {
    pub fresh: Vec<usize>,
    pub helpers: Vec<usize>,
    pub stand_ins: Vec<usize>,
}

/// The coders in the order of their turns, over a store of these sizes, at points 0 to n − 1, with room for so many stripes.
pub fn all(sizes: Sizes, stripes: usize) -> [Box<dyn Coder>; 3] {
    let points = Points::standard(sizes.n);
    let record = Record::set_up(sizes, points, stripes).expect("the sizes are legal");
    let Sizes { n, k, d, r } = sizes;
    let plain_sizes = plain::Sizes { n, k, d, r };
    let words = record.words();
    [
        Box::new(Archive { lost: record.clone(), record }),
        Box::new(Plain { sizes: plain_sizes, points: points.into(), words, lost: words, repair: [0; REPAIR_WORDS] }),
        Box::new(Kernels { sizes: plain_sizes, points: points.into(), moved: points.into(), stripes }),
    ]
}

/// The archive.
struct Archive {
    record: Record,
    /// the record with boards lost
    lost: Record,
}

impl Coder for Archive {
    fn write(&mut self, file: &[u8], area: &mut [u8]) {
        self.record.write(area, file).expect("a write is accepted");
    }

    fn read(&mut self, boards: &[usize], area: &[u8], out: &mut [u8]) {
        self.record.read(area, boards, out).expect("a read is accepted");
    }

    fn read_careful(&mut self, boards: &[usize], area: &[u8], out: &mut [u8]) -> usize {
        let odd = self.record.read_careful(area, boards, out).expect("a careful read is accepted");
        odd.map_or(0, |board| board + 1)
    }

    fn edit(&mut self, edit: &Edit, boards: &[usize], area: &mut [u8]) {
        self.record.edit(area, edit.offset, edit.bytes, boards).expect("an edit is accepted");
    }

    fn lose(&mut self, boards: &[usize]) {
        self.lost = self.record.clone();
        for &board in boards {
            self.lost.lose(board).expect("a loss is accepted");
        }
    }

    fn repair(&mut self, named: &Named, area: &mut [u8]) -> usize {
        let mut record = self.lost.clone();
        record.repair(area, &named.fresh, &named.helpers, &named.stand_ins).expect("a repair is accepted")
    }

    fn stepped(&mut self, named: &Named, allowance: usize, area: &mut [u8], packets: &mut [u8]) -> Option<usize> {
        let mut record = self.lost.clone();
        record.start(area, &named.fresh, &named.helpers, &named.stand_ins).expect("a start is accepted");
        let mut carried = 0;
        while record.is_repairing() {
            carried += record.step(area, packets, allowance).expect("a step is accepted");
        }
        Some(carried)
    }

    fn move_board(&mut self, named: &Named, point: u8, area: &mut [u8]) -> usize {
        let moved = self.lost.move_board(area, named.fresh[0], point, &named.helpers, &named.stand_ins);
        moved.expect("a move is accepted")
    }

    fn share(&mut self, node: usize, file: &[u8], out: &mut [u8]) {
        board::share(self.record.sizes(), self.record.points(), node, file, out).expect("a share is given");
    }
}

/// The plain coder.
struct Plain {
    sizes: plain::Sizes,
    points: plain::Points,
    words: [u64; RECORD_WORDS],
    /// the record with boards lost
    lost: [u64; RECORD_WORDS],
    /// that of a started repair
    repair: [u64; REPAIR_WORDS],
}

impl Coder for Plain {
    fn write(&mut self, file: &[u8], area: &mut [u8]) {
        plain::store::write(&mut self.words, &self.repair, area, file).expect("a write is accepted");
    }

    fn read(&mut self, boards: &[usize], area: &[u8], out: &mut [u8]) {
        plain::store::read(&self.words, &self.repair, area, boards, out).expect("a read is accepted");
    }

    fn read_careful(&mut self, boards: &[usize], area: &[u8], out: &mut [u8]) -> usize {
        plain::careful::read(&self.words, &self.repair, area, boards, out).expect("a careful read is accepted")
    }

    fn edit(&mut self, edit: &Edit, boards: &[usize], area: &mut [u8]) {
        plain::store::edit(&self.words, &self.repair, area, edit.offset, edit.bytes, boards)
            .expect("an edit is accepted");
    }

    fn lose(&mut self, boards: &[usize]) {
        self.lost = self.words;
        for &board in boards {
            plain::store::lose(&mut self.lost, &mut self.repair, board).expect("a loss is accepted");
        }
    }

    fn repair(&mut self, named: &Named, area: &mut [u8]) -> usize {
        let mut words = self.lost;
        plain::store::repair(&mut words, &self.repair, area, &named.fresh, &named.helpers, &named.stand_ins)
            .expect("a repair is accepted")
    }

    fn stepped(&mut self, named: &Named, allowance: usize, area: &mut [u8], packets: &mut [u8]) -> Option<usize> {
        let (mut words, repair) = (self.lost, &mut self.repair);
        plain::steps::start(&words, repair, area, &named.fresh, &named.helpers, &named.stand_ins)
            .expect("a start is accepted");
        let mut carried = 0;
        while repair[0] == 1 {
            carried += plain::steps::step(&mut words, repair, area, packets, allowance).expect("a step is accepted");
        }
        Some(carried)
    }

    fn move_board(&mut self, named: &Named, point: u8, area: &mut [u8]) -> usize {
        let Named { fresh, helpers, stand_ins } = named;
        plain::moves::move_board(&mut self.lost, &self.repair, area, fresh[0], point, helpers, stand_ins)
            .expect("a move is accepted")
    }

    fn share(&mut self, node: usize, file: &[u8], out: &mut [u8]) {
        plain::board::share(self.sizes, &self.points, node, file, out).expect("a share is given");
    }
}

/// The kernels' algorithm in plain Rust, with products by table.
struct Kernels {
    sizes: plain::Sizes,
    points: plain::Points,
    /// the points with boards moved
    moved: plain::Points,
    stripes: usize,
}

impl Coder for Kernels {
    fn write(&mut self, file: &[u8], area: &mut [u8]) {
        plain_kernels::write(self.sizes, &self.points, file, area);
    }

    fn read(&mut self, boards: &[usize], area: &[u8], out: &mut [u8]) {
        assert!(plain_kernels::read(self.sizes, &self.points, boards, area, out), "a read is accepted");
    }

    fn read_careful(&mut self, boards: &[usize], area: &[u8], out: &mut [u8]) -> usize {
        let reported = plain_kernels::read_careful(self.sizes, &self.points, boards, area, out);
        reported.expect("a careful read is accepted")
    }

    fn edit(&mut self, edit: &Edit, boards: &[usize], area: &mut [u8]) {
        let Edit { length, offset, bytes } = *edit;
        let done = plain_kernels::edit(self.sizes, &self.points, length, offset, bytes, boards, area);
        assert!(done, "an edit is accepted");
    }

    /// It has no record.
    fn lose(&mut self, _boards: &[usize]) {
        self.moved = self.points;
    }

    fn repair(&mut self, named: &Named, area: &mut [u8]) -> usize {
        let Named { fresh, helpers, stand_ins } = named;
        plain_kernels::repair(self.sizes, &self.points, self.stripes, fresh, helpers, stand_ins, area)
    }

    fn stepped(&mut self, _: &Named, _: usize, _: &mut [u8], _: &mut [u8]) -> Option<usize> {
        None
    }

    fn move_board(&mut self, named: &Named, point: u8, area: &mut [u8]) -> usize {
        let Named { fresh, helpers, stand_ins } = named;
        let Kernels { sizes, stripes, .. } = *self;
        plain_kernels::move_board(sizes, &mut self.moved, stripes, fresh[0], point, helpers, stand_ins, area)
    }

    fn share(&mut self, node: usize, file: &[u8], out: &mut [u8]) {
        plain_kernels::share(self.sizes, &self.points, node, file, out);
    }
}
