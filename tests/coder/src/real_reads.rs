//! Reads of areas of real sizes in which something is altered of boards in service: a byte or all bytes that a board keeps of an early stripe, of a
//! late one, of the last; several bytes; the padding alone; all shares to those of another file; what is not read. Each is one call over an area
//! made up for it. What must be answered is worked out by linear algebra, for all alterations of a case at once.

use crate::altered::expected;
use crate::call::{Call, Lent};
use crate::code;
use crate::random::Random;
use crate::real::SPOILT;
use crate::scene::Scene;
use crate::store;
use crate::store_cases;
use crate::texts::Told;
use crate::trial::Trial;

/// Bytes of the area with what they become.
type Altered = Vec<(usize, u8)>;

/// A file in a store, and the boards that it is read from.
struct Reading<'a> {
    scene: &'a Scene,
    capacity: usize,
    area: Vec<u8>,
    boards: Vec<usize>,
}

pub fn run(trial: &mut Trial, random: &mut Random, scene: &Scene, capacity: usize) {
    let area = store_cases::true_area(random, scene, capacity);
    let boards = random.choose((0..scene.sizes.n).collect(), scene.sizes.k);
    let reading = Reading { scene, capacity, area, boards };
    let mut all: Vec<(Option<usize>, Altered)> = vec![(None, Vec::new())];
    for kind in 0..SPOILT.len() {
        all.extend(reading.altered(random, kind).into_iter().map(|altered| (Some(kind), altered)));
    }
    let areas: Vec<Vec<u8>> = all.iter().map(|(_, altered)| reading.area_with(altered)).collect();
    let shares: Vec<Vec<u8>> = areas.iter().map(|area| reading.shares(area)).collect();
    let lists: Vec<&[u8]> = shares.iter().map(|list| &list[..]).collect();
    let files = code::files(scene.sizes, &scene.points, scene.length(), &reading.boards, &lists);
    for (place, ((kind, _), file)) in all.into_iter().zip(files).enumerate() {
        let alike = reading.read(trial, random, &areas[place], file.as_deref());
        if let Some(kind) = kind.filter(|_| alike && scene.sizes.n > 4 && capacity > 100) {
            trial.real.count_spoilt(kind, file.is_some());
        }
        reading.read_shares(trial, random, place, &shares[place], file.as_deref());
    }
}

impl Reading<'_> {
    fn board_len(&self) -> usize {
        self.capacity * self.scene.sizes.share_len()
    }

    fn area_with(&self, altered: &Altered) -> Vec<u8> {
        let mut area = self.area.clone();
        for &(place, byte) in altered {
            area[place] = byte;
        }
        area
    }

    /// What the boards hold, one after another.
    fn shares(&self, area: &[u8]) -> Vec<u8> {
        let length = self.scene.stripes() * self.scene.sizes.share_len();
        self.boards.iter().flat_map(|&board| area[board * self.board_len()..][..length].to_vec()).collect()
    }

    /// A read of the store over an area, by the file that it must give. True where the archive answered so.
    fn read(&self, trial: &mut Trial, random: &mut Random, area: &[u8], file: Option<&[u8]>) -> bool {
        let (sizes, length) = (self.scene.sizes, self.scene.length());
        let all = random.once_in(2);
        let in_service = if all { (0..sizes.n).collect() } else { self.boards.clone() };
        let record = store::words(sizes, &self.scene.points, self.capacity, Some(length), &in_service);
        let more = random.below(3);
        let lent = Lent::idle(record, area.to_vec(), random.bytes(length + more));
        let call = Call::Read { boards: self.boards.clone() };
        trial.check(&call, &lent, &expected(&call, &lent, file))
    }

    /// The same at board level, and from texts in turn.
    fn read_shares(&self, trial: &mut Trial, random: &mut Random, place: usize, shares: &[u8], file: Option<&[u8]>) {
        let Scene { sizes, points, .. } = self.scene;
        let (length, boards) = (self.scene.length(), self.boards.clone());
        let more = random.below(3);
        let lent = Lent::output(random.bytes(length + more));
        let call = if place % 3 == 0 {
            Call::Gather { text: self.texts(shares) }
        } else {
            Call::File { sizes: *sizes, points: points.clone(), length, boards, shares: shares.to_vec() }
        };
        trial.check(&call, &lent, &expected(&call, &lent, file));
    }

    /// The texts of these shares.
    fn texts(&self, shares: &[u8]) -> Vec<u8> {
        let Scene { sizes, points, .. } = self.scene;
        let text = |(&node, share): (&usize, &[u8])| {
            let (points, length, share) = (points.clone(), self.scene.length(), share.to_vec());
            Told { sizes: *sizes, points, length, node, share }.text()
        };
        self.boards.iter().zip(shares.chunks(shares.len() / self.boards.len())).flat_map(text).collect()
    }

    /// Alterations of one of SPOILT; none where there is nothing of the kind.
    fn altered(&self, random: &mut Random, kind: usize) -> Vec<Altered> {
        let stripes = self.scene.stripes();
        let (length, whole) = (self.scene.length(), stripes * self.scene.sizes.stripe_len());
        match kind {
            0 => self.in_stripe(random, (0, (stripes - 1) / 4)),
            1 => self.in_stripe(random, (stripes / 2, stripes - 1)),
            2 => self.in_stripe(random, (stripes - 1, stripes - 1)),
            3 => vec![self.several(random)],
            4 if length < whole => {
                let any = random.within(length, whole - 1);
                [length, whole - 1, any].into_iter().map(|place| self.in_file(random, place)).collect()
            }
            5 => {
                let any = random.below(length);
                [0, length - 1, any].into_iter().map(|place| self.in_file(random, place)).collect()
            }
            6 if stripes < self.capacity => vec![self.behind(random)],
            7 if self.boards.len() < self.scene.sizes.n => vec![self.not_read(random)],
            _ => Vec::new(),
        }
    }

    /// A byte of the area made another one.
    fn other(&self, random: &mut Random, place: usize) -> (usize, u8) {
        (place, self.area[place] ^ random.within(1, 255) as u8)
    }

    /// A byte of a stripe of a board that is read, and all bytes that it keeps of one.
    fn in_stripe(&self, random: &mut Random, (low, high): (usize, usize)) -> Vec<Altered> {
        let width = self.scene.sizes.share_len();
        let mut start = || random.pick(&self.boards) * self.board_len() + random.within(low, high) * width;
        let (one, all) = (start(), start());
        let place = one + random.below(width);
        vec![vec![self.other(random, place)], (all..all + width).map(|place| self.other(random, place)).collect()]
    }

    /// A few bytes anywhere in the shares that are read.
    fn several(&self, random: &mut Random) -> Altered {
        let length = self.scene.stripes() * self.scene.sizes.share_len();
        let count = random.within(2, 9);
        let mut place = || random.pick(&self.boards) * self.board_len() + random.below(length);
        let places: Vec<usize> = (0..count).map(|_| place()).collect();
        places.into_iter().map(|place| self.other(random, place)).collect()
    }

    /// The shares of a file that has another byte at a place, which may be in the padding.
    fn in_file(&self, random: &mut Random, place: usize) -> Altered {
        let sizes = self.scene.sizes;
        let (stripe, width) = (place / sizes.stripe_len(), sizes.share_len());
        let start = stripe * sizes.stripe_len();
        let mut bytes = self.scene.file[start..].to_vec();
        bytes.resize(sizes.stripe_len(), 0);
        bytes[place - start] ^= random.within(1, 255) as u8;
        let held = |board: usize| {
            let share = code::share(sizes, &self.scene.points, board, &bytes);
            let from = board * self.board_len() + stripe * width;
            (from..from + width).zip(share).collect::<Altered>()
        };
        (0..sizes.n).flat_map(held).collect()
    }

    /// The first and the last byte behind a share that is read.
    fn behind(&self, random: &mut Random) -> Altered {
        let board = random.pick(&self.boards);
        let first = board * self.board_len() + self.scene.stripes() * self.scene.sizes.share_len();
        [first, (board + 1) * self.board_len() - 1].into_iter().map(|place| self.other(random, place)).collect()
    }

    /// All bytes of a board that is not read.
    fn not_read(&self, random: &mut Random) -> Altered {
        let others = (0..self.scene.sizes.n).filter(|board| !self.boards.contains(board)).collect();
        let start = random.choose(others, 1)[0] * self.board_len();
        (start..start + self.board_len()).map(|place| self.other(random, place)).collect()
    }
}
