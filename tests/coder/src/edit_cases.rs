//! Edits over areas in which something is altered of boards in service or out of it: bytes of a board that is not read, so that it stays wrong by what
//! it was wrong before; the shares of the boards read, to those of another file; a byte or a stripe of a board that is read, or the padding alone, so
//! that the boards disagree in a stripe that the edit leaves or reaches. Each edit is one call over an area made up for it. The file that the boards
//! hold is worked out by linear algebra, for all alterations of a case at once.

use crate::call::refusal::{DISAGREE, RANGE};
use crate::call::{Call, Lent, Outcome};
use crate::code::{self, Sizes};
use crate::edits;
use crate::points;
use crate::random::Random;
use crate::scene::Scene;
use crate::store;
use crate::store_cases;
use crate::trial::Trial;

/// What is altered.
#[derive(Clone, Copy, PartialEq, Eq)]
enum Altered {
    Nothing,
    /// a byte of a board that is in service and not read
    ByteNotRead,
    /// all bytes of such a board
    BoardNotRead,
    /// the shares of the boards that are read, and of no others, to those of another file
    OtherFile,
    /// a byte of a board that is read, in one stripe
    Byte(usize),
    /// all bytes that such a board keeps of one stripe
    Stripe(usize),
    /// the shares of all boards, to those of a file with a byte in the padding
    Padding,
    /// the bytes behind a share that is read
    Behind,
}

/// A file in a store, the boards in service, and those that are read.
struct Editing<'a> {
    scene: &'a Scene,
    capacity: usize,
    area: Vec<u8>,
    in_service: Vec<usize>,
    boards: Vec<usize>,
}

/// A few stripes.
pub fn run(trial: &mut Trial, random: &mut Random, sizes: Sizes) {
    let stripe = sizes.stripe_len();
    let stripes = random.pick(&[1, 2, 3, 3, 4, 6]);
    let last = random.pick(&[1, stripe.div_ceil(2), stripe]);
    let file = random.bytes((stripes - 1) * stripe + last);
    let capacity = stripes + random.below(3);
    let scene = Scene::new(sizes, points::draw(random, sizes.n), file);
    over(trial, random, &scene, capacity);
}

/// Edits of a file in an area with room for so many stripes, with each alteration.
pub fn over(trial: &mut Trial, random: &mut Random, scene: &Scene, capacity: usize) {
    let Sizes { n, k, .. } = scene.sizes;
    let lost = random.pick(&[0, 0, 1, 2, n - k, n - k]).min(n - k);
    let in_service = random.choose((0..n).collect(), n - lost);
    let boards = random.choose(in_service.clone(), k);
    let area = store_cases::true_area(random, scene, capacity);
    let editing = Editing { scene, capacity, area, in_service, boards };
    let stripes = scene.stripes();
    let (one, other) = (random.below(stripes), random.below(stripes));
    let all = [
        Altered::Nothing,
        Altered::Nothing,
        Altered::ByteNotRead,
        Altered::BoardNotRead,
        Altered::OtherFile,
        Altered::Byte(one),
        Altered::Stripe(one),
        Altered::Stripe(other),
        Altered::Padding,
        Altered::Behind,
    ];
    let altered: Vec<(Altered, Vec<u8>)> =
        all.into_iter().filter_map(|kind| Some((kind, editing.altered(random, kind)?))).collect();
    let shares: Vec<Vec<u8>> = altered.iter().map(|(_, area)| editing.shares(area)).collect();
    let lists: Vec<&[u8]> = shares.iter().map(|list| &list[..]).collect();
    let files = code::files(scene.sizes, &scene.points, scene.length(), &editing.boards, &lists);
    for ((kind, area), file) in altered.into_iter().zip(files) {
        for (offset, count) in editing.places(random, kind) {
            let old = file.as_deref().map(|file| &file[offset..offset + count]);
            // sometimes the bytes that stand there
            let bytes = match old.filter(|_| random.once_in(8)) {
                Some(old) => old.to_vec(),
                None => random.bytes(count),
            };
            editing.edit(trial, kind, &area, file.as_deref(), offset, bytes);
        }
    }
    editing.beyond(trial, random);
}

impl Editing<'_> {
    fn board_len(&self) -> usize {
        self.capacity * self.scene.sizes.share_len()
    }

    /// Bytes of a board's share.
    fn share_len(&self) -> usize {
        self.scene.stripes() * self.scene.sizes.share_len()
    }

    /// What the boards that are read hold, one after another.
    fn shares(&self, area: &[u8]) -> Vec<u8> {
        self.boards.iter().flat_map(|&board| area[board * self.board_len()..][..self.share_len()].to_vec()).collect()
    }

    /// The area with an alteration; none where there is nothing of the kind.
    fn altered(&self, random: &mut Random, kind: Altered) -> Option<Vec<u8>> {
        let mut area = self.area.clone();
        let width = self.scene.sizes.share_len();
        let not_read: Vec<usize> =
            self.in_service.iter().copied().filter(|board| !self.boards.contains(board)).collect();
        let read = random.pick(&self.boards) * self.board_len();
        let mut other = |place: usize, random: &mut Random| area[place] ^= random.within(1, 255) as u8;
        match kind {
            Altered::Nothing => {}
            Altered::ByteNotRead => {
                let board = random.choose(not_read, 1).pop()?;
                other(board * self.board_len() + random.below(self.share_len()), random);
            }
            Altered::BoardNotRead => {
                let board = random.choose(not_read, 1).pop()?;
                (0..self.share_len()).for_each(|place| other(board * self.board_len() + place, random));
            }
            Altered::OtherFile => {
                let mut file = self.scene.file.clone();
                let place = random.below(file.len());
                file[place] ^= random.within(1, 255) as u8;
                self.put(&mut area, &self.boards, &file);
            }
            Altered::Byte(stripe) => other(read + stripe * width + random.below(width), random),
            Altered::Stripe(stripe) => (0..width).for_each(|place| other(read + stripe * width + place, random)),
            Altered::Padding => {
                let mut file = self.scene.file.clone();
                let (length, whole) = (file.len(), self.scene.stripes() * self.scene.sizes.stripe_len());
                if length == whole {
                    return None;
                }
                file.resize(whole, 0);
                file[random.within(length, whole - 1)] = random.within(1, 255) as u8;
                self.put(&mut area, &(0..self.scene.sizes.n).collect::<Vec<usize>>(), &file);
            }
            Altered::Behind if self.share_len() < self.board_len() => {
                other(read + self.share_len(), random);
                other(read + self.board_len() - 1, random);
            }
            Altered::Behind => return None,
        }
        Some(area)
    }

    /// Puts boards' shares of a file into an area.
    fn put(&self, area: &mut [u8], boards: &[usize], file: &[u8]) {
        for &board in boards {
            let share = code::share(self.scene.sizes, &self.scene.points, board, file);
            area[board * self.board_len()..][..share.len()].copy_from_slice(&share);
        }
    }

    /// Where the file is edited under an alteration: any place; with none also no bytes at L, bytes that end where a stripe ends, and the last four; and
    /// where the boards may disagree, no bytes at all, and a stripe that is not the altered one, if there is one, and the altered one.
    fn places(&self, random: &mut Random, kind: Altered) -> Vec<(usize, usize)> {
        let Scene { sizes, .. } = *self.scene;
        let length = self.scene.length();
        let mut places = vec![edits::within(random, sizes, length)];
        if kind == Altered::Nothing {
            places.push((length, 0));
            let end = random.within(1, self.scene.stripes()) * sizes.stripe_len();
            for end in [end.min(length), length] {
                let count = end.min(4);
                places.push((end - count, count));
            }
        }
        if let Some(stripe) = self.altered_stripe(kind) {
            places.push((random.within(0, length), 0));
            let others: Vec<usize> = (0..self.scene.stripes()).filter(|&other| other != stripe).collect();
            for stripe in random.choose(others, 1).into_iter().chain([stripe]) {
                let start = stripe * sizes.stripe_len();
                let count = (length - start).min(random.pick(&[1, 4]));
                places.push((start, count.min(sizes.stripe_len())));
            }
        }
        places
    }

    /// The stripe in which the boards that are read may disagree.
    fn altered_stripe(&self, kind: Altered) -> Option<usize> {
        match kind {
            Altered::Byte(stripe) | Altered::Stripe(stripe) => Some(stripe),
            Altered::Padding => Some(self.scene.stripes() - 1),
            _ => None,
        }
    }

    /// Edits that go beyond the file's end, by one byte or by as much as there can be, with boards that could be read and with one too few.
    fn beyond(&self, trial: &mut Trial, random: &mut Random) {
        let length = self.scene.length();
        let few = random.within(1, 4);
        let places = [
            (length + 1, 0),
            (length, 1),
            (length + 1 - few.min(length), few.min(length)),
            (0, length + 1),
            (usize::MAX, random.below(2)),
            (few.wrapping_neg(), few),
        ];
        for (offset, count) in places {
            let lent = self.lent(&self.area);
            let boards = self.boards[usize::from(random.once_in(2))..].to_vec();
            let call = Call::Edit { offset, bytes: random.bytes(count), boards };
            trial.check(&call, &lent, &Outcome::refused(RANGE, &lent));
        }
    }

    /// What an edit over an area is lent.
    fn lent(&self, area: &[u8]) -> Lent {
        let Scene { sizes, ref points, .. } = *self.scene;
        let record = store::words(sizes, points, self.capacity, Some(self.scene.length()), &self.in_service);
        Lent::idle(record, area.to_vec(), Vec::new())
    }

    /// One edit, by the file that the boards hold, and which of the kinds it is that only the alteration tells.
    fn edit(&self, trial: &mut Trial, kind: Altered, area: &[u8], file: Option<&[u8]>, offset: usize, bytes: Vec<u8>) {
        let (sizes, length) = (self.scene.sizes, self.scene.length());
        let lent = self.lent(area);
        let expected = match file {
            Some(old) => Outcome::accepted(0, store::edited(old, offset, &bytes, &lent)),
            None => Outcome::refused(DISAGREE, &lent),
        };
        let count = bytes.len();
        let call = Call::Edit { offset, bytes, boards: self.boards.clone() };
        if !trial.check(&call, &lent, &expected) || count == 0 {
            return;
        }
        let (first, last) = edits::reached(sizes, offset, count);
        let told = match (kind, self.altered_stripe(kind)) {
            (Altered::ByteNotRead | Altered::BoardNotRead, _) if expected.lent.area != lent.area => Some(edits::WRONG),
            (Altered::OtherFile, _) if self.in_service.len() > sizes.k => Some(edits::WRONG),
            (_, Some(stripe)) if file.is_none() => {
                let reached = (first..=last).contains(&stripe);
                match kind {
                    Altered::Padding if !reached => Some(edits::PADDING),
                    _ if reached => Some(edits::REACHED),
                    _ => Some(edits::LEFT),
                }
            }
            _ => None,
        };
        if let Some(kind) = told {
            trial.edits.tell(kind, sizes, length);
        }
    }
}
