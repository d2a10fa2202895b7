//! Careful reads (request A.11 of document 02) over areas in which something is altered of boards in service: of one of those that are named, in a byte,
//! a stripe, two, or everywhere, to its share of another file, or so that it agrees with k − 1 others on another file; of two of them, in one stripe or
//! in different ones; the padding, of one board or of all; what is not named and what lies behind the shares. Each is one call over an area made up
//! for it. What the boards tell is worked out by linear algebra, for all alterations of a case at once. Then what is refused of a careful read.

use crate::call::refusal::{ACCEPTED, DISAGREE};
use crate::call::{Call, Lent, Outcome};
use crate::careful::{self, Told};
use crate::careful_met as met;
use crate::code::{self, Sizes};
use crate::draw;
use crate::field::FIELD;
use crate::points;
use crate::random::Random;
use crate::running_draw;
use crate::scene::Scene;
use crate::store;
use crate::store_cases;
use crate::trial::Trial;

/// From how many bytes of a stripe on fewer kinds are tried.
const HEAVY: usize = 400;

/// What is altered, of boards by their places in the list that is named.
#[derive(Clone, Copy, PartialEq, Eq)]
enum Altered {
    Nothing,
    Byte(usize, usize),
    Stripe(usize, usize),
    TwoStripes(usize),
    Board(usize),
    /// its share of a file that has another byte
    OtherFile(usize),
    /// its share of a file that has a byte in the padding
    Padded(usize),
    /// its share of a file of which k − 1 others of the first k hold their shares too
    FirstAgree(usize),
    NotNamed,
    Behind,
    /// all boards, to their shares of another file
    AllOther,
    /// a byte of two boards, in one stripe
    Both(usize, usize, usize),
    /// a byte of two boards, in different stripes
    Apart(usize, usize),
    TwoBoards(usize, usize),
    /// a byte of one board, and the share of another one with a byte in the padding
    OnePadded(usize, usize),
    AllPadded,
    /// the last two named, all bytes
    OthersWrong,
    /// two boards, to their shares of one other file
    TwoOfOther(usize, usize),
    Any,
}

/// A file in a store, the boards in service, and those that are named.
struct Reading<'a> {
    scene: &'a Scene,
    capacity: usize,
    area: Vec<u8>,
    in_service: Vec<usize>,
    boards: Vec<usize>,
}

/// A few stripes, or none.
pub fn run(trial: &mut Trial, random: &mut Random, sizes: Sizes) {
    let stripe = sizes.stripe_len();
    let stripes = random.pick(&[0, 1, 1, 2, 2, 3, 4]);
    let last = random.pick(&[1, stripe.div_ceil(2), stripe]);
    let length = if stripes == 0 { 0 } else { (stripes - 1) * stripe + last };
    let capacity = (stripes + random.below(3)).max(1);
    let scene = Scene::new(sizes, points::draw(random, sizes.n), random.bytes(length));
    over(trial, random, &scene, capacity);
}

/// Careful reads of a file in an area with room for so many stripes, with each alteration.
pub fn over(trial: &mut Trial, random: &mut Random, scene: &Scene, capacity: usize) {
    let Sizes { n, k, .. } = scene.sizes;
    let lost = if n < k + 2 { 0 } else { random.pick(&[0, 0, 1, n - k - 2, n - k - 2]).min(n - k - 2) };
    let in_service = random.choose((0..n).collect(), n - lost);
    let boards = random.choose(in_service.clone(), k + 2);
    let area = store_cases::true_area(random, scene, capacity);
    let reading = Reading { scene, capacity, area, in_service, boards };
    if n >= k + 2 {
        reading.altered_in_turn(trial, random);
    }
    reading.refused(trial, random);
}

impl Reading<'_> {
    fn board_len(&self) -> usize {
        self.capacity * self.scene.sizes.share_len()
    }

    /// Bytes of a board's share.
    fn share_len(&self) -> usize {
        self.scene.stripes() * self.scene.sizes.share_len()
    }

    /// What the boards that are named hold, one after another.
    fn shares(&self, area: &[u8]) -> Vec<u8> {
        self.boards.iter().flat_map(|&board| area[board * self.board_len()..][..self.share_len()].to_vec()).collect()
    }

    /// A call over each alteration.
    fn altered_in_turn(&self, trial: &mut Trial, random: &mut Random) {
        let altered: Vec<(Altered, Vec<u8>)> =
            self.kinds(random).into_iter().filter_map(|kind| Some((kind, self.altered(random, kind)?))).collect();
        let shares: Vec<Vec<u8>> = altered.iter().map(|(_, area)| self.shares(area)).collect();
        let lists: Vec<&[u8]> = shares.iter().map(|list| &list[..]).collect();
        let Scene { sizes, ref points, .. } = *self.scene;
        let told = careful::told(sizes, points, self.scene.length(), &self.boards, &lists);
        for ((kind, area), told) in altered.into_iter().zip(told) {
            self.read(trial, random, kind, area, told);
        }
    }

    /// The alterations of a case: each kind, at the places that count, and, of a short file, each place of what a board keeps of a stripe.
    fn kinds(&self, random: &mut Random) -> Vec<Altered> {
        let k = self.scene.sizes.k;
        let stripes = self.scene.stripes();
        if stripes == 0 {
            return vec![Altered::Nothing, Altered::Any, Altered::Behind];
        }
        let two = random.choose((0..k + 2).collect(), 2);
        let (one, other) = (two[0], two[1]);
        let stripe = random.below(stripes);
        let mut all = vec![
            Altered::Nothing,
            Altered::Stripe(one, stripe),
            Altered::TwoStripes(one),
            Altered::Board(one),
            Altered::OtherFile(other),
            Altered::Padded(one),
            Altered::FirstAgree(random.below(k)),
            Altered::NotNamed,
            Altered::Behind,
            Altered::AllOther,
            Altered::Both(one, other, stripe),
            Altered::Apart(one, other),
            Altered::TwoBoards(one, other),
            Altered::OnePadded(one, other),
            Altered::AllPadded,
            Altered::OthersWrong,
            Altered::TwoOfOther(one, other),
            Altered::Any,
        ];
        // the places in the list, and the boards, of which a program may forget one
        let ends = [0, self.scene.sizes.n - 1].map(|board| self.boards.iter().position(|&named| named == board));
        let places = [0, k - 1, k, k + 1].into_iter().chain(ends.into_iter().flatten());
        all.extend(places.map(|place| Altered::Byte(place, random.pick(&[stripe, stripes - 1]))));
        if stripes <= 4 && self.scene.sizes.n <= 12 {
            all.extend((0..k + 2).map(Altered::Board));
        }
        // where elimination takes its time, not those that alter every stripe, and not the one that takes an elimination of its own
        let long = |kind: &Altered| {
            use Altered::{AllOther, AllPadded, Any, Board, FirstAgree, OthersWrong, TwoBoards};
            matches!(kind, AllOther | AllPadded | Any | Board(_) | FirstAgree(_) | OthersWrong | TwoBoards(..))
        };
        all.retain(|kind| self.scene.sizes.stripe_len() <= HEAVY || stripes == 1 || !long(kind));
        all
    }

    /// The area with an alteration; none where there is nothing of the kind.
    fn altered(&self, random: &mut Random, kind: Altered) -> Option<Vec<u8>> {
        let mut area = self.area.clone();
        let (stripes, width) = (self.scene.stripes(), self.scene.sizes.share_len());
        let start = |place: usize| self.boards[place] * self.board_len();
        let all: Vec<usize> = (0..self.scene.sizes.n).collect();
        let mut other = |place: usize, random: &mut Random| area[place] ^= random.within(1, 255) as u8;
        match kind {
            Altered::Nothing => {}
            Altered::Byte(place, s) => other(start(place) + s * width + random.below(width), random),
            Altered::Stripe(place, s) => {
                (0..width).for_each(|byte| other(start(place) + s * width + byte, random));
            }
            Altered::TwoStripes(_) | Altered::Apart(..) if stripes < 2 => return None,
            Altered::TwoStripes(place) => {
                for s in random.choose((0..stripes).collect(), 2) {
                    other(start(place) + s * width + random.below(width), random);
                }
            }
            Altered::Board(place) => (0..self.share_len()).for_each(|byte| other(start(place) + byte, random)),
            Altered::OtherFile(place) => {
                let file = self.other_file(random);
                self.put(&mut area, &[self.boards[place]], &file);
            }
            Altered::Padded(place) => self.put(&mut area, &[self.boards[place]], &self.padded_file(random)?),
            Altered::FirstAgree(place) => {
                let file = self.file_alike(random, place)?;
                self.put(&mut area, &[self.boards[place]], &file);
            }
            Altered::NotNamed => {
                let others: Vec<usize> = all.into_iter().filter(|board| !self.boards.contains(board)).collect();
                let board = random.choose(others, 1).pop()?;
                (0..self.board_len()).for_each(|byte| other(board * self.board_len() + byte, random));
            }
            Altered::Behind if self.share_len() == self.board_len() => return None,
            Altered::Behind => {
                for &board in &self.boards {
                    let bytes = self.share_len()..self.board_len();
                    bytes.for_each(|byte| other(board * self.board_len() + byte, random));
                }
            }
            Altered::AllOther => {
                let file = self.other_file(random);
                self.put(&mut area, &all, &file);
            }
            Altered::Both(one, two, s) => {
                for place in [one, two] {
                    other(start(place) + s * width + random.below(width), random);
                }
            }
            Altered::Apart(one, two) => {
                for (place, s) in [one, two].into_iter().zip(random.choose((0..stripes).collect(), 2)) {
                    other(start(place) + s * width + random.below(width), random);
                }
            }
            Altered::TwoBoards(one, two) => {
                for place in [one, two] {
                    (0..self.share_len()).for_each(|byte| other(start(place) + byte, random));
                }
            }
            Altered::OnePadded(one, two) => {
                other(start(one) + random.below(self.share_len()), random);
                self.put(&mut area, &[self.boards[two]], &self.padded_file(random)?);
            }
            Altered::AllPadded => self.put(&mut area, &all, &self.padded_file(random)?),
            Altered::OthersWrong => {
                for place in self.boards.len() - 2..self.boards.len() {
                    (0..self.share_len()).for_each(|byte| other(start(place) + byte, random));
                }
            }
            Altered::TwoOfOther(one, two) => {
                let file = self.other_file(random);
                self.put(&mut area, &[self.boards[one], self.boards[two]], &file);
            }
            Altered::Any => area = random.bytes(area.len()),
        }
        Some(area)
    }

    /// The file with another byte.
    fn other_file(&self, random: &mut Random) -> Vec<u8> {
        let mut file = self.scene.file.clone();
        let place = random.below(file.len());
        file[place] ^= random.within(1, 255) as u8;
        file
    }

    /// The file filled up to whole stripes, with a byte that is not 00 behind its end; none where its last stripe is full.
    fn padded_file(&self, random: &mut Random) -> Option<Vec<u8>> {
        let (length, whole) = (self.scene.length(), self.scene.stripes() * self.scene.sizes.stripe_len());
        let mut file = self.scene.file.clone();
        file.resize(whole, 0);
        let place = (length < whole).then(|| random.within(length, whole - 1))?;
        file[place] = random.within(1, 255) as u8;
        Some(file)
    }

    /// Another file of the same length that gives the first k boards but the one at a place the same shares, by what their equations leave open of a
    /// stripe; none where the file has no whole stripe.
    fn file_alike(&self, random: &mut Random, place: usize) -> Option<Vec<u8>> {
        let Scene { sizes, ref points, .. } = *self.scene;
        let others: Vec<usize> = (0..sizes.k).filter(|&other| other != place).map(|other| self.boards[other]).collect();
        let whole = self.scene.length() / sizes.stripe_len();
        let start = (whole > 0).then(|| random.below(whole) * sizes.stripe_len())?;
        let open = code::equations(sizes, points, &others).kernel();
        let mut file = self.scene.file.clone();
        FIELD.add_multiple(&mut file[start..][..sizes.stripe_len()], random.within(1, 255) as u8, &random.pick(&open));
        Some(file)
    }

    /// Puts boards' shares of a file into an area.
    fn put(&self, area: &mut [u8], boards: &[usize], file: &[u8]) {
        for &board in boards {
            let share = code::share(self.scene.sizes, &self.scene.points, board, file);
            area[board * self.board_len()..][..share.len()].copy_from_slice(&share);
        }
    }

    /// What a careful read over an area is lent; sometimes a repair runs meanwhile, where boards are out of service.
    fn lent(&self, random: &mut Random, area: Vec<u8>) -> Lent {
        let Scene { sizes, ref points, .. } = *self.scene;
        let record = store::words(sizes, points, self.capacity, Some(self.scene.length()), &self.in_service);
        let lists = running_draw::lists(random, sizes, &self.in_service).filter(|_| random.once_in(2));
        let repair = match lists {
            Some(lists) => running_draw::running(random, &lists),
            None => running_draw::idle(random),
        };
        let more = random.below(3);
        let out = random.bytes(self.scene.length() + more);
        Lent { repair, ..Lent::idle(record, area, out) }
    }

    /// One careful read, by what the boards tell, and which of the kinds it is that only the alteration tells.
    fn read(&self, trial: &mut Trial, random: &mut Random, kind: Altered, area: Vec<u8>, told: Option<Told>) {
        let lent = self.lent(random, area);
        let call = Call::Careful { boards: self.boards.clone() };
        let expected = match &told {
            Some(told) => careful::given(&self.boards, told, &lent),
            None => Outcome::refused(DISAGREE, &lent),
        };
        self.hold(trial, kind, told.as_ref());
        if !trial.check(&call, &lent, &expected) {
            return;
        }
        if let Some(met) = self.met(kind, &lent.area, told.as_ref()) {
            trial.careful.tell(met, self.scene.sizes, self.scene.length());
        }
        // with an output that is too short, though the boards disagree
        if told.is_none() && self.scene.length() > 0 && random.once_in(4) {
            let lent = Lent { out: random.bytes(self.scene.length() - 1), ..lent };
            if trial.check(&call, &lent, &store::expect(&call, &lent)) {
                trial.careful.tell(met::SHORT_TOO, self.scene.sizes, self.scene.length());
            }
        }
    }

    /// "If all the named boards but at most one hold their share of the last file, that file is the answer": holds the coder itself to it.
    fn hold(&self, trial: &mut Trial, kind: Altered, told: Option<&Told>) {
        let due = match kind {
            Altered::Nothing | Altered::NotNamed | Altered::Behind => None,
            Altered::Byte(place, _)
            | Altered::Stripe(place, _)
            | Altered::TwoStripes(place)
            | Altered::Board(place)
            | Altered::OtherFile(place)
            | Altered::Padded(place)
            | Altered::FirstAgree(place) => Some(place),
            _ => return,
        };
        // a file that has another byte may give some boards the same shares
        let same =
            matches!(kind, Altered::OtherFile(_) | Altered::Padded(_)) && told.is_some_and(|told| told.odd.is_none());
        let right = told.is_some_and(|told| told.file == self.scene.file && (told.odd == due || same));
        if !right {
            trial.report("the coder itself does not find the file that all boards but at most one hold");
        }
    }

    /// Which of the kinds it is.
    fn met(&self, kind: Altered, area: &[u8], told: Option<&Told>) -> Option<usize> {
        let odd = told.is_some_and(|told| told.odd.is_some() && told.file == self.scene.file);
        let none_odd = told.is_some_and(|told| told.odd.is_none());
        let disagree = told.is_none();
        let (kind, holds) = match kind {
            Altered::Nothing => return None,
            Altered::Byte(..) => (met::BYTE, odd),
            Altered::Stripe(..) => (met::STRIPE, odd),
            Altered::TwoStripes(_) => (met::TWO_STRIPES, odd),
            Altered::Board(_) => (met::BOARD, odd),
            Altered::OtherFile(_) => (met::OTHER_FILE, odd),
            Altered::Padded(_) => (met::PADDED, odd),
            Altered::FirstAgree(_) => (met::FIRST_AGREE, odd && self.first_agree(area)),
            Altered::NotNamed => (met::NOT_NAMED, none_odd),
            Altered::Behind => (met::BEHIND, none_odd),
            Altered::AllOther => (met::ALL_OTHER, none_odd),
            Altered::Both(..) => (met::ONE_STRIPE, disagree),
            Altered::Apart(..) => (met::DIFFERENT_STRIPES, disagree),
            Altered::TwoBoards(..) => (met::TWO_BOARDS, disagree),
            Altered::OnePadded(..) => (met::ONE_PADDED, disagree),
            Altered::AllPadded => (met::ALL_PADDED, disagree),
            Altered::OthersWrong => (met::OTHERS_WRONG, disagree),
            Altered::TwoOfOther(..) => (met::TWO_OF_OTHER, disagree),
            Altered::Any => (met::ANY, disagree),
        };
        holds.then_some(kind)
    }

    /// Whether the first k boards hold shares of a file, and of another one.
    fn first_agree(&self, area: &[u8]) -> bool {
        let Scene { sizes, ref points, ref file, .. } = *self.scene;
        let shares = &self.shares(area)[..sizes.k * self.share_len()];
        let read = code::file(sizes, points, self.scene.length(), &self.boards[..sizes.k], shares);
        read.is_some_and(|read| read != *file)
    }

    /// What is refused of a careful read by its list and its output, each though later lines hold too: two of the boards are wrong.
    fn refused(&self, trial: &mut Trial, random: &mut Random) {
        let Sizes { n, k, .. } = self.scene.sizes;
        let length = self.scene.length();
        let area =
            if n < k + 2 || self.scene.stripes() == 0 { None } else { self.altered(random, Altered::OthersWrong) };
        let area = area.unwrap_or_else(|| self.area.clone());
        let any = random.choose((0..n).collect(), n);
        let mut lists: Vec<Vec<usize>> = [0, 1, k, k + 1, k + 3, n]
            .into_iter()
            .filter(|&count| count != k + 2)
            .map(|count| any.iter().cycle().copied().take(count).collect())
            .collect();
        // k + 2 numbers: one of n or more, one twice, one out of service; the first two of these together too
        let right: Vec<usize> = self.boards.iter().chain(&any).copied().take(k + 2).collect();
        let with = |changes: &[(usize, usize)]| {
            let mut list = right.clone();
            changes.iter().for_each(|&(place, board)| list[place] = board);
            list
        };
        let places = random.choose((0..k + 2).collect(), 3);
        let beyond = random.pick(&[n, 32, 255, 256 + right[0], usize::MAX]);
        lists.push(with(&[(places[0], beyond)]));
        lists.push(with(&[(places[0], beyond), (places[1], right[places[2]])]));
        lists.push(with(&[(places[1], right[places[2]])]));
        if let Some(down) = (0..n).find(|board| !self.in_service.contains(board)) {
            lists.push(with(&[(places[0], down)]));
            lists.push(with(&[(places[0], down), (places[1], right[places[2]])]));
        }
        for boards in lists {
            let room = random.pick(&[0, length.saturating_sub(1), length]);
            let lent = Lent { out: random.bytes(room), ..self.lent(random, area.clone()) };
            let call = Call::Careful { boards };
            let expected = store::expect(&call, &lent);
            if expected.answer & 255 == u64::from(ACCEPTED) {
                trial.report("the coder itself takes a list that was made up not to be taken");
            }
            trial.check(&call, &lent, &expected);
        }
        self.before_a_write(trial, random, &right, area);
    }

    /// Before a write, with the right list and with others; and over an area of another length.
    fn before_a_write(&self, trial: &mut Trial, random: &mut Random, right: &[usize], area: Vec<u8>) {
        let Scene { sizes, ref points, .. } = *self.scene;
        let record = store::words(sizes, points, self.capacity, None, &[]);
        for boards in [right.to_vec(), right[1..].to_vec(), draw_list(random, sizes.n)] {
            let call = Call::Careful { boards };
            let lent = Lent::idle(record.clone(), area.clone(), Vec::new());
            trial.check(&call, &lent, &store::expect(&call, &lent));
            let mut lent = self.lent(random, area.clone());
            lent.area.resize(random.pick(&[0, area.len() - 1, area.len() + 1]), 0x5A);
            trial.check(&call, &lent, &store::expect(&call, &lent));
        }
    }
}

/// A list of any numbers.
fn draw_list(random: &mut Random, n: usize) -> Vec<usize> {
    (0..random.below(5)).map(|_| draw::any_number(random, n)).collect()
}
