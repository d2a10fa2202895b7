//! Moves of a board (request A.10 of document 02) over areas in which something is altered of boards in service: of a helper, of a partner, of the moved
//! board, of one that is not named, of all boards, or behind the shares. Each is one call over an area made up for it. Where all boards hold their
//! shares they hold those at the new points afterwards; in every case no byte has changed but those of the moved board and those that the others keep at
//! its point, all in the first S stripes. Then what is refused of a move.

use crate::call::refusal::{BUSY, COUNT, DOWN, EMPTY, NODE, REPEAT};
use crate::call::{Call, Lent, Outcome};
use crate::code::{self, Sizes};
use crate::move_draw;
use crate::moves_met as met;
use crate::points;
use crate::random::Random;
use crate::running_draw;
use crate::scene::Scene;
use crate::store;
use crate::store_cases;
use crate::trial::Trial;

/// What is altered.
#[derive(Clone, Copy, PartialEq, Eq)]
enum Altered {
    Nothing,
    /// a byte of a helper
    Helper,
    /// all bytes of a helper
    WholeHelper,
    /// a byte of a partner
    Partner,
    /// all bytes of the moved board
    Moved,
    /// all bytes of a board that is not named
    NotNamed,
    /// all bytes of all boards
    Any,
    /// the bytes behind all shares
    Behind,
}

const ALTERED: [Altered; 8] = [
    Altered::Nothing,
    Altered::Helper,
    Altered::WholeHelper,
    Altered::Partner,
    Altered::Moved,
    Altered::NotNamed,
    Altered::Any,
    Altered::Behind,
];

/// A file in a store, with all boards in service, and a move of one of them.
struct Moving<'a> {
    scene: &'a Scene,
    capacity: usize,
    area: Vec<u8>,
    board: usize,
    point: u8,
    helpers: Vec<usize>,
    partners: Vec<usize>,
}

/// A few stripes, or none.
pub fn run(trial: &mut Trial, random: &mut Random, sizes: Sizes) {
    let stripe = sizes.stripe_len();
    let stripes = random.pick(&[0, 1, 1, 2, 3]);
    let last = random.pick(&[1, stripe.div_ceil(2), stripe]);
    let length = if stripes == 0 { 0 } else { (stripes - 1) * stripe + last };
    let capacity = (stripes + random.below(3)).max(1);
    let scene = Scene::new(sizes, points::draw(random, sizes.n), random.bytes(length));
    over(trial, random, &scene, capacity);
    let area = store_cases::true_area(random, &scene, capacity);
    // each board once, so that it stands at every place among those that follow another one
    for board in 0..sizes.n {
        Moving::of(random, &scene, capacity, &area, board).check(trial, random, Altered::Nothing);
    }
}

/// Over 100 stripes with few boards, each at an end of what is legal: r = 1 and d + r = n, d = 1, k = d.
pub fn long(trial: &mut Trial, random: &mut Random) {
    let all = [Sizes::new(6, 2, 5, 1), Sizes::new(5, 1, 1, 1), Sizes::new(6, 1, 1, 5), Sizes::new(5, 2, 2, 2)];
    for sizes in all {
        let stripes = random.within(101, 140);
        let length = stripes * sizes.stripe_len() - random.below(2);
        let scene = Scene::new(sizes, points::draw(random, sizes.n), random.bytes(length));
        let capacity = stripes + random.below(3);
        over(trial, random, &scene, capacity);
    }
}

/// Moves of boards of a file in an area with room for so many stripes: with each alteration, and to bytes that count.
pub fn over(trial: &mut Trial, random: &mut Random, scene: &Scene, capacity: usize) {
    let Scene { sizes, ref points, .. } = *scene;
    let area = store_cases::true_area(random, scene, capacity);
    for kind in ALTERED {
        let board = random.below(sizes.n);
        Moving::of(random, scene, capacity, &area, board).check(trial, random, kind);
    }
    for (board, point) in [(0, 0xFF), (sizes.n - 1, 0)] {
        if !points[..sizes.n].contains(&point) {
            Moving { point, ..Moving::of(random, scene, capacity, &area, board) }.check(
                trial,
                random,
                Altered::Nothing,
            );
        }
    }
    let board = random.below(sizes.n);
    Moving::of(random, scene, capacity, &area, board).refused(trial, random);
}

impl<'a> Moving<'a> {
    /// A move of a board to any byte that is free, by any others.
    fn of(random: &mut Random, scene: &'a Scene, capacity: usize, area: &[u8], board: usize) -> Moving<'a> {
        let (helpers, partners) = move_draw::lists(random, scene.sizes, board);
        let point = move_draw::free(random, scene.sizes, &scene.points, board);
        Moving { scene, capacity, area: area.to_vec(), board, point, helpers, partners }
    }

    fn call(&self) -> Call {
        self.to(self.point)
    }

    fn board_len(&self) -> usize {
        self.capacity * self.scene.sizes.share_len()
    }

    /// Bytes of a board's share.
    fn share_len(&self) -> usize {
        self.scene.stripes() * self.scene.sizes.share_len()
    }

    /// The boards that are not named.
    fn not_named(&self) -> Vec<usize> {
        let named = [&[self.board], &self.helpers[..], &self.partners].concat();
        (0..self.scene.sizes.n).filter(|board| !named.contains(board)).collect()
    }

    /// What a move is lent, with these boards in service.
    fn lent(&self, random: &mut Random, area: Vec<u8>, in_service: &[usize]) -> Lent {
        let Scene { sizes, ref points, .. } = *self.scene;
        let record = store::words(sizes, points, self.capacity, Some(self.scene.length()), in_service);
        Lent { repair: running_draw::idle(random), ..Lent::idle(record, area, Vec::new()) }
    }

    fn all(&self) -> Vec<usize> {
        (0..self.scene.sizes.n).collect()
    }

    /// The area with an alteration, and the kind of it; none where there is nothing of the kind.
    fn altered(&self, random: &mut Random, kind: Altered) -> Option<(Vec<u8>, usize)> {
        let mut area = self.area.clone();
        let (board_len, share_len) = (self.board_len(), self.share_len());
        let mut other = |board: usize, places: std::ops::Range<usize>, random: &mut Random| {
            area[board * board_len..][places].iter_mut().for_each(|byte| *byte ^= random.within(1, 255) as u8);
        };
        let one = |random: &mut Random| {
            let place = random.below(share_len.max(1)).min(share_len);
            place..(place + 1).min(share_len)
        };
        let told = match kind {
            Altered::Nothing => met::TRUE,
            Altered::Helper => {
                let places = one(random);
                other(random.pick(&self.helpers), places, random);
                met::HELPER
            }
            Altered::WholeHelper => {
                other(random.pick(&self.helpers), 0..share_len, random);
                met::HELPER
            }
            Altered::Partner => {
                let partner = random.choose(self.partners.clone(), 1).pop()?;
                let places = one(random);
                other(partner, places, random);
                met::PARTNER
            }
            Altered::Moved => {
                other(self.board, 0..share_len, random);
                met::MOVED
            }
            Altered::NotNamed => {
                let board = random.choose(self.not_named(), 1).pop()?;
                other(board, 0..share_len, random);
                met::NOT_NAMED
            }
            Altered::Any => {
                self.all().into_iter().for_each(|board| other(board, 0..share_len, random));
                met::ANY
            }
            Altered::Behind if share_len < board_len => {
                self.all().into_iter().for_each(|board| other(board, share_len..board_len, random));
                met::BEHIND
            }
            Altered::Behind => return None,
        };
        Some((area, told))
    }

    /// The move over the area with an alteration.
    fn check(&self, trial: &mut Trial, random: &mut Random, kind: Altered) {
        let Some((area, told)) = self.altered(random, kind) else { return };
        let (call, lent) = (self.call(), self.lent(random, area, &self.all()));
        let expected = store::expect(&call, &lent);
        if !trial.check(&call, &lent, &expected) {
            return;
        }
        let place = self.first_elsewhere(&lent.area, &expected.lent.area);
        if let Some(place) = place {
            trial.report(&format!("{call}: the coder itself changes byte {place} of the area"));
        }
        if matches!(kind, Altered::Nothing | Altered::Moved | Altered::Behind) {
            self.hold_shares(trial, &call, &expected.lent.area);
        }
        trial.moves.tell(told, self.scene.sizes, self.scene.length());
    }

    /// The first place of the area whose byte has changed, though it is neither the moved board's nor a value at its point, or lies behind the shares.
    fn first_elsewhere(&self, before: &[u8], after: &[u8]) -> Option<usize> {
        let Sizes { n, d, r, .. } = self.scene.sizes;
        let width = self.scene.sizes.share_len();
        let may_change = |place: usize| {
            let (board, within) = (place / self.board_len(), place % self.board_len());
            if within >= self.share_len() {
                return false;
            }
            // the neighbour whose value a byte is: byte 0 is the board itself, those behind the first d + r begin with the next one
            let t = match within % width {
                t if t < d + r => t,
                t => t - (d + r) + 1,
            };
            board == self.board || (board + t) % n == self.board
        };
        (0..before.len()).find(|&place| before[place] != after[place] && !may_change(place))
    }

    /// Where all boards but the moved one held their shares, all hold those at the new points.
    fn hold_shares(&self, trial: &mut Trial, call: &Call, area: &[u8]) {
        let Scene { sizes, ref points, ref file, .. } = *self.scene;
        let mut points = points.clone();
        points[self.board] = self.point;
        for board in 0..sizes.n {
            let share = code::share(sizes, &points, board, file);
            if area[board * self.board_len()..][..share.len()] != share {
                trial.report(&format!("{call}: board {board} does not hold its share at the new points"));
            }
        }
    }

    /// A call that is refused with a number.
    fn refuse(&self, trial: &mut Trial, lent: &Lent, call: Call, number: u8) {
        if store::expect(&call, lent).answer != u64::from(number) {
            trial.report(&format!("{call}: the coder itself does not answer {number}"));
        }
        trial.check(&call, lent, &Outcome::refused(number, lent));
    }

    /// What is refused, in each of its ways.
    fn refused(&self, trial: &mut Trial, random: &mut Random) {
        let lent = self.lent(random, self.area.clone(), &self.all());
        self.refused_bytes(trial, random, &lent);
        self.refused_lists(trial, random, &lent);
        self.refused_numbers(trial, random, &lent);
        self.out_of_service(trial, random);
        self.before_a_write(trial, random);
        self.while_a_repair_runs(trial, random);
    }

    /// Each byte that some board has, its own included; also with a board out of service, and with a board that is none.
    fn refused_bytes(&self, trial: &mut Trial, random: &mut Random, lent: &Lent) {
        let Scene { sizes, ref points, .. } = *self.scene;
        let n = sizes.n;
        let others: Vec<usize> = (0..n).filter(|&board| board != self.board).collect();
        let other = random.pick(&others);
        let lost = random.pick(&others);
        let down = self.lent(random, self.area.clone(), &(0..n).filter(|&board| board != lost).collect::<Vec<usize>>());
        for board in [self.board, other, n - 1, 0] {
            self.refuse(trial, lent, self.to(points[board]), REPEAT);
            self.refuse(trial, &down, self.to(points[board]), REPEAT);
        }
        let (helpers, partners) = (self.helpers.clone(), self.partners.clone());
        self.refuse(trial, &down, Call::Move { board: n, point: points[other], helpers, partners }, NODE);
        // the byte of the last board, for another one
        let board = random.below(n - 1);
        self.refuse(trial, lent, move_draw::to(random, sizes, board, points[n - 1]), REPEAT);
    }

    /// The move to another byte.
    fn to(&self, point: u8) -> Call {
        let (helpers, partners) = (self.helpers.clone(), self.partners.clone());
        Call::Move { board: self.board, point, helpers, partners }
    }

    /// The move with other lists.
    fn with(&self, helpers: &[usize], partners: &[usize]) -> Call {
        Call::Move { board: self.board, point: self.point, helpers: helpers.to_vec(), partners: partners.to_vec() }
    }

    /// Lists of another length, and boards named twice.
    fn refused_lists(&self, trial: &mut Trial, random: &mut Random, lent: &Lent) {
        let (helpers, partners) = (&self.helpers, &self.partners);
        let any = random.below(self.scene.sizes.n);
        let mut counts = vec![
            (helpers[1..].to_vec(), partners.clone()),
            ([&helpers[..], &[any]].concat(), partners.clone()),
            (helpers.clone(), [&partners[..], &[any]].concat()),
            (Vec::new(), partners.clone()),
            ([&helpers[..], partners].concat(), Vec::new()),
            // as a repair of one board with a helper that is none
            ([&helpers[..], &[self.scene.sizes.n]].concat(), partners.clone()),
        ];
        if partners.is_empty() {
            counts.remove(4);
        } else {
            counts.push((helpers.clone(), partners[1..].to_vec()));
        }
        for (helpers, partners) in counts {
            self.refuse(trial, lent, self.with(&helpers, &partners), COUNT);
        }
        let put = |list: &[usize], place: usize, board: usize| {
            let mut list = list.to_vec();
            list[place] = board;
            list
        };
        let place = random.below(helpers.len());
        self.refuse(trial, lent, self.with(&put(helpers, place, self.board), partners), REPEAT);
        if helpers.len() > 1 {
            let twice = put(helpers, place, helpers[(place + 1) % helpers.len()]);
            self.refuse(trial, lent, self.with(&twice, partners), REPEAT);
        }
        if !partners.is_empty() {
            let of = random.below(partners.len());
            self.refuse(trial, lent, self.with(helpers, &put(partners, of, self.board)), REPEAT);
            self.refuse(trial, lent, self.with(helpers, &put(partners, of, helpers[place])), REPEAT);
        }
        if partners.len() > 1 {
            self.refuse(trial, lent, self.with(helpers, &put(partners, 0, partners[1])), REPEAT);
        }
    }

    /// Numbers of n or more.
    fn refused_numbers(&self, trial: &mut Trial, random: &mut Random, lent: &Lent) {
        let n = self.scene.sizes.n;
        let other = random.pick(&[n, n + 256, 1 << 32, usize::MAX]);
        let (helpers, partners) = (&self.helpers, &self.partners);
        let call = Call::Move { board: other, point: self.point, helpers: helpers.clone(), partners: partners.clone() };
        self.refuse(trial, lent, call, NODE);
        for place in [0, helpers.len() - 1] {
            let mut helpers = helpers.clone();
            helpers[place] = other;
            self.refuse(trial, lent, self.with(&helpers, partners), NODE);
        }
        if !partners.is_empty() {
            let mut partners = partners.clone();
            let place = random.below(partners.len());
            partners[place] = other;
            self.refuse(trial, lent, self.with(helpers, &partners), NODE);
        }
    }

    /// With a board of each kind out of service, alone; and with all.
    fn out_of_service(&self, trial: &mut Trial, random: &mut Random) {
        let others = self.not_named();
        let mut lost = vec![vec![self.board], vec![random.pick(&self.helpers)], self.all()];
        lost.extend(random.choose(self.partners.clone(), 1).pop().map(|partner| vec![partner]));
        lost.extend(random.choose(others, 1).pop().map(|board| vec![board]));
        for lost in lost {
            let in_service: Vec<usize> = self.all().into_iter().filter(|board| !lost.contains(board)).collect();
            let lent = self.lent(random, self.area.clone(), &in_service);
            self.refuse(trial, &lent, self.call(), DOWN);
        }
    }

    fn before_a_write(&self, trial: &mut Trial, random: &mut Random) {
        let Scene { sizes, ref points, .. } = *self.scene;
        let record = store::words(sizes, points, self.capacity, None, &[]);
        let lent = Lent { record, ..self.lent(random, self.area.clone(), &[]) };
        self.refuse(trial, &lent, self.call(), EMPTY);
        self.refuse(trial, &lent, self.with(&self.helpers[1..], &[sizes.n]), EMPTY);
    }

    /// While the moved board is rebuilt by the same boards, and while another one is.
    fn while_a_repair_runs(&self, trial: &mut Trial, random: &mut Random) {
        let sizes = self.scene.sizes;
        for fresh in [self.board, self.helpers[0]] {
            let in_service: Vec<usize> = self.all().into_iter().filter(|&board| board != fresh).collect();
            let lists = running_draw::lists_of(random, sizes, &in_service, 1);
            let repair = running_draw::running(random, &lists);
            let lent = Lent { repair, ..self.lent(random, self.area.clone(), &in_service) };
            self.refuse(trial, &lent, self.call(), BUSY);
            self.refuse(trial, &lent, self.with(&[], &[]), BUSY);
        }
    }
}
