//! Shares with one byte altered, where a read has least to see it by: k = 1, where all bytes are the share of some whole stripe and only padding
//! tells; k = d, where F has no rows from k on; and a last stripe of one byte, all else padding. In each case every place of a board's bytes of
//! one stripe is altered in turn, and then bytes of the padding itself, so that the shares agree and only the padding is wrong. What must be
//! answered is worked out by linear algebra, for all of a case at once.

use crate::call::refusal::DISAGREE;
use crate::call::{Call, Lent, Outcome};
use crate::code::{self, Sizes};
use crate::points;
use crate::random::Random;
use crate::store;
use crate::trial::Trial;

/// What a byte is altered in; a case may be several.
pub const KINDS: [&str; 4] = ["k = 1", "k = d", "a last stripe of 1 byte", "the padding alone"];

/// How often calls with an altered byte were accepted, and how often refused with DISAGREE, alike by the archive and by the coder.
#[derive(Clone, Copy, Default)]
pub struct Met {
    pub accepted: u64,
    pub disagree: u64,
}

/// The most bytes of padding that a case alters.
const PADDING: usize = 5;

/// A file, and the boards that it is read from.
struct Scene {
    sizes: Sizes,
    points: Vec<u8>,
    stripes: usize,
    length: usize,
    boards: Vec<usize>,
}

/// The k shares, one after another, with a byte altered or not.
struct Shares {
    bytes: Vec<u8>,
    /// which of KINDS they are; none where no byte is altered
    kinds: Vec<usize>,
}

/// Sizes with k = 1 or k = d, sometimes others; mostly of short stripes.
pub fn sizes(random: &mut Random, drawn: Sizes) -> Sizes {
    let k = random.pick(&[1, 1, drawn.d, drawn.d, drawn.k]);
    let sizes = Sizes { k, ..drawn };
    if sizes.stripe_len() <= 200 || random.once_in(10) {
        sizes
    } else {
        Sizes { k: 1, ..drawn }
    }
}

pub fn run(trial: &mut Trial, random: &mut Random, sizes: Sizes) {
    let scene = Scene::new(random, sizes);
    let shares = scene.all_shares(random);
    let lists: Vec<&[u8]> = shares.iter().map(|shares| &shares.bytes[..]).collect();
    let files = code::files(sizes, &scene.points, scene.length, &scene.boards, &lists);
    for (shares, file) in shares.iter().zip(files) {
        let (call, lent) = scene.call(random, &shares.bytes);
        let expected = expected(&call, &lent, file.as_deref());
        if trial.check(&call, &lent, &expected) {
            for &kind in &shares.kinds {
                trial.count_altered(kind, file.is_some());
            }
        }
    }
}

/// What a call over these shares must answer and leave, by the file that they have.
pub fn expected(call: &Call, lent: &Lent, file: Option<&[u8]>) -> Outcome {
    let Some(file) = file else { return Outcome::refused(DISAGREE, lent) };
    let mut after = lent.clone();
    after.out[..file.len()].copy_from_slice(file);
    let reported = if matches!(call, Call::Read { .. }) { 0 } else { file.len() };
    Outcome::accepted(reported, after)
}

impl Scene {
    fn new(random: &mut Random, sizes: Sizes) -> Scene {
        let stripe = sizes.stripe_len();
        let stripes = random.pick(&[1, 1, 2, 3]);
        let last = match random.below(4) {
            0..=1 => 1,
            2 => stripe,
            _ => random.within(1, stripe),
        };
        let boards = random.choose((0..sizes.n).collect(), sizes.k);
        let points = points::draw(random, sizes.n);
        Scene { sizes, points, stripes, length: (stripes - 1) * stripe + last, boards }
    }

    /// The true shares, those with each place of one stripe of one board altered, and those of files with a byte in the padding.
    fn all_shares(&self, random: &mut Random) -> Vec<Shares> {
        let sizes = self.sizes;
        let (stripes, width) = (self.stripes, sizes.share_len());
        let generators: Vec<_> = self.boards.iter().map(|&board| code::generator(sizes, &self.points, board)).collect();
        let shares_of =
            |file: &[u8]| generators.iter().flat_map(|of| code::share_by(sizes, of, file)).collect::<Vec<u8>>();
        let mut file = random.bytes(self.length);
        let truth = shares_of(&file);
        let mut all = vec![Shares { bytes: truth.clone(), kinds: vec![] }];

        let board = random.below(self.boards.len());
        let stripe = if random.once_in(2) { stripes - 1 } else { random.below(stripes) };
        for place in 0..width {
            let mut bytes = truth.clone();
            bytes[(board * stripes + stripe) * width + place] ^= random.within(1, 255) as u8;
            all.push(Shares { bytes, kinds: self.kinds(stripe) });
        }

        let whole = stripes * sizes.stripe_len();
        let mut places: Vec<usize> = (self.length..whole).collect();
        if places.len() > PADDING {
            // the first and the last, and some between
            let between = random.choose(places[1..places.len() - 1].to_vec(), PADDING - 2);
            places = [&[self.length, whole - 1], &between[..]].concat();
        }
        file.resize(whole, 0);
        for place in places {
            file[place] = random.within(1, 255) as u8;
            let kinds = [&self.kinds(stripes - 1)[..], &[3]].concat();
            all.push(Shares { bytes: shares_of(&file), kinds });
            file[place] = 0;
        }
        all
    }

    /// Which of KINDS an altered byte of a stripe is.
    fn kinds(&self, stripe: usize) -> Vec<usize> {
        let Sizes { k, d, .. } = self.sizes;
        let in_last = stripe == self.stripes - 1;
        let of_one_byte = self.length == (self.stripes - 1) * self.sizes.stripe_len() + 1;
        let holds = [k == 1, k == d, in_last && of_one_byte];
        (0..holds.len()).filter(|&kind| holds[kind]).collect()
    }

    /// A read of these shares, at board level or from a store, and what it is lent.
    fn call(&self, random: &mut Random, shares: &[u8]) -> (Call, Lent) {
        let (sizes, points, length, boards) = (self.sizes, self.points.clone(), self.length, self.boards.clone());
        let more = random.below(3);
        let out = random.bytes(length + more);
        if random.once_in(2) {
            return (Call::File { sizes, points, length, boards, shares: shares.to_vec() }, Lent::output(out));
        }
        let capacity = self.stripes + random.below(2);
        let in_service = if random.once_in(2) { boards.clone() } else { (0..sizes.n).collect() };
        let record = store::words(sizes, &points, capacity, Some(length), &in_service);
        let board_len = capacity * sizes.share_len();
        let mut area = random.bytes(sizes.n * board_len);
        for (&board, share) in boards.iter().zip(shares.chunks(shares.len() / boards.len())) {
            area[board * board_len..][..share.len()].copy_from_slice(share);
        }
        (Call::Read { boards }, Lent::idle(record, area, out))
    }
}
