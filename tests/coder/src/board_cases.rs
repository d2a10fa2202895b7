//! Cases at board level: sizes, points and a file are drawn, and the six calls are made with true, damaged, arbitrary and spoilt arguments.

use crate::board;
use crate::call::{Call, Lent};
use crate::code::{self, Sizes};
use crate::draw;
use crate::points;
use crate::random::Random;
use crate::scene::Scene;
use crate::spoil::spoil;
use crate::trial::Trial;

/// How many calls a case makes.
const CALLS: usize = 12;

/// How many kinds of calls there are.
const KINDS: usize = 6;

pub fn run(trial: &mut Trial, random: &mut Random, sizes: Sizes) {
    let most = draw::stripes(random, sizes);
    let length = draw::length(random, sizes, most);
    let scene = Scene::new(sizes, points::draw(random, sizes.n), random.bytes(length));
    spoilt(trial, random, &scene, CALLS);
}

/// So many calls of any kind, spoilt or not.
pub fn spoilt(trial: &mut Trial, random: &mut Random, scene: &Scene, calls: usize) {
    for _ in 0..calls {
        let which = random.below(KINDS);
        let (mut call, written) = scene.call(random, which);
        let mut lent = Lent::output(draw::output(random, written));
        spoil(random, scene.sizes, &mut call, &mut lent);
        trial.check(&call, &lent, &board::expect(&call, &lent));
    }
}

/// A call of each kind, none of them spoilt.
pub fn each(trial: &mut Trial, random: &mut Random, scene: &Scene) {
    for which in 0..KINDS {
        let (call, written) = scene.call(random, which);
        let more = random.below(3);
        let lent = Lent::output(random.bytes(written + more));
        trial.check(&call, &lent, &board::expect(&call, &lent));
    }
}

impl Scene {
    /// The packets that helpers send to a board, one after another.
    fn packets(&self, helpers: &[usize], receiver: usize) -> Vec<u8> {
        let sent =
            |&helper: &usize| code::helper_packet(self.sizes, &self.points, helper, receiver, self.share(helper));
        helpers.iter().flat_map(sent).collect()
    }

    /// A call that would be accepted, by its kind, and the bytes that it writes.
    fn call(&self, random: &mut Random, which: usize) -> (Call, usize) {
        let sizes = self.sizes;
        let points = self.points.clone();
        let length = self.file.len();
        let stripes = sizes.stripes(length);
        let share_len = stripes * sizes.share_len();
        // all boards in any order, to take different ones from
        let boards = random.choose((0..sizes.n).collect(), sizes.n);
        let node = boards[0];
        match which {
            0 => (Call::Share { sizes, points, node, file: self.file.clone() }, share_len),
            1 => (self.file_call(random, &boards), length),
            2 => {
                let share = draw::damaged(random, self.share(node).to_vec());
                (Call::Helper { sizes, points, length, helper: node, receiver: boards[1], share }, 2 * stripes)
            }
            3 => (self.exchange_call(random, &boards), stripes),
            4 => (self.finished_call(random, &boards), share_len),
            _ => {
                let share = draw::damaged(random, self.share(node).to_vec());
                let written = code::share_text(sizes, &points, length, node, &share).len();
                (Call::Text { sizes, points, length, node, share }, written)
            }
        }
    }

    fn file_call(&self, random: &mut Random, boards: &[usize]) -> Call {
        let boards = boards[..self.sizes.k].to_vec();
        let shares = boards.iter().flat_map(|&board| self.share(board).to_vec()).collect();
        let shares = draw::damaged(random, shares);
        Call::File { sizes: self.sizes, points: self.points.clone(), length: self.file.len(), boards, shares }
    }

    fn exchange_call(&self, random: &mut Random, boards: &[usize]) -> Call {
        let (board, helpers) = (boards[0], boards[1..=self.sizes.d].to_vec());
        // where all other boards help there is no receiver left, and the call is refused
        let receiver = boards.get(self.sizes.d + 1).copied().unwrap_or_else(|| draw::any_number(random, self.sizes.n));
        let packets = draw::damaged(random, self.packets(&helpers, board));
        let points = self.points.clone();
        Call::Exchange { sizes: self.sizes, points, length: self.file.len(), board, helpers, packets, receiver }
    }

    fn finished_call(&self, random: &mut Random, boards: &[usize]) -> Call {
        let Sizes { d, r, .. } = self.sizes;
        let (board, helpers) = (boards[0], boards[1..=d].to_vec());
        let partners = boards[d + 1..d + r].to_vec();
        let packets = draw::damaged(random, self.packets(&helpers, board));
        // each partner hears the same helpers
        let sent =
            |&partner: &usize| code::exchange_packet(&self.points, &helpers, &self.packets(&helpers, partner), board);
        let partner_packets = draw::damaged(random, partners.iter().flat_map(sent).collect());
        let (points, length) = (self.points.clone(), self.file.len());
        Call::Finished { sizes: self.sizes, points, length, board, helpers, packets, partners, partner_packets }
    }
}
