//! Request A.13: k is tight. k − 1 boards' equations leave some of a stripe's bytes open, so a file of at least B bytes has a second file of the
//! same length with the same shares on those boards: by linear algebra, a list that all the equations take to 00, added to a whole stripe. k
//! boards' equations leave nothing open. So at any points.

use crate::board;
use crate::call::{Call, Lent};
use crate::code::{self, Sizes};
use crate::draw;
use crate::field::FIELD;
use crate::points;
use crate::random::Random;
use crate::trial::Trial;

/// A file of at least B bytes, and the points of the boards.
struct Scene {
    sizes: Sizes,
    points: Vec<u8>,
    file: Vec<u8>,
}

pub fn run(trial: &mut Trial, random: &mut Random, sizes: Sizes) {
    let before = trial.calls;
    let boards = random.choose((0..sizes.n).collect(), sizes.k);
    let (last, away) = boards.split_last().expect("k is at least 1");
    let stripes = draw::stripes(random, sizes);
    let length = draw::length(random, sizes, stripes).max(sizes.stripe_len());
    let scene = Scene { sizes, points: points::draw(random, sizes.n), file: random.bytes(length) };
    if scene.second_file(random, &boards).is_some() {
        trial.report(&format!("{sizes:?}: the k boards {boards:?} leave a second file"));
    }
    let Some(other) = scene.second_file(random, away) else {
        trial.report(&format!("{sizes:?}: the k − 1 boards {away:?} leave no second file"));
        return;
    };
    if other == scene.file || other.len() != scene.file.len() {
        trial.report(&format!("{sizes:?}: the second file for boards {away:?} is no other file of that length"));
    }
    for &node in away {
        scene.alike(trial, random, node, &other);
    }
    scene.apart(trial, random, *last, &other);
    trial.second_files += 1;
    trial.second_calls += trial.calls - before;
}

impl Scene {
    /// Another file with the same shares on these boards, by what their equations leave open of a stripe; none where they leave nothing open.
    fn second_file(&self, random: &mut Random, boards: &[usize]) -> Option<Vec<u8>> {
        let stripe_len = self.sizes.stripe_len();
        let kernel = code::equations(self.sizes, &self.points, boards).kernel();
        // a sum of the lists with drawn factors, of which one at least is not 00
        let sure = random.below(kernel.len().max(1));
        let mut added = vec![0; stripe_len];
        for (place, list) in kernel.iter().enumerate() {
            let factor = random.within(usize::from(place == sure), 255) as u8;
            FIELD.add_multiple(&mut added, factor, list);
        }
        let start = random.below(self.file.len() / stripe_len) * stripe_len;
        let mut other = self.file.clone();
        FIELD.add_multiple(&mut other[start..start + added.len()], 1, &added);
        (!kernel.is_empty()).then_some(other)
    }

    fn share_of(&self, node: usize, file: &[u8]) -> Call {
        Call::Share { sizes: self.sizes, points: self.points.clone(), node, file: file.to_vec() }
    }

    /// An output for a share, and some bytes more.
    fn output(&self, random: &mut Random) -> Lent {
        let more = random.below(3);
        Lent::output(random.bytes(self.sizes.stripes(self.file.len()) * self.sizes.share_len() + more))
    }

    /// A board that gets the same share of both files: both calls are held to what is expected of the first.
    fn alike(&self, trial: &mut Trial, random: &mut Random, node: usize, other: &[u8]) {
        let lent = self.output(random);
        let expected = board::expect(&self.share_of(node, &self.file), &lent);
        trial.check(&self.share_of(node, &self.file), &lent, &expected);
        trial.check(&self.share_of(node, other), &lent, &expected);
    }

    /// One board more tells the files apart.
    fn apart(&self, trial: &mut Trial, random: &mut Random, node: usize, other: &[u8]) {
        let lent = self.output(random);
        let calls = [&self.file, other].map(|file| self.share_of(node, file));
        let outcomes = [0, 1].map(|which: usize| board::expect(&calls[which], &lent));
        for (call, expected) in calls.iter().zip(&outcomes) {
            trial.check(call, &lent, expected);
        }
        if outcomes[0] == outcomes[1] {
            let sizes = self.sizes;
            trial.report(&format!("{sizes:?}: k boards have the same shares of two files, board {node} the last"));
        }
    }
}
