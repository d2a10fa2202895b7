//! Cases of texts: those of a file's shares, whole, cut, altered in a byte, and written otherwise than the share-as-text call writes them; and
//! texts one after another, k of them in any order, too few and too many, of another file, of one board, disagreeing, broken.

use crate::board;
use crate::call::refusal::{ACCEPTED, COUNT, DISAGREE, MIXED, REPEAT, SIZE, TEXT};
use crate::call::{Call, Lent};
use crate::code::{Sizes, MAX_BOARDS};
use crate::draw;
use crate::points;
use crate::random::Random;
use crate::scene::Scene;
use crate::text_spoil::{other_byte, otherwise};
use crate::texts::{self, Told, HEAD};
use crate::trial::Trial;

/// The kinds of texts, each with what must have been answered to some of them.
pub const KINDS: [(&str, u8); 30] = [
    ("whole", ACCEPTED),
    ("cut", TEXT),
    ("a byte altered", TEXT),
    ("a byte altered", ACCEPTED),
    ("a leading zero", TEXT),
    ("a sign", TEXT),
    ("upper case", TEXT),
    ("points 0 to n-1 said", TEXT),
    ("a point twice", TEXT),
    ("points too few or many", TEXT),
    ("board n or more", TEXT),
    ("a length too great", TEXT),
    ("another length", ACCEPTED),
    ("other sizes", TEXT),
    ("pairs too few or many", TEXT),
    ("a carriage return", TEXT),
    ("lines out of order", TEXT),
    ("bytes behind", TEXT),
    ("bytes before", TEXT),
    ("another head", SIZE),
    ("k texts", ACCEPTED),
    ("k texts", DISAGREE),
    ("k - 1 texts", COUNT),
    ("k + 1 texts", COUNT),
    ("of other sizes", MIXED),
    ("at other points", MIXED),
    ("of another length", MIXED),
    ("a board twice", REPEAT),
    ("one broken", TEXT),
    ("no text", COUNT),
];

/// The longest text that is cut, and altered, at every byte.
const SHORT_TEXT: usize = 130;

pub fn run(trial: &mut Trial, random: &mut Random, sizes: Sizes) {
    let most = match random.below(40) {
        0 => draw::stripes(random, sizes),
        _ => random.pick(&[1, 1, 1, 2, 3]),
    };
    let length = draw::length(random, sizes, most);
    let scene = Scene::new(sizes, points::draw(random, sizes.n), random.bytes(length));
    over(trial, random, &scene);
}

/// The texts of one file.
pub fn over(trial: &mut Trial, random: &mut Random, scene: &Scene) {
    scene.read_one(trial, random);
    scene.gather(trial, random);
}

/// The text of a board's true share, written and read back; one that names another board; and k texts of which each names the board of the next.
pub fn named(trial: &mut Trial, random: &mut Random, scene: &Scene) {
    let Scene { sizes, ref points, .. } = *scene;
    let length = scene.length();
    let boards = random.choose((0..sizes.n).collect(), sizes.k);
    let told =
        |node: usize, of: usize| Told { sizes, points: points.clone(), length, node, share: scene.share(of).to_vec() };
    for (node, of) in [(boards[0], boards[0]), ((boards[0] + 1) % sizes.n, boards[0])] {
        let told = told(node, of);
        let (text, out) = (told.text(), random.bytes(told.share.len()));
        let written = Call::Text { sizes, points: told.points, length, node, share: told.share };
        let lent = Lent::output(random.bytes(text.len()));
        trial.check(&written, &lent, &board::expect(&written, &lent));
        let (record, area) = (vec![random.next(); HEAD], random.bytes(MAX_BOARDS));
        let lent = Lent { record, area, out, ..Lent::default() };
        check(trial, "whole", Call::ReadText { text }, lent);
    }
    let next = |place: usize| boards[(place + 1) % boards.len()];
    let texts = boards.iter().enumerate().flat_map(|(place, &of)| told(next(place), of).text()).collect();
    check(trial, "k texts", Call::Gather { text: texts }, Lent::output(random.bytes(length)));
}

/// Reads a text, over any bytes in head, points and output.
fn read(trial: &mut Trial, random: &mut Random, kind: &str, text: Vec<u8>) {
    let head = vec![random.next(); HEAD];
    let points = random.bytes(MAX_BOARDS);
    let written = texts::read(&text).map_or(10, |told| told.share.len());
    let lent = Lent { record: head, area: points, out: draw::output(random, written), ..Lent::default() };
    check(trial, kind, Call::ReadText { text }, lent);
}

/// Gathers texts; `length` is that of their file.
fn gather(trial: &mut Trial, random: &mut Random, kind: &str, text: Vec<u8>, length: usize) {
    let lent = Lent::output(draw::output(random, length));
    check(trial, kind, Call::Gather { text }, lent);
}

fn check(trial: &mut Trial, kind: &str, call: Call, lent: Lent) {
    let expected = texts::expect(&call, &lent);
    if trial.check(&call, &lent, &expected) {
        trial.count_text(kind, (expected.answer & 255) as u8);
    }
}

/// A place of a list: often its first or its last.
fn any_place(random: &mut Random, count: usize) -> usize {
    let any = random.below(count);
    random.pick(&[0, count - 1, any])
}

impl Scene {
    /// What the text of a board says, its share true, damaged or any bytes.
    fn told(&self, random: &mut Random, node: usize) -> Told {
        let share = draw::damaged(random, self.share(node).to_vec());
        Told { sizes: self.sizes, points: self.points.clone(), length: self.file.len(), node, share }
    }

    fn read_one(&self, trial: &mut Trial, random: &mut Random) {
        let node = random.below(self.sizes.n);
        let told = self.told(random, node);
        let text = told.text();
        read(trial, random, "whole", text.clone());
        let every = text.len() <= SHORT_TEXT && random.once_in(6);
        let places: Vec<usize> = if every {
            (0..text.len()).collect()
        } else {
            let begin = text.len().min(100);
            let near = random.choose((0..begin).collect(), 4);
            let any = random.below(text.len());
            [&near[..], &[0, 1, any, text.len() - 1, text.len() - 2]].concat()
        };
        for place in places {
            read(trial, random, "cut", text[..place].to_vec());
            let mut altered = text.clone();
            altered[place] = other_byte(random, text[place]);
            read(trial, random, "a byte altered", altered);
        }
        for _ in 0..6 {
            let (kind, text) = otherwise(random, &told);
            read(trial, random, kind, text);
        }
        self.other_head(trial, random, text);
    }

    /// A head of another count of words than 6, or points of another length than 32: before all else, whether the text is one or not.
    fn other_head(&self, trial: &mut Trial, random: &mut Random, mut text: Vec<u8>) {
        if random.once_in(3) {
            text.pop();
        }
        let (mut words, mut length) = (HEAD, MAX_BOARDS);
        if random.once_in(2) {
            words = random.pick(&[0, 1, 5, 7, 12]);
        } else {
            length = random.pick(&[0, 1, self.sizes.n.min(31), 31, 33, 64]);
        }
        let out = if random.once_in(2) { text.len() } else { 0 };
        let (record, area) = (vec![random.next(); words], random.bytes(length));
        let lent = Lent { record, area, out: random.bytes(out), ..Lent::default() };
        check(trial, "another head", Call::ReadText { text }, lent);
    }

    /// Sizes that differ in one number from these, or are any others.
    fn other_sizes(&self, random: &mut Random) -> Sizes {
        let Sizes { n, k, d, r } = self.sizes;
        let near = [
            Sizes::new(n + 1, k, d, r),
            Sizes::new(n - 1, k, d, r),
            Sizes::new(n, k + 1, d, r),
            Sizes::new(n, k - 1, d, r),
            Sizes::new(n, k, d - 1, r + 2),
            Sizes::new(n, k, d, r + 1),
        ];
        let legal: Vec<Sizes> = near.into_iter().filter(|sizes| sizes.legal()).collect();
        if legal.is_empty() || random.once_in(6) {
            draw::sizes(random)
        } else {
            random.pick(&legal)
        }
    }

    /// The text of a board of another file: of other sizes, at other points, or of another length.
    fn of_other_file(&self, random: &mut Random, node: usize) -> (&'static str, Vec<u8>) {
        let mut told = self.told(random, node);
        let kind = match random.below(3) {
            0 => {
                told.sizes = self.other_sizes(random);
                told.points = match random.below(5) {
                    // the same 32 bytes: a board more, at 00, or one at 00 less
                    0..=1 if points::legal(told.sizes, &self.points) => self.points.clone(),
                    2 => points::draw(random, told.sizes.n),
                    3 => points::first_series(told.sizes.n),
                    _ => points::standard(told.sizes.n),
                };
                told.node %= told.sizes.n;
                "of other sizes"
            }
            1 => {
                let (one, other) = (random.below(self.sizes.n), random.below(self.sizes.n));
                match random.below(3) {
                    0 => told.points = points::draw(random, self.sizes.n),
                    1 => told.points.swap(one, other),
                    _ => {
                        let free = (0..=255).find(|byte| !told.points[..self.sizes.n].contains(byte));
                        told.points[self.sizes.n - 1] = free.expect("there are at most 32 boards");
                    }
                }
                "at other points"
            }
            _ => {
                let longest = self.sizes.longest();
                told.length = random.pick(&[told.length.saturating_sub(1), told.length + 1, 0]).min(longest);
                "of another length"
            }
        };
        // the share is then any bytes of its length
        let due = told.sizes.stripes(told.length) * told.sizes.share_len();
        if due != told.share.len() {
            told.share = random.bytes(due);
        }
        (kind, told.text())
    }

    fn gather(&self, trial: &mut Trial, random: &mut Random) {
        let Sizes { n, k, .. } = self.sizes;
        let length = self.file.len();
        // equations of long stripes take their time
        let solved = if self.sizes.stripe_len() > 200 { 1 } else { 3 };
        for _ in 0..solved {
            let texts = self.some_texts(random, k);
            gather(trial, random, "k texts", texts.concat(), length);
        }
        let few = self.some_texts(random, k - 1);
        gather(trial, random, if few.is_empty() { "no text" } else { "k - 1 texts" }, few.concat(), length);
        // where all boards are read there is none left, and one comes twice
        let mut many = self.some_texts(random, (k + 1).min(n));
        if many.len() == k {
            many.push(many[0].clone());
        }
        gather(trial, random, "k + 1 texts", many.concat(), length);
        if random.once_in(4) {
            gather(trial, random, "no text", Vec::new(), length);
        }
        for _ in 0..4 {
            self.gather_others(trial, random);
        }
        self.gather_twice(trial, random);
        for _ in 0..3 {
            self.gather_broken(trial, random);
        }
    }

    /// The texts of so many boards, in any order.
    fn some_texts(&self, random: &mut Random, count: usize) -> Vec<Vec<u8>> {
        let boards = random.choose((0..self.sizes.n).collect(), count);
        // mostly all of them are true, so that they agree
        let truly = !random.once_in(4);
        boards
            .into_iter()
            .map(|node| {
                let mut told = self.told(random, node);
                if truly {
                    told.share = self.share(node).to_vec();
                }
                told.text()
            })
            .collect()
    }

    /// k texts, one too few or one too many, of which one is of another file; sometimes one is broken, too.
    fn gather_others(&self, trial: &mut Trial, random: &mut Random) {
        let Sizes { n, k, .. } = self.sizes;
        let count = random.pick(&[k, k, k.max(2) - 1, k + 1]).min(n);
        let mut texts = self.some_texts(random, count);
        let board = random.below(n);
        let (mut kind, other) = self.of_other_file(random, board);
        let place = any_place(random, texts.len());
        if random.once_in(3) {
            texts.insert(place, other);
        } else {
            texts[place] = other;
        }
        if random.once_in(6) {
            let place = random.below(texts.len());
            texts[place].pop();
            kind = "one broken";
        }
        gather(trial, random, kind, texts.concat(), self.file.len());
    }

    /// k texts, or one too many, of which two are of one board, with the same share or another.
    fn gather_twice(&self, trial: &mut Trial, random: &mut Random) {
        let Sizes { n, k, .. } = self.sizes;
        let count = random.pick(&[k, k, k + 1]).min(n);
        let boards = random.choose((0..n).collect(), count);
        let mut boards = boards.clone();
        let (one, other) = (random.below(count), random.below(count));
        boards[one] = boards[other];
        let texts: Vec<u8> = boards.into_iter().flat_map(|node| self.told(random, node).text()).collect();
        gather(trial, random, "a board twice", texts, self.file.len());
    }

    /// k texts with a byte altered, cut, put in between or behind, or one of them written otherwise.
    fn gather_broken(&self, trial: &mut Trial, random: &mut Random) {
        let mut texts = self.some_texts(random, self.sizes.k);
        let place = any_place(random, texts.len());
        let text = &mut texts[place];
        match random.below(6) {
            0 => {
                let at = random.below(text.len().min(100));
                text[at] = other_byte(random, text[at]);
            }
            1 => text.truncate(random.below(text.len())),
            2 => drop(text.pop()),
            3 => text.push(random.pick(b"\nn 0")),
            4 => text.insert(0, random.pick(b"\nn 0")),
            _ => {
                let told = texts::read(text).expect("it is a text");
                *text = otherwise(random, &told).1;
            }
        }
        gather(trial, random, "one broken", texts.concat(), self.file.len());
    }
}
