//! Cases of the question how far a text makes sense (request A.14): texts whole, cut, altered in a byte, with bytes behind, with another number in a
//! line, written otherwise, and with points that are about to be 0 to n − 1. What the request's own words settle is held to the model, too: "A text
//! merely cut short answers its own length. An accepted text answers its whole length too."

use crate::call::{Call, Lent};
use crate::code::{self, Sizes, MAX_STRIPES};
use crate::draw;
use crate::points;
use crate::prefix_met::{which, ALTERED, BEHIND, CUT, NUMBER, OTHERWISE, ROWS, WHOLE};
use crate::random::Random;
use crate::scene::Scene;
use crate::text_spoil::{other_byte, otherwise};
use crate::texts::{self, Told};
use crate::trial::Trial;
use std::ops::RangeInclusive;

/// The longest text that is cut, and altered, at every byte.
const SHORT_TEXT: usize = 130;

/// A text, and which of `prefix_met::TEXTS` it is.
struct Whole {
    told: Told,
    text: Vec<u8>,
    of: usize,
}

/// What a text of these sizes and points may say.
fn drawn(random: &mut Random, sizes: Sizes, points: Vec<u8>, stripes: usize) -> Whole {
    let length = draw::length(random, sizes, stripes);
    let share = random.bytes(sizes.stripes(length) * sizes.share_len());
    Whole::new(Told { sizes, points, length, node: random.below(sizes.n), share })
}

/// A text of any points.
pub fn run(trial: &mut Trial, random: &mut Random, sizes: Sizes) {
    let points = points::draw(random, sizes.n);
    let stripes = random.pick(&[1, 1, 1, 2, 3]);
    let whole = drawn(random, sizes, points, stripes);
    let every = random.once_in(6);
    whole.ask_all(trial, random, every);
    if random.once_in(3) {
        let n = random.pick(&[16, 17, 32, sizes.n]);
        row(trial, random, n);
    }
}

/// Two texts, without a line of points and with one, each at every byte where it is short; and rows of points.
pub fn first(trial: &mut Trial, random: &mut Random, sizes: Sizes) {
    for points in [points::standard(sizes.n), points::others(random, sizes.n)] {
        drawn(random, sizes, points, 1).ask_all(trial, random, true);
    }
    for n in [16, 17, 32] {
        row(trial, random, n);
    }
}

/// The text of a board's share of a file.
pub fn of_scene(trial: &mut Trial, random: &mut Random, scene: &Scene) {
    let Scene { sizes, ref points, .. } = *scene;
    let node = random.below(sizes.n);
    let share = scene.share(node).to_vec();
    let told = Told { sizes, points: points.clone(), length: scene.length(), node, share };
    Whole::new(told).ask_all(trial, random, false);
}

/// A text of 4,096 stripes on many boards, of any bytes.
pub fn longest(trial: &mut Trial, random: &mut Random) {
    let sizes = random.pick(&draw::EXTREMES[4..]);
    let points = points::draw(random, sizes.n);
    let length = sizes.longest() - random.below(sizes.stripe_len());
    let share = random.bytes(MAX_STRIPES * sizes.share_len());
    let told = Told { sizes, points, length, node: random.below(sizes.n), share };
    Whole::new(told).ask_all(trial, random, false);
}

/// Asks how far a text makes sense; the answer, where it is as it must be. It is among those that are due whatever the model says.
fn ask(trial: &mut Trial, text: &[u8], due: RangeInclusive<usize>) -> Option<usize> {
    let call = Call::Prefix { text: text.to_vec() };
    let lent = Lent::default();
    let expected = texts::expect(&call, &lent);
    let answer = (expected.answer >> 8) as usize;
    let due = if texts::read(text).is_some() { text.len()..=text.len() } else { due };
    if !due.contains(&answer) {
        trial.report(&format!("{call}: the coder itself answers {answer}, which is not in {due:?}"));
    }
    trial.check(&call, &lent, &expected).then_some(answer)
}

/// Points of n boards that are 0 to n − 2, and behind them each digit, the pair that makes them 0 to n − 1, and other pairs.
fn row(trial: &mut Trial, random: &mut Random, n: usize) {
    let d = random.within(1, n - 1);
    let sizes = Sizes::new(n, random.within(1, d), d, random.within(1, n - d));
    // the last point is another one, and does not stand in the text any more
    let whole = drawn(random, sizes, points::filled_up((0..n - 1).chain([255])), 1);
    let line = whole.text.windows(8).position(|eight| eight == b"\npoints=").expect("it has a line of points");
    let before = &whole.text[..line + 8 + 2 * (n - 1)];
    let digits = b"0123456789abcdef";
    let mut all: Vec<String> = digits.iter().map(|&digit| char::from(digit).to_string()).collect();
    let longer = ROWS.iter().filter(|(of, behind, _)| *of == n && behind.len() > 1);
    all.extend(longer.map(|(_, behind, _)| behind.to_string()));
    all.push(code::pairs(&[n as u8 - 1]));
    all.extend([0; 3].map(|_| code::pairs(&random.bytes(1)) + "\n"));
    for behind in all {
        let known = ROWS.iter().find(|(of, digits, _)| (*of, *digits) == (n, &behind[..])).map(|(.., count)| *count);
        let due = known.map_or(0..=behind.len(), |count| count..=count);
        let text = [before, behind.as_bytes()].concat();
        if ask(trial, &text, before.len() + due.start()..=before.len() + due.end()).is_some() {
            trial.prefixes.count_row(n, &behind);
        }
    }
}

impl Whole {
    fn new(told: Told) -> Whole {
        let text = told.text();
        let of = which(&text, &told.share, told.points != points::standard(told.sizes.n));
        Whole { told, text, of }
    }

    /// Asks, and counts the answer; true where it is as it must be.
    fn asked(&self, trial: &mut Trial, kind: usize, text: &[u8], due: RangeInclusive<usize>) -> bool {
        let answer = ask(trial, text, due);
        if let Some(answer) = answer {
            trial.prefixes.count(kind, self.of, text, answer);
        }
        answer.is_some()
    }

    fn ask_all(&self, trial: &mut Trial, random: &mut Random, every: bool) {
        let Whole { told, text, of } = self;
        let all = text.len();
        // the longest take their time
        let times = if *of == 3 { 1 } else { 4 };
        self.asked(trial, WHOLE, text, all..=all);
        let every = every && all <= SHORT_TEXT;
        let mut right = true;
        for place in self.places(random, every) {
            right &= self.asked(trial, CUT, &text[..place], place..=place);
            right &= self.altered(trial, place, other_byte(random, text[place]));
        }
        if every && right {
            trial.prefixes.count_every(*of);
        }
        // a byte that no text has, and any digit in the place of the last one
        self.altered(trial, random.below(all), 0x80);
        self.altered(trial, all - 2, random.pick(b"0123456789abcdef"));
        for _ in 0..times {
            let behind =
                random.pick(&[b"\n".to_vec(), b"x".to_vec(), vec![0], b"n=".to_vec(), b"0".to_vec(), text.clone()]);
            self.asked(trial, BEHIND, &[&text[..], &behind].concat(), all..=all);
        }
        for _ in 0..times {
            let text = self.another_number(random);
            self.asked(trial, NUMBER, &text, 0..=text.len());
        }
        for _ in 0..times {
            let (_, text) = otherwise(random, told);
            self.asked(trial, OTHERWISE, &text, 0..=text.len());
        }
    }

    /// The places at which the text is cut and altered: every one, or some of its first lines and some others.
    fn places(&self, random: &mut Random, every: bool) -> Vec<usize> {
        let all = self.text.len();
        if every {
            return (0..all).collect();
        }
        let any = random.below(all);
        if self.of == 3 {
            return vec![any, all - 1];
        }
        let first = random.choose((0..all.min(100)).collect(), 6);
        [&first[..], &[any, all - 1, all - 2]].concat()
    }

    /// The text with another byte at a place; what stands before it begins a text.
    fn altered(&self, trial: &mut Trial, place: usize, byte: u8) -> bool {
        let mut text = self.text.clone();
        text[place] = byte;
        let answer = ask(trial, &text, place..=text.len());
        if let Some(answer) = answer {
            trial.prefixes.count(ALTERED + usize::from(answer > place), self.of, &text, answer);
        }
        answer.is_some()
    }

    /// The text with another number in one of the first six lines, near the one that stands there, near the greatest, or any; it may end there.
    fn another_number(&self, random: &mut Random) -> Vec<u8> {
        let Told { sizes, length, node, .. } = self.told;
        let Sizes { n, k, d, r } = sizes;
        let line = random.below(6);
        let lines: Vec<&[u8]> = self.text.split_inclusive(|&byte| byte == b'\n').collect();
        let (old, most) = ([n, k, d, r, node, length][line], [32, n - 1, n - 1, n - d, n - 1, sizes.longest()][line]);
        let near =
            random.pick(&[old + 1, old.saturating_sub(1), most, most + 1, most - most % 10, 10 * most, most / 10]);
        let any = random.below(45);
        let number = random.pick(&[near, near, any]);
        let name = lines[line].split(|&byte| byte == b'=').next().expect("a line has a name");
        let end = random.pick(&["\n", "\n", "", "0", "1", "x"]);
        let mut text = lines[..line].concat();
        text.extend(name);
        text.extend(format!("={number}{end}").bytes());
        if end == "\n" {
            text.extend(lines[line + 1..].concat());
        }
        text
    }
}
