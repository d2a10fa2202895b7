//! The load of request A.2 of document 02, by the coder's own generator and its ledger: what the program `trial` must write for an input
//! (`tests/trial.sh` holds it to this), and inputs to try it with. No call is made.

use crate::call::{Call, Lent};
use crate::code::Sizes;
use crate::ledger::Book;
use crate::random::Random;
use crate::stream::{Stream, STATES};
use crate::trial::{Place, Trial};
use crate::{draw, points, printer, store};

/// "an area above 32,768 bytes or a length above 16,384".
const AREA: usize = 32_768;
const LENGTH: usize = 16_384;

/// The lines, in their order.
const NAMES: [&str; 8] = ["n", "k", "d", "r", "C", "seed", "length", "calls"];

/// "picks write, lose, repair or read", counted from 0.
const WORDS: [&str; 4] = ["write", "lose", "repair", "read"];

pub struct Load {
    sizes: Sizes,
    capacity: usize,
    seed: u64,
    length: usize,
    calls: u64,
}

/// The lines of eight numbers.
fn lines(numbers: [u64; 8]) -> String {
    NAMES.iter().zip(numbers).map(|(name, number)| format!("{name}={number}\n")).collect()
}

impl Load {
    /// What an input says; none where it is refused. What stands behind the names is read without much care and written again, and the input is
    /// taken just where that gives the same bytes.
    pub fn read(input: &[u8]) -> Option<Load> {
        let text = std::str::from_utf8(input).ok()?;
        let number = |line: &str| line.split_once('=')?.1.parse::<u64>().ok();
        let numbers: Vec<u64> = text.lines().map(number).collect::<Option<_>>()?;
        let numbers: [u64; 8] = numbers.try_into().ok()?;
        let [n, k, d, r, capacity, seed, length, calls] = numbers;
        let [n, k, d, r, capacity, length] = [n, k, d, r, capacity, length].map(|number| number as usize);
        let load = Load { sizes: Sizes::new(n, k, d, r), capacity, seed, length, calls };
        (lines(numbers) == text && !load.refused()).then_some(load)
    }

    /// "a seed or calls above 4,294,967,295, a refused set-up, an area above 32,768 bytes or a length above 16,384".
    fn refused(&self) -> bool {
        let Load { sizes, capacity, seed, length, calls } = *self;
        if seed >= STATES || calls >= STATES || length > LENGTH || !sizes.legal() {
            return true;
        }
        let call = Call::SetUp { sizes, points: points::standard(sizes.n), capacity };
        let lent = Lent::idle(vec![0; store::word::COUNT], Vec::new(), Vec::new());
        store::expect(&call, &lent).answer != 0 || self.area_len() > AREA
    }

    fn area_len(&self) -> usize {
        self.sizes.n * self.capacity * self.sizes.share_len()
    }

    /// The next call: "a byte modulo 4, counted from 0, picks write, lose, repair or read, and the next byte modulo n the first board. Lists count on
    /// from there modulo n, the r fresh before the d helpers, the same d for each fresh board. A write takes the next L bytes instead".
    fn draw(&self, stream: &mut Stream) -> (&'static str, Call) {
        let Sizes { n, k, d, r } = self.sizes;
        let word = WORDS[usize::from(stream.next()) % 4];
        if word == "write" {
            return (word, Call::Write { file: stream.take(self.length) });
        }
        let first = usize::from(stream.next()) % n;
        let counted: Vec<usize> = (first..first + n).map(|board| board % n).collect();
        let call = match word {
            "lose" => Call::Lose { board: first },
            "repair" => {
                let (fresh, behind) = counted.split_at(r);
                // "The trial load names t = r", so there are no stand-ins
                Call::Repair { fresh: fresh.to_vec(), helpers: behind[..d].repeat(r), stand_ins: Vec::new() }
            }
            _ => Call::Read { boards: counted[..k].to_vec() },
        };
        (word, call)
    }

    /// Hands on a line for each call: "that word, the refusal or 0, the bytes reported or 0"; ends where it is not taken.
    pub fn run(&self, mut to: impl FnMut(&str) -> bool) -> bool {
        let mut stream = Stream::new(self.seed);
        let mut book = Book::new(self.sizes, points::standard(self.sizes.n), self.capacity, self.area_len());
        // "a read's output has room for L"
        let out = vec![0; self.length];
        (0..self.calls).all(|_| {
            let (word, call) = self.draw(&mut stream);
            let answer = book.enter(&call, &out, 0).answer;
            to(&format!("op={word} answer={} moved={}\n", answer & 255, answer >> 8))
        })
    }
}

/// Hands on all that the program must write, line by line; true where all of it was taken.
pub fn written(input: &[u8], mut to: impl FnMut(&str) -> bool) -> bool {
    match Load::read(input) {
        Some(load) => load.run(to),
        None => to(&String::from_utf8(printer::refused(1)).expect("it is a line")),
    }
}

/// An input to try the program with: mostly a load that is taken, at the ends of what is taken too; sometimes with a byte or a line altered.
pub fn drawn(random: &mut Random) -> Vec<u8> {
    let mut sizes = draw::sizes(random);
    while random.once_in(2) && sizes.n > 4 {
        sizes = draw::sizes(random);
    }
    let most = (AREA / (sizes.n * sizes.share_len())).min(4096);
    let capacity = match random.below(16) {
        0 => 1,
        1..=2 => most,
        3 => most + 1,
        _ => random.within(1, most),
    };
    let room = capacity * sizes.stripe_len();
    let length = match random.below(16) {
        0 => 0,
        1 => room.min(LENGTH),
        2 => room + 1,
        3 => random.pick(&[LENGTH, LENGTH + 1]),
        4 => random.within(0, LENGTH),
        _ => random.within(1, room.min(LENGTH)),
    };
    let seed = match random.below(12) {
        0 => random.pick(&[0, 1, STATES / 2 - 1, STATES / 2, STATES - 1]),
        1 => random.pick(&[STATES, STATES + 1, u64::MAX]),
        _ => random.next() % STATES,
    };
    let calls = random.pick(&[0, 1, 2, 10, 40, 100, 100, 150]);
    let [n, k, d, r, capacity, length] =
        [sizes.n, sizes.k, sizes.d, sizes.r, capacity, length].map(|number| number as u64);
    let input = lines([n, k, d, r, capacity, seed, length, calls]).into_bytes();
    if random.once_in(4) {
        altered(random, input)
    } else {
        input
    }
}

/// An input with something altered in it; it may be one that is taken all the same.
fn altered(random: &mut Random, mut input: Vec<u8>) -> Vec<u8> {
    let place = random.below(input.len());
    let byte = random.pick(b"0123456789=\n\r nkdrCcseedlengthcalls+-\0\x80");
    match random.below(8) {
        0 => drop(input.remove(place)),
        1 => input.insert(place, input[place]),
        2 => input.insert(place, byte),
        3 => input.push(byte),
        4 => input.truncate(place),
        5 => input[place] ^= 0x20,
        6 => {
            let mut lines: Vec<Vec<u8>> = input.split_inclusive(|&byte| byte == b'\n').map(<[u8]>::to_vec).collect();
            let (one, other) = (random.below(8), random.below(8));
            match random.below(3) {
                0 => lines.swap(one, other),
                1 => drop(lines.remove(one)),
                _ => lines.insert(one, lines[one].clone()),
            }
            return lines.concat();
        }
        _ => input[place] = byte,
    }
    input
}

/// What is written for an input, whole.
fn text(input: &str) -> String {
    let mut text = String::new();
    written(input.as_bytes(), |line| {
        text += line;
        true
    });
    text
}

/// A load that meets each answer but 3, worked out by hand, and its lines.
const MEETING: &str = "n=4\nk=2\nd=2\nr=1\nC=1\nseed=3081\nlength=5\ncalls=8\n";
const MET: &str =
    "op=repair answer=8 moved=0\nop=read answer=8 moved=0\nop=write answer=0 moved=0\nop=lose answer=0 moved=0\n\
    op=repair answer=14 moved=0\nop=read answer=0 moved=0\nop=read answer=9 moved=0\nop=repair answer=0 moved=4\n";

/// Inputs of one call, and how the first line begins; of seed 0 the first byte is 3C, which picks write.
const FIRST: [(&str, &str); 18] = [
    ("n=2\nk=1\nd=1\nr=1\nC=1\nseed=0\nlength=2\ncalls=1\n", "op=write answer=0"),
    ("n=2\nk=1\nd=1\nr=1\nC=1\nseed=0\nlength=3\ncalls=1\n", "op=write answer=3"),
    ("n=2\nk=1\nd=1\nr=1\nC=1\nseed=4294967295\nlength=0\ncalls=1\n", "op=write answer=0"),
    ("n=2\nk=1\nd=1\nr=1\nC=1\nseed=4294967296\nlength=0\ncalls=1\n", "refused=1"),
    ("n=2\nk=1\nd=1\nr=1\nC=1\nseed=0\nlength=0\ncalls=4294967296\n", "refused=1"),
    ("n=2\nk=1\nd=1\nr=1\nC=1\nseed=0\nlength=16384\ncalls=1\n", "op=write answer=3"),
    ("n=2\nk=1\nd=1\nr=1\nC=1\nseed=0\nlength=16385\ncalls=1\n", "refused=1"),
    ("n=2\nk=1\nd=1\nr=1\nC=0\nseed=0\nlength=0\ncalls=1\n", "refused=1"),
    ("n=2\nk=1\nd=1\nr=1\nC=4096\nseed=0\nlength=8192\ncalls=1\n", "op=write answer=0"),
    ("n=2\nk=1\nd=1\nr=1\nC=4097\nseed=0\nlength=0\ncalls=1\n", "refused=1"),
    ("n=11\nk=1\nd=4\nr=2\nC=330\nseed=0\nlength=0\ncalls=1\n", "op=write answer=0"),
    ("n=11\nk=1\nd=4\nr=2\nC=331\nseed=0\nlength=0\ncalls=1\n", "refused=1"),
    ("n=8\nk=1\nd=1\nr=3\nC=1024\nseed=0\nlength=0\ncalls=1\n", "op=write answer=0"),
    ("n=8\nk=1\nd=1\nr=3\nC=1025\nseed=0\nlength=0\ncalls=1\n", "refused=1"),
    ("n=2\nk=1\nd=1\nr=1\nc=1\nseed=0\nlength=2\ncalls=1\n", "refused=1"),
    ("n=2\nk=1\nd=1\nr=1\nC=1\nseed=0\nlength=2\ncalls=1", "refused=1"),
    ("n=2\nk=1\nd=1\nr=1\nC=1\nseed=0\nlength=2\ncalls=1\n\n", "refused=1"),
    ("n=2\nk=1\nd=1\nr=1\nC=1\nseed=00\nlength=2\ncalls=1\n", "refused=1"),
];

/// The coder's own load against figures.
pub fn figures(trial: &mut Trial) {
    trial.place = Place::Figure("a trial load".to_string());
    if text(MEETING) != MET {
        trial.report(&format!("the coder itself writes {:?} for {MEETING:?}", text(MEETING)));
    }
    for (input, begin) in FIRST {
        let said = text(input);
        if !said.starts_with(begin) || said.lines().count() != 1 {
            trial.report(&format!("the coder itself writes {said:?} for {input:?}"));
        }
    }
    if !text("n=2\nk=1\nd=1\nr=1\nC=1\nseed=0\nlength=2\ncalls=0\n").is_empty() {
        trial.report("the coder itself writes something for no calls");
    }
}
