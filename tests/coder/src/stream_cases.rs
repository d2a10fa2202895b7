//! Cases of the trial file (request A.2): figures as literal bytes; files of any length from any seed; and files in parts, which are the whole one
//! after another.

use crate::call::{Call, Lent, Outcome};
use crate::figures::figure;
use crate::random::Random;
use crate::stream::{self, Stream};
use crate::trial::Trial;

/// Lengths of which some must have been drawn, each up to the next.
const LENGTHS: [usize; 8] = [0, 1, 2, 1001, 16_385, 65_536, 500_000, 600_001];

/// The seeds of which files must have been drawn; others are of the last two kinds.
const SEEDS: [&str; 5] = ["0", "1", "2^32 - 1", "below 2^31", "from 2^31 up"];

#[derive(Default)]
pub struct Met {
    /// how many files and parts were drawn, by their lengths, and by their seeds
    lengths: [u64; LENGTHS.len() - 1],
    seeds: [u64; SEEDS.len()],
    /// how many files were drawn in parts
    in_parts: u64,
}

impl Met {
    fn count(&mut self, seed: u32, length: usize) {
        let kind = (0..self.lengths.len()).find(|&kind| (LENGTHS[kind]..LENGTHS[kind + 1]).contains(&length));
        self.lengths[kind.expect("it has some length")] += 1;
        let seed = match seed {
            0 => 0,
            1 => 1,
            u32::MAX => 2,
            _ if seed < 1 << 31 => 3,
            _ => 4,
        };
        self.seeds[seed] += 1;
    }

    /// What must have been met, and was not.
    pub fn never(&self) -> Vec<String> {
        let lengths = LENGTHS.windows(2).zip(self.lengths).filter(|(_, count)| *count == 0);
        let seeds = SEEDS.iter().zip(self.seeds).filter(|(_, count)| *count == 0);
        let lengths = lengths.map(|(kind, _)| format!("a trial file of {} to {} bytes", kind[0], kind[1] - 1));
        let parts = (self.in_parts == 0).then(|| "a trial file in parts".to_string());
        lengths.chain(seeds.map(|(kind, _)| format!("a trial file of the seed {kind}"))).chain(parts).collect()
    }

    pub fn print(&self) {
        let heads: String = LENGTHS[1..].iter().map(|next| format!("{:>9}", next - 1)).collect();
        println!("{:30} {heads}", "trial files of up to .. bytes");
        println!("{:30} {}", "", self.lengths.map(|count| format!("{count:>9}")).concat());
        println!("{:30} {}", "seeds", SEEDS.map(|kind| format!("{kind:>13}")).concat());
        println!("{:30} {}", "", self.seeds.map(|count| format!("{count:>13}")).concat());
        println!("trial files in parts: {}", self.in_parts);
    }
}

/// First bytes of files, worked out by hand, and the state after them.
const FIGURES: [(u32, &[u8], u32); 9] = [
    (0, &[0x3C, 0x47, 0xD1, 0xAA, 0x62, 0x9F], 0x9F2E_C686),
    (1, &[0x3C, 0x5E, 0x81, 0xB4, 0x0C, 0x5E], 0x5E98_C13F),
    (4_294_967_295, &[0x3C, 0x30, 0x22], 0x2283_EC54),
    (0, &[0x3C], 0x3C6E_F35F),
    (1, &[0x3C], 0x3C88_596C),
    (4_294_967_295, &[0x3C], 0x3C55_8D52),
    (0, &[], 0),
    (1, &[], 1),
    (4_294_967_295, &[], 4_294_967_295),
];

pub fn figures(trial: &mut Trial) {
    for (seed, bytes, after) in FIGURES {
        let lent = Lent::output(vec![0xEE; bytes.len()]);
        let expected = Outcome::accepted(after as usize, Lent::output(bytes.to_vec()));
        figure(trial, "a trial file", Call::TrialFile { seed }, lent, expected);
    }
}

fn seed(random: &mut Random) -> u32 {
    match random.below(8) {
        0 => random.pick(&[0, 1, u32::MAX]),
        1 => random.pick(&[(1 << 31) - 1, 1 << 31, (1 << 24) - 1, 1 << 24, u32::MAX - 1]),
        _ => random.next() as u32,
    }
}

/// Some short files, at once and in parts.
pub fn run(trial: &mut Trial, random: &mut Random) {
    for _ in 0..3 {
        let length = match random.below(10) {
            0 => random.within(0, 2),
            1 => random.within(1001, 20_000),
            2 => random.pick(&[255, 256, 257, 511, 512, 513]),
            _ => random.within(3, 1000),
        };
        let seed = seed(random);
        drawn(trial, random, seed, length);
    }
}

/// Files of each kind of length but the longest, and of each kind of seed, in the first cases of a run.
pub fn first(trial: &mut Trial, random: &mut Random) {
    for length in [0, 1, 2, 300, 16_384, 16_385] {
        let any = random.next() as u32;
        let seed = random.pick(&[0, 1, u32::MAX, any]);
        drawn(trial, random, seed, length);
    }
}

/// Long files.
pub fn long(trial: &mut Trial, random: &mut Random) {
    for (least, most) in [(16_385, 65_535), (65_536, 499_999), (500_000, 600_000)] {
        let (seed, length) = (seed(random), random.within(least, most));
        drawn(trial, random, seed, length);
    }
}

/// A file of a seed, at once, and then in two to four parts, some of which may have no bytes. What a part must be is a piece of the whole file.
fn drawn(trial: &mut Trial, random: &mut Random, seed: u32, length: usize) {
    let whole = Stream::new(u64::from(seed)).take(length);
    if !part(trial, random, seed, &whole, 0..length) {
        return;
    }
    let mut cuts = vec![0, length];
    cuts.extend((0..random.within(1, 3)).map(|_| random.within(0, length)).collect::<Vec<_>>());
    cuts.sort_unstable();
    let alike = cuts.windows(2).all(|two| part(trial, random, seed, &whole, two[0]..two[1]));
    trial.streams.in_parts += u64::from(alike);
}

/// Draws a part of a seed's file, from the state before it. True where all is alike.
fn part(trial: &mut Trial, random: &mut Random, seed: u32, whole: &[u8], places: std::ops::Range<usize>) -> bool {
    let state = |place: usize| stream::after(u64::from(seed), place);
    let before = state(places.start) as u32;
    let due = Lent::output(whole[places.clone()].to_vec());
    let lent = Lent::output(random.bytes(due.out.len()));
    let expected = Outcome::accepted(state(places.end) as usize, due);
    let alike = trial.check(&Call::TrialFile { seed: before }, &lent, &expected);
    if alike {
        trial.streams.count(before, places.len());
    }
    alike
}
