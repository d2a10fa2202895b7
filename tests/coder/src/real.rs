//! Sizes as robots have them: hundreds and thousands of stripes, on few boards and on many. Which of them a call is about, and what was met at
//! them.

use crate::call::refusal::{ACCEPTED, DISAGREE};
use crate::call::{Call, Lent, CALLS, TRIAL_FILE};
use crate::code::{Sizes, MAX_STRIPES};
use crate::points;
use crate::store::{self, word};
use crate::texts;

/// The sizes of a robot with twelve boards, and of one with 32.
pub const TWELVE: Sizes = Sizes { n: 12, k: 6, d: 8, r: 2 };
pub const THIRTY_TWO: Sizes = Sizes { n: 32, k: 16, d: 24, r: 8 };

/// The file of the twelve boards, and the least one of the 32.
pub const TWELVE_LEN: usize = 32_768;
pub const THIRTY_TWO_LEN: usize = 163_840;

/// What a call may be about, each with five boards or more, in short and in words; one may be several. Every call must have been accepted at each,
/// and DISAGREE met, as far as it can be.
pub const CLASSES: [(&str, &str); 7] = [
    (">100", "over 100 stripes"),
    (">1000", "over 1,000 stripes"),
    ("4096", "4,096 stripes"),
    (">16 KiB", "a file over 16,384 bytes"),
    ("n=12", "456 stripes on 12 boards"),
    ("n=32", "163,840 bytes or more on 32 boards"),
    ("room", "at most 100 stripes in room for more"),
];

/// The place of the class by bytes, at which every call must have been accepted with points of each legal kind.
const LONG_FILE: usize = 3;

/// The place of the class of files that leave room, which only calls over a file in a store are of.
const ROOM_LEFT: usize = 6;

/// What is altered under a read of a store with five boards or more and over 100 stripes.
pub const SPOILT: [&str; 8] = [
    "an early stripe",
    "a late stripe",
    "the last stripe",
    "several bytes",
    "the padding alone",
    "all shares, of another file",
    "behind the share",
    "a board that is not read",
];

/// How many of SPOILT must have given DISAGREE; the others are accepted.
pub const DISAGREEING: usize = 5;

/// What a whole history may be at; one may be several.
pub const HISTORIES: [&str; 4] =
    ["n=12, 456 stripes", "n=32, 163,840 bytes up", "4,096 stripes, n over 4", "101 to 4,095 stripes, n over 4"];

/// How many stripes there is room for, and how long the file is.
#[derive(Clone, Copy)]
pub struct Measure {
    pub sizes: Sizes,
    pub room: usize,
    pub length: usize,
}

impl Measure {
    /// Of a call that was accepted, or refused with DISAGREE; none where it says no sizes.
    fn of(call: &Call, lent: &Lent) -> Option<Measure> {
        let length = match call {
            Call::SetUp { sizes, capacity, .. } => {
                return Some(Measure { sizes: *sizes, room: *capacity, length: capacity * sizes.stripe_len() })
            }
            Call::Write { .. }
            | Call::Lose { .. }
            | Call::Repair { .. }
            | Call::Read { .. }
            | Call::Edit { .. }
            | Call::Start { .. }
            | Call::Step { .. }
            | Call::Careful { .. }
            | Call::Move { .. } => {
                let (sizes, _) = store::given(&lent.record)?;
                let now = lent.record[word::LENGTH] as usize;
                let length = if let Call::Write { file } = call { file.len() } else { now };
                return Some(Measure { sizes, room: lent.record[word::CAPACITY] as usize, length });
            }
            Call::ReadText { text } | Call::Gather { text } => {
                let (sizes, _, length) = texts::of_first(text)?;
                return Some(Measure { sizes, room: sizes.stripes(length), length });
            }
            Call::Prefix { text } => {
                let texts::Told { sizes, length, .. } = texts::read(text)?;
                return Some(Measure { sizes, room: sizes.stripes(length), length });
            }
            Call::TrialFile { .. } => return None,
            Call::Share { file, .. } => file.len(),
            Call::File { length, .. }
            | Call::Helper { length, .. }
            | Call::Exchange { length, .. }
            | Call::Finished { length, .. }
            | Call::Text { length, .. } => *length,
        };
        let (sizes, _) = call.given()?;
        Some(Measure { sizes, room: sizes.stripes(length), length })
    }

    /// Which of CLASSES it is.
    fn classes(self) -> Vec<usize> {
        let Measure { sizes, room, length } = self;
        let stripes = sizes.stripes(length);
        let holds = [
            stripes > 100,
            stripes > 1000,
            stripes == MAX_STRIPES,
            length > 16_384,
            sizes == TWELVE && stripes == TWELVE.stripes(TWELVE_LEN),
            sizes == THIRTY_TWO && length >= THIRTY_TWO_LEN,
            stripes <= 100 && room > 100,
        ];
        (0..holds.len()).filter(|&class| holds[class] && sizes.n > 4).collect()
    }

    /// Which of HISTORIES it is.
    fn histories(self) -> Vec<usize> {
        let classes = self.classes();
        let holds = [4, 5, 2].map(|class| classes.contains(&class));
        let between = classes.contains(&0) && !holds[2];
        holds.into_iter().chain([between]).enumerate().filter(|(_, holds)| *holds).map(|(place, _)| place).collect()
    }
}

/// What was met at real sizes, alike by the archive and by the coder.
#[derive(Default)]
pub struct Met {
    /// how often each call was accepted, and how often refused with DISAGREE, by CLASSES
    calls: [[[u64; 2]; TRIAL_FILE]; CLASSES.len()],
    /// how often each call was accepted with points of each legal kind, with files over 16,384 bytes
    points: [[u64; points::REFUSED]; TRIAL_FILE],
    /// how many reads of spoilt areas were accepted, and how many refused with DISAGREE
    spoilt: [[u64; 2]; SPOILT.len()],
    /// how many histories had all their parts
    histories: [u64; HISTORIES.len()],
}

impl Met {
    /// Counts a call that was answered as it must be. Its points are those that it went by.
    pub fn count(&mut self, call: &Call, lent: &Lent, number: u8) {
        let Some(counted) = COUNTED.iter().position(|&due| due == number) else { return };
        // most calls are about small files, which need no more looking at
        if small(call, lent) {
            return;
        }
        let Some(measure) = Measure::of(call, lent) else { return };
        for class in measure.classes() {
            self.calls[class][call.place()][counted] += 1;
            if class == LONG_FILE && number == ACCEPTED {
                let (sizes, points) = crate::trial::points_asked(call, lent).expect("it was accepted");
                self.points[call.place()][points::kind(sizes, &points)] += 1;
            }
        }
    }

    /// Counts a read of a spoilt area.
    pub fn count_spoilt(&mut self, kind: usize, accepted: bool) {
        self.spoilt[kind][usize::from(!accepted)] += 1;
    }

    /// Counts a history that had all its parts.
    pub fn count_history(&mut self, measure: Measure) {
        for kind in measure.histories() {
            self.histories[kind] += 1;
        }
    }

    /// What must have been met, and was not.
    pub fn never(&self) -> Vec<String> {
        let mut missing = Vec::new();
        for (class, ((_, what), calls)) in CLASSES.iter().zip(&self.calls).enumerate() {
            for (place, (name, numbers)) in CALLS[..TRIAL_FILE].iter().enumerate() {
                let of_class = class != ROOM_LEFT || OVER_A_STORE.contains(&place);
                for (number, count) in COUNTED.iter().zip(calls[place]) {
                    let can_be = of_class && (*number == ACCEPTED || numbers.contains(number));
                    if can_be && count == 0 {
                        missing.push(format!("{name} {number} with {what}"));
                    }
                }
            }
        }
        for ((name, _), kinds) in CALLS[..TRIAL_FILE].iter().zip(&self.points) {
            for (kind, _) in points::KINDS.iter().zip(kinds).filter(|(_, &count)| count == 0) {
                missing.push(format!("{name} with {} and points {kind}", CLASSES[LONG_FILE].1));
            }
        }
        for (place, (kind, counts)) in SPOILT.iter().zip(&self.spoilt).enumerate() {
            let due = usize::from(place < DISAGREEING);
            if counts[due] == 0 {
                missing.push(format!("a read of many stripes {}, {kind} altered", ["accepted", "refused"][due]));
            }
        }
        for (kind, _) in HISTORIES.iter().zip(self.histories).filter(|(_, count)| *count == 0) {
            missing.push(format!("a whole history of {kind}"));
        }
        missing
    }

    /// The tables.
    pub fn print(&self) {
        let heads = CLASSES.map(|(short, _)| format!("{short:>9}")).concat();
        println!("{:20} {heads}", "accepted, n over 4");
        self.print_calls(0);
        println!("{:20} {heads}", "DISAGREE, n over 4");
        self.print_calls(1);
        let kinds = &points::KINDS[..points::REFUSED];
        let heads: String = kinds.iter().map(|kind| format!("{kind:>11}")).collect();
        println!("{:20} {heads}", "over 16,384 bytes");
        for ((name, _), counts) in CALLS[..TRIAL_FILE].iter().zip(&self.points) {
            println!("{name:20} {}", counts.map(|count| format!("{count:>11}")).concat());
        }
        println!("{:28} accepted DISAGREE, of the calls of zbk_read over 100 stripes, n over 4", "altered");
        for (kind, [accepted, disagree]) in SPOILT.iter().zip(&self.spoilt) {
            println!("{kind:28} {accepted:>8} {disagree:>8}");
        }
        println!("{:32} times", "whole histories");
        for (kind, count) in HISTORIES.iter().zip(self.histories) {
            println!("{kind:32} {count:>5}");
        }
    }

    /// How often each call was answered with one of COUNTED, by classes, where it can be.
    fn print_calls(&self, counted: usize) {
        for (place, (name, numbers)) in CALLS[..TRIAL_FILE].iter().enumerate() {
            if counted == 0 || numbers.contains(&COUNTED[counted]) {
                let count = |class: usize| self.calls[class][place][counted];
                let counts: String = (0..CLASSES.len()).map(|class| format!("{:>9}", count(class))).collect();
                println!("{name:20} {counts}");
            }
        }
    }
}

/// The answers that are counted.
const COUNTED: [u8; 2] = [ACCEPTED, DISAGREE];

/// The places in `CALLS` of the calls over a file in a store.
const OVER_A_STORE: std::ops::RangeInclusive<usize> = 7..=15;

/// Whether a call is about too few bytes for any of CLASSES.
fn small(call: &Call, lent: &Lent) -> bool {
    match call {
        Call::ReadText { text } | Call::Gather { text } | Call::Prefix { text } => text.len() < 400,
        Call::Write { .. }
        | Call::Repair { .. }
        | Call::Read { .. }
        | Call::Edit { .. }
        | Call::Start { .. }
        | Call::Step { .. }
        | Call::Careful { .. }
        | Call::Move { .. } => lent.area.len() < 500,
        _ => false,
    }
}
