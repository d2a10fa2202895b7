//! `zbk trial`: a load that all can repeat, drawn from one number and run through the archive's store; and the trial file of a number.

use crate::args::{Takes, Words};
use crate::files::{self, Target, PIPE};
use crate::spread::{answered, broken_rule, decimal};
use crate::trouble::{count, given, refused, unforeseen, Outcome, Trouble};
use std::ffi::OsStr;
use std::io::Write;
use zebrankai::{trial_file, Points, Record, Refusal, Sizes, MAX_STRIPES};

pub const TRIAL: Takes = Takes {
    command: "trial",
    valued: &["--boards", "--read", "--helpers", "--fresh", "--capacity", "--length", "--calls", "--output"],
    plain: &["--lines", "--file", "--force"],
};

/// The options that say a load's numbers.
const NUMBERS: &[&str] = &["--boards", "--read", "--helpers", "--fresh", "--capacity", "--length", "--calls"];

/// What a load has where nothing else is said.
const SIZES: Sizes = Sizes { n: 12, k: 6, d: 8, r: 2 };
const CALLS: usize = 1000;

/// The most bytes of a load's area and of its file, and the greatest seed and number of calls.
const AREA: usize = 32_768;
const LENGTH: usize = 16_384;
const GREATEST: usize = u32::MAX as usize;

/// The lines of the program `trial`, and as many bytes of an input as can make a difference.
const NAMES: [&str; 8] = ["n=", "k=", "d=", "r=", "C=", "seed=", "length=", "calls="];
const INPUT: usize = 200;

/// A file is drawn in parts of so many bytes.
const PART: usize = 1 << 16;

/// The numbers of a load, whether they are taken or not.
struct Load {
    sizes: Sizes,
    capacity: usize,
    seed: usize,
    length: usize,
    calls: usize,
}

impl Load {
    /// The load of a seed, by the options.
    fn of(words: &Words, seed: usize) -> Outcome<Load> {
        let sizes = Sizes {
            n: words.number_or("--boards", SIZES.n)?,
            k: words.number_or("--read", SIZES.k)?,
            d: words.number_or("--helpers", SIZES.d)?,
            r: words.number_or("--fresh", SIZES.r)?,
        };
        let capacity = words.number_or("--capacity", room(sizes))?;
        let length = words.number_or("--length", sizes.longest(capacity).min(LENGTH))?;
        Ok(Load { sizes, capacity, seed, length, calls: words.number_or("--calls", CALLS)? })
    }

    /// The load that the lines of the program `trial` say; none where they are not just these.
    fn read(input: &[u8]) -> Option<Load> {
        let mut rest = std::str::from_utf8(input).ok()?;
        let mut numbers = [0; NAMES.len()];
        for (number, name) in numbers.iter_mut().zip(NAMES) {
            let (value, behind) = rest.strip_prefix(name)?.split_once('\n')?;
            *number = decimal(value)?;
            rest = behind;
        }
        let [n, k, d, r, capacity, seed, length, calls] = numbers;
        rest.is_empty().then_some(Load { sizes: Sizes { n, k, d, r }, capacity, seed, length, calls })
    }

    /// Those lines.
    fn lines(&self) -> String {
        let Load { sizes: Sizes { n, k, d, r }, capacity, seed, length, calls } = *self;
        let numbers = [n, k, d, r, capacity, seed, length, calls];
        NAMES.iter().zip(numbers).map(|(name, number)| format!("{name}{number}\n")).collect()
    }

    /// The state and the record that the load begins with; else the refusal, in the program's order or in another: its number is the same.
    fn begin(&self) -> Outcome<(u32, Record)> {
        let Load { sizes, capacity, length, .. } = *self;
        if !sizes.is_legal() {
            return refused(Refusal::Size, broken_rule(sizes));
        }
        if !(1..=MAX_STRIPES).contains(&capacity) {
            return refused(
                Refusal::Size,
                format!("the capacity is 1 to {MAX_STRIPES} stripes, not {}", given(capacity)),
            );
        }
        let area = sizes.area_len(capacity);
        if area > AREA {
            let stripes = count(capacity, "stripe");
            let most = format!("a trial's has at most {AREA}, here for {}", count(room(sizes), "stripe"));
            return refused(Refusal::Size, format!("the area for {stripes} has {area} bytes; {most}"));
        }
        if length > LENGTH {
            let length = given(length);
            return refused(Refusal::Size, format!("a file of {length} bytes; a trial's has at most {LENGTH}"));
        }
        if self.calls > GREATEST {
            return refused(Refusal::Size, format!("{} calls; a trial has at most {GREATEST}", given(self.calls)));
        }
        let record = Record::set_up(sizes, Points::standard(sizes.n), capacity).map_err(unforeseen)?;
        Ok((state(self.seed)?, record))
    }
}

/// A seed as a starting state.
fn state(seed: usize) -> Outcome<u32> {
    match u32::try_from(seed) {
        Ok(state) => Ok(state),
        Err(_) => refused(Refusal::Size, format!("the seed is at most {GREATEST}, not {}", given(seed))),
    }
}

/// The most stripes that a trial's area has room for.
fn room(sizes: Sizes) -> usize {
    AREA.checked_div(sizes.area_len(1)).unwrap_or(1).clamp(1, MAX_STRIPES)
}

/// A store under load: what each call is drawn from, and what it works on.
struct Run {
    state: u32,
    record: Record,
    area: Vec<u8>,
    file: Vec<u8>,
    out: Vec<u8>,
}

impl Run {
    fn new(load: &Load) -> Outcome<Run> {
        let (state, record) = load.begin()?;
        let area = vec![0; load.sizes.area_len(load.capacity)];
        let file = vec![0; load.length];
        Ok(Run { state, record, area, out: file.clone(), file })
    }

    fn byte(&mut self) -> usize {
        let mut byte = [0];
        self.state = trial_file(self.state, &mut byte);
        usize::from(byte[0])
    }

    /// Draws the next call and makes it: its word, and its answer.
    fn turn(&mut self) -> (&'static str, Result<usize, Refusal>) {
        let picked = self.byte() % 4;
        if picked == 0 {
            self.state = trial_file(self.state, &mut self.file);
            return ("write", self.record.write(&mut self.area, &self.file).map(|()| 0));
        }
        let Sizes { n, k, d, r } = self.record.sizes();
        let first = self.byte() % n;
        let boards: Vec<usize> = (0..n).map(|place| (first + place) % n).collect();
        match picked {
            1 => ("lose", self.record.lose(first).map(|()| 0)),
            2 => ("repair", self.record.repair(&mut self.area, &boards[..r], &boards[r..r + d].repeat(r), &[])),
            _ => ("read", self.record.read(&self.area, &boards[..k], &mut self.out).map(|()| 0)),
        }
    }
}

pub fn trial(words: &Words) -> Outcome {
    if words.has("--file") {
        return file(words);
    }
    if words.has("--force") || words.given("--output") {
        return Err(words.wrong("--output and --force are for --file"));
    }
    let [seed] = &words.rest[..] else { return Err(words.wrong("name a seed, or - for the lines of a load")) };
    let load = if seed == PIPE {
        if NUMBERS.iter().any(|option| words.given(option)) {
            return Err(words.wrong("the lines of standard input say all numbers"));
        }
        match Load::read(&files::read(OsStr::new(PIPE), INPUT)?) {
            Some(load) => load,
            None => {
                let what = format!("the input is not just the lines {}, each with a number", NAMES.join(", "));
                return answered(Trouble::Refused(Refusal::Size, what));
            }
        }
    } else {
        Load::of(words, words.number_of("SEED", words.plain(seed)?)?)?
    };
    let mut run = match Run::new(&load) {
        Ok(run) => run,
        Err(trouble) => return answered(trouble),
    };
    if words.has("--lines") {
        return files::print(load.lines().as_bytes());
    }
    for _ in 0..load.calls {
        let (word, answer) = run.turn();
        let (refusal, moved) = answer.map_or_else(|refusal| (refusal.number(), 0), |moved| (0, moved));
        files::print(format!("op={word} answer={refusal} moved={moved}\n").as_bytes())?;
    }
    Ok(())
}

/// The trial file of a seed, to standard output or to a file.
fn file(words: &Words) -> Outcome {
    if words.has("--lines") || NUMBERS.iter().any(|option| words.given(option)) {
        return Err(words.wrong("--file takes a seed and a length, and no numbers of a load"));
    }
    let [seed, length] = &words.rest[..] else { return Err(words.wrong("--file: name a seed and a length")) };
    let (seed, length) = (words.plain(seed)?, words.plain(length)?);
    let (seed, length) = (words.number_of("SEED", seed)?, words.number_of("LENGTH", length)?);
    let state = state(seed)?;
    let Some(output) = words.name("--output")?.filter(|output| *output != PIPE) else {
        files::raw_allowed(words.has("--force") || length == 0)?;
        return draw(state, length, files::print);
    };
    let target = Target::new(output, words.has("--force"))?;
    files::write_parts(&target, |file| draw(state, length, |part| file.write_all(part)))
}

/// Draws so many bytes from a state on, and hands them on part by part.
fn draw<E>(mut state: u32, length: usize, mut to: impl FnMut(&[u8]) -> Result<(), E>) -> Result<(), E> {
    let mut part = vec![0; PART.min(length)];
    let mut left = length;
    while left > 0 {
        let count = left.min(PART);
        state = trial_file(state, &mut part[..count]);
        to(&part[..count])?;
        left -= count;
    }
    Ok(())
}
