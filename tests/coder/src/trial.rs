//! Holds the archive to what is expected, call by call; counts, reports mismatches with what repeats them, and shows progress.

use crate::altered;
use crate::archive::{self, Performed};
use crate::call::{refusal, Call, Lent, Outcome, CALLS, READ_TEXT, SET_UP, TRIAL_FILE};
use crate::code::Sizes;
use crate::{
    careful_met, edits, moves_met, points, prefix_met, real, repairs, running, steps_met, store, stream_cases, texts,
};
use std::fmt;
use std::time::{Duration, Instant};

/// What a run is doing when it makes a call.
#[derive(Clone)]
pub enum Place {
    Figure(String),
    Case(u64),
}

impl fmt::Display for Place {
    fn fmt(&self, to: &mut fmt::Formatter) -> fmt::Result {
        match self {
            Place::Figure(name) => write!(to, "figure '{name}'"),
            Place::Case(case) => write!(to, "case {case}"),
        }
    }
}

/// A deliberate fault, to try the harness: what is altered in what the archive answers, at the first call from `at` on that has it.
#[derive(Clone, Copy)]
pub struct Wrong {
    pub at: u64,
    pub kind: WrongKind,
}

#[derive(Clone, Copy, Debug)]
pub enum WrongKind {
    /// the answer itself
    Answer,
    /// the answer becomes a refusal with the number that is not used
    Eleven,
    /// a byte of the area, of the packet area or of the output
    Byte,
    /// a word of a record
    Word,
}

impl Wrong {
    /// Alters one bit of an outcome, or its answer, and says where; none where the outcome has nothing of the kind.
    fn alter(&self, outcome: &mut Outcome) -> Option<String> {
        let turn = self.at as usize;
        let Outcome { answer, lent } = outcome;
        match self.kind {
            WrongKind::Answer => {
                *answer ^= 1 << (turn % 12);
                Some(format!("bit {} of the answer", turn % 12))
            }
            WrongKind::Eleven => {
                *answer = refusal::UNUSED;
                Some("the answer, which is 11 now,".to_string())
            }
            WrongKind::Byte => {
                let (name, bytes) = if !lent.packets.is_empty() {
                    ("packet area", &mut lent.packets)
                } else if !lent.area.is_empty() {
                    ("area", &mut lent.area)
                } else {
                    ("output", &mut lent.out)
                };
                let place = turn.checked_rem(bytes.len())?;
                bytes[place] ^= 1 << (turn % 8);
                Some(format!("byte {place} of the {name}"))
            }
            WrongKind::Word => {
                let (name, words) = if turn % 2 == 0 || lent.repair.is_empty() {
                    ("record", &mut lent.record)
                } else {
                    ("repair's record", &mut lent.repair)
                };
                let place = turn.checked_rem(words.len())?;
                words[place] ^= 1 << (turn % 64);
                Some(format!("word {place} of the {name}"))
            }
        }
    }
}

pub struct Trial {
    pub seed: u64,
    pub calls: u64,
    pub mismatches: u64,
    /// how often each call was accepted (0) or refused with each number, alike by the archive and by the coder
    pub met: [[u64; refusal::COUNTED]; CALLS.len()],
    /// how often each call was accepted, or refused for its points alone, with points of each kind
    pub points: [[u64; points::KINDS.len()]; TRIAL_FILE],
    /// how often texts of each kind were answered as some of them must be
    pub texts: [u64; crate::text_cases::KINDS.len()],
    /// what was met of beginnings that make sense
    pub prefixes: prefix_met::Met,
    /// what was met of trial files
    pub streams: stream_cases::Met,
    /// how many second files were found for k − 1 boards, and the calls made with them
    pub second_files: u64,
    pub second_calls: u64,
    /// what calls with an altered byte gave, by its kind
    pub altered: [altered::Met; altered::KINDS.len()],
    /// how many repairs were accepted, by their kinds
    pub repairs: [u64; repairs::KINDS.len()],
    /// what was met of edits
    pub edits: edits::Met,
    /// what was met of repairs a packet at a time
    pub steps: steps_met::Met,
    /// what was met of careful reads
    pub careful: careful_met::Met,
    /// what was met of moves
    pub moves: moves_met::Met,
    /// what was met at real sizes
    pub real: real::Met,
    pub place: Place,
    /// whether each call is printed before it is made, to find one that does not come back
    pub trace: bool,
    wrong: Option<Wrong>,
    goal: u64,
    started: Instant,
    last_progress: Instant,
}

const PROGRESS: Duration = Duration::from_secs(5);

impl Trial {
    pub fn new(seed: u64, goal: u64, wrong: Option<Wrong>) -> Trial {
        Trial {
            seed,
            calls: 0,
            mismatches: 0,
            met: [[0; refusal::COUNTED]; CALLS.len()],
            points: [[0; points::KINDS.len()]; TRIAL_FILE],
            texts: [0; crate::text_cases::KINDS.len()],
            prefixes: Default::default(),
            streams: Default::default(),
            second_files: 0,
            second_calls: 0,
            altered: Default::default(),
            repairs: Default::default(),
            edits: Default::default(),
            steps: Default::default(),
            careful: Default::default(),
            moves: Default::default(),
            real: Default::default(),
            place: Place::Figure(String::new()),
            trace: false,
            wrong,
            goal,
            started: Instant::now(),
            last_progress: Instant::now(),
        }
    }

    /// Does a call through the archive and holds it to what is expected. True where all is alike.
    pub fn check(&mut self, call: &Call, lent: &Lent, expected: &Outcome) -> bool {
        self.calls += 1;
        if self.trace {
            println!("call {} {}: {call} over {}", self.calls, self.place, Short(lent));
        }
        let mut performed = archive::perform(call, lent);
        self.falsify(&mut performed.outcome);
        self.show_progress();
        if performed.outcome.answer & 255 == refusal::UNUSED {
            self.report(&format!("{call} over {}: the answer has the number 11, which is not used", Short(lent)));
            return false;
        }
        match difference(&performed, expected) {
            None => {
                let number = (expected.answer & 255) as u8;
                self.met[call.place()][usize::from(number)] += 1;
                self.count_points(call, lent, number);
                self.count_repair(call, lent, number);
                self.edits.count(call, lent, expected);
                self.steps.count(call, lent, expected);
                self.careful.count(call, lent, expected);
                self.moves.count(call, lent, expected);
                self.real.count(call, lent, number);
                true
            }
            Some(what) => {
                self.report(&format!("{call} over {}: {what}", Short(lent)));
                false
            }
        }
    }

    /// Counts the points that a call went by, or was refused for.
    fn count_points(&mut self, call: &Call, lent: &Lent, number: u8) {
        let Some((sizes, points)) = points_asked(call, lent) else { return };
        let kind = points::kind(sizes, &points);
        let answer = if kind < points::REFUSED { refusal::ACCEPTED } else { refusal::SIZE };
        if number == answer {
            self.points[call.place()][kind] += 1;
        }
    }

    /// Counts an accepted repair.
    fn count_repair(&mut self, call: &Call, lent: &Lent, number: u8) {
        let Call::Repair { fresh, helpers, stand_ins } = call else { return };
        if number == refusal::ACCEPTED {
            let (sizes, _) = store::given(&lent.record).expect("it was accepted");
            for kind in repairs::kinds(sizes, fresh, helpers, stand_ins) {
                self.repairs[kind] += 1;
            }
        }
    }

    /// Counts a call with an altered byte of some kind.
    pub fn count_altered(&mut self, kind: usize, accepted: bool) {
        let met = &mut self.altered[kind];
        if accepted {
            met.accepted += 1;
        } else {
            met.disagree += 1;
        }
    }

    /// Counts a text of some kind, by what it was answered.
    pub fn count_text(&mut self, kind: &str, number: u8) {
        for (count, due) in self.texts.iter_mut().zip(crate::text_cases::KINDS) {
            *count += u64::from(due == (kind, number));
        }
    }

    /// Reports something that is not as it must be.
    pub fn report(&mut self, what: &str) {
        self.mismatches += 1;
        let repeat = match self.place {
            Place::Figure(_) => String::new(),
            Place::Case(case) => format!(" (repeat: --seed {} --only {case})", self.seed),
        };
        println!("MISMATCH call {} {}{repeat}: {what}", self.calls, self.place);
    }

    /// The deliberate fault, once, where one is asked for.
    fn falsify(&mut self, outcome: &mut Outcome) {
        if let Some(wrong) = self.wrong.filter(|wrong| self.calls >= wrong.at) {
            if let Some(what) = wrong.alter(outcome) {
                println!("WRONG call {}: {what} is altered on purpose", self.calls);
                self.wrong = None;
            }
        }
    }

    fn show_progress(&mut self) {
        if self.last_progress.elapsed() >= PROGRESS {
            self.last_progress = Instant::now();
            println!(
                "coder: {} of {} calls, {} mismatches, {} s",
                self.calls,
                self.goal,
                self.mismatches,
                self.seconds()
            );
        }
    }

    pub fn seconds(&self) -> u64 {
        self.started.elapsed().as_secs()
    }

    /// The outcomes that some call can have and that were never met.
    pub fn never_met(&self) -> Vec<String> {
        let mut missing = Vec::new();
        for ((name, numbers), met) in CALLS.iter().zip(&self.met) {
            for &number in [refusal::ACCEPTED].iter().chain(*numbers) {
                if met[usize::from(number)] == 0 {
                    missing.push(format!("{name} {number}"));
                }
            }
        }
        for (place, (name, _)) in CALLS[..TRIAL_FILE].iter().enumerate() {
            for (kind, what) in points::KINDS.iter().enumerate() {
                // points that are refused make a text none, which is TEXT; set up is the last call that is given points as a slice
                let can_be =
                    if place < READ_TEXT { kind != points::NOT_32 || place <= SET_UP } else { kind < points::REFUSED };
                if can_be && self.points[place][kind] == 0 {
                    missing.push(format!("{name} with points {what}"));
                }
            }
        }
        for ((kind, number), count) in crate::text_cases::KINDS.iter().zip(self.texts) {
            if count == 0 {
                missing.push(format!("texts: {kind}, answered with {number}"));
            }
        }
        missing.extend(self.prefixes.never());
        missing.extend(self.streams.never());
        if self.second_files == 0 {
            missing.push("a second file for k − 1 boards".to_string());
        }
        for (kind, met) in altered::KINDS.iter().zip(&self.altered) {
            if met.disagree == 0 {
                missing.push(format!("DISAGREE for a byte altered, {kind}"));
            }
        }
        for (kind, &met) in repairs::KINDS.iter().zip(&self.repairs) {
            if met == 0 {
                missing.push(format!("a repair, {kind}"));
            }
        }
        missing.extend(self.edits.never());
        missing.extend(self.steps.never());
        missing.extend(self.careful.never());
        missing.extend(self.moves.never());
        missing.extend(self.real.never());
        missing
    }

    /// How often each call was accepted, and refused with each number.
    pub fn print_table(&self) {
        println!("{:20} {}", "refusal", (0..refusal::COUNTED).map(|number| format!("{number:>7}")).collect::<String>());
        for ((name, _), met) in CALLS.iter().zip(&self.met) {
            println!("{name:20} {}", met.iter().map(|count| format!("{count:>7}")).collect::<String>());
        }
        println!("{:20} {}", "points", points::KINDS.map(|kind| format!("{kind:>11}")).concat());
        for ((name, _), met) in CALLS[..TRIAL_FILE].iter().zip(&self.points) {
            println!("{name:20} {}", met.iter().map(|count| format!("{count:>11}")).collect::<String>());
        }
        println!("{:24} refusal    times, of the calls of zbk_read_text and zbk_gather", "texts");
        for ((kind, number), count) in crate::text_cases::KINDS.iter().zip(self.texts) {
            println!("{kind:24} {number:>7} {count:>8}");
        }
        self.prefixes.print();
        self.streams.print();
        println!(
            "second files for k − 1 boards: {}, in {} of the calls of zbk_share",
            self.second_files, self.second_calls
        );
        println!("{:24} accepted DISAGREE, of the calls of zbk_file and zbk_read", "one byte altered");
        for (kind, met) in altered::KINDS.iter().zip(&self.altered) {
            println!("{kind:24} {:>8} {:>8}", met.accepted, met.disagree);
        }
        println!("{:38} of the calls of zbk_repair, each of one or more kinds", "accepted repairs of t boards");
        for (kind, met) in repairs::KINDS.iter().zip(&self.repairs) {
            println!("{kind:38} {met:>8}");
        }
        self.edits.print();
        self.steps.print();
        self.careful.print();
        self.moves.print();
        self.real.print();
    }
}

/// The sizes and the points that a call goes by; none where something else than the points makes it SIZE.
pub fn points_asked(call: &Call, lent: &Lent) -> Option<(Sizes, Vec<u8>)> {
    match call {
        Call::ReadText { text } | Call::Gather { text } => {
            return texts::of_first(text).map(|(sizes, points, _)| (sizes, points))
        }
        Call::Prefix { text } => return texts::read(text).map(|told| (told.sizes, told.points)),
        Call::TrialFile { .. } => return None,
        _ => {}
    }
    let counts = (lent.record.len(), lent.repair.len()) == (store::word::COUNT, running::word::COUNT);
    let Some((sizes, points)) = call.given() else {
        let (sizes, points) = store::given(&lent.record)?;
        // a repair's record that could be SIZE by itself is left out
        let sound = counts && (lent.repair[0] == 0 || store::records(lent).is_ok());
        return sound.then_some((sizes, points));
    };
    let legal = match call {
        Call::SetUp { capacity, .. } => store::in_range(*capacity) && counts,
        _ => true,
    };
    (legal && sizes.legal()).then(|| (sizes, points.to_vec()))
}

/// What is lent, in short form.
struct Short<'a>(&'a Lent);

impl fmt::Display for Short<'_> {
    fn fmt(&self, to: &mut fmt::Formatter) -> fmt::Result {
        let Lent { record, repair, area, packets, out } = self.0;
        write!(to, "record={record:?} area[{}] out[{}]", area.len(), out.len())?;
        if repair.iter().any(|&word| word != 0) || repair.len() != running::word::COUNT {
            write!(to, " repair={repair:x?}")?;
        }
        if !packets.is_empty() {
            write!(to, " packets[{}]", packets.len())?;
        }
        Ok(())
    }
}

/// The first difference, in words.
fn difference(performed: &Performed, expected: &Outcome) -> Option<String> {
    let got = &performed.outcome;
    let number = |answer: u64| format!("refusal {} value {}", answer & 255, answer >> 8);
    if got.answer != expected.answer {
        return Some(format!("answered {}, expected {}", number(got.answer), number(expected.answer)));
    }
    if !performed.kept_inside {
        return Some("wrote outside of what it was lent".to_string());
    }
    first_word("record", &got.lent.record, &expected.lent.record)
        .or_else(|| first_word("repair's record", &got.lent.repair, &expected.lent.repair))
        .or_else(|| first_byte("area", &got.lent.area, &expected.lent.area))
        .or_else(|| first_byte("packet area", &got.lent.packets, &expected.lent.packets))
        .or_else(|| first_byte("output", &got.lent.out, &expected.lent.out))
}

fn first_word(name: &str, got: &[u64], due: &[u64]) -> Option<String> {
    assert_eq!(got.len(), due.len(), "the coder expects another count of words of the {name}");
    let place = (0..got.len()).find(|&i| got[i] != due[i])?;
    Some(format!("word {place} of the {name} is {}, expected {}", got[place], due[place]))
}

fn first_byte(name: &str, got: &[u8], due: &[u8]) -> Option<String> {
    assert_eq!(got.len(), due.len(), "the coder expects another length of the {name}");
    let place = (0..got.len()).find(|&i| got[i] != due[i])?;
    Some(format!("byte {place} of the {name} is {:02x}, expected {:02x}", got[place], due[place]))
}
