//! The unrelated coder: holds the archive to a coder that shares no method with it, and reports each mismatch with what repeats it.
//!
//!     coder [--seed N] [--calls N] [--only CASE] [--wrong answer|eleven|byte|word] [--first] [--trace] [--verbose]
//!     coder --multiply
//!     coder --products
//!     coder --printer share|points
//!     coder --sizes N
//!     coder --trial
//!     coder [--seed N] --load N
//!
//! First the figures of document 01 are run, in a run of 20,000 calls or more all products of two bytes are tried, and then random cases until so
//! many calls are made: single calls at board level, single calls of the store over made-up records and areas, long histories against a ledger,
//! second files that k − 1 boards do not tell from the first (request A.13 of document 02), and shares with one byte altered where least shows it
//! (request A.7); all of them at points 0 to n − 1, i + 1 and others (request A.9), with repairs of 1 to r boards with stand-ins (request A.3) and edits
//! (request A.6), these also over areas with wrong bytes in boards that are read or not; and with repairs a packet at a time (request A.8), stepped by
//! every allowance, over packets and boards that are altered, up to power failures and losses, and beside made-up records; and with careful reads (request
//! A.11), over areas with no, one, two and all boards altered in every way, and through whole histories of worn boards; and with moves of boards to other
//! points (request A.10), over areas altered in every way, and of robots of the first series as a whole. Each case draws from its own seed, made of the
//! run's seed and the case's number: `--only` repeats one case.
//! `--wrong` alters what the archive answers to one call, to show that this is reported. `--first` ends the run at the first case with a mismatch.
//! `--trace` prints each call before it is made, `--verbose` how often each call gave each refusal, with which points, how often an altered byte was
//! accepted and refused, how many boards repairs had, where edits stood, how repairs were stepped, what careful reads and moves were of, and what was met
//! at real sizes. `--multiply` tries all products and quotients through the archive and nothing else. `--products`, `--printer`, `--sizes`, `--trial` and `--load`
//! make no call: the first writes all products and inverses of the coder's own field, the second reads standard input and writes what the share printer
//! or the points printer must write for it, the third writes a line for each legal combination of sizes with at most N boards (request A.12), the fourth
//! reads standard input and writes what the program `trial` must write for it (request A.2), and the fifth writes one of the inputs that it is tried
//! with.
//!
//! Texts of shares are read and gathered in cases of their own (request A.1), and asked how far they make sense in others (request A.14): whole, cut
//! at every byte, altered at every place, with bytes behind, and with points that are about to be 0 to n − 1. Every kind of these must have been met,
//! too. Trial files (request A.2) are drawn from any seed, at once and in parts, of up to 600,000 bytes.
//!
//! Most cases are small, of at most 100 stripes. Fifteen cases of each run, and one in a thousand of the others, are of real sizes (`real_cases`):
//! 32,768 bytes on 12 boards, 163,840 bytes and more on 32, 101 to 4,096 stripes on any. There every call is made, areas are read of which a byte,
//! several bytes or the padding are altered in any stripe, texts of such files are written, read and gathered, and whole histories are kept. Runs of
//! at most 4,000 calls leave them out.
//!
//! The last line counts calls and mismatches. The exit code is 1 where there is a mismatch, or where in a run of 40,000 calls or more some
//! refusal that a call can give was never met, a kind of points, DISAGREE for a kind of altered byte, a kind of repair, of edit, of step, of careful
//! read or of move, or a call at a kind of real sizes.

mod altered;
mod archive;
mod board;
mod board_cases;
mod call;
mod careful;
mod careful_cases;
mod careful_figures;
mod careful_met;
mod carried;
mod code;
mod draw;
mod edit_cases;
mod edit_figures;
mod edits;
mod field;
mod figures;
mod histories;
mod ledger;
mod load;
mod matrix;
mod move_cases;
mod move_draw;
mod move_figures;
mod moves;
mod moves_met;
mod points;
mod prefix;
mod prefix_cases;
mod prefix_figures;
mod prefix_met;
mod printer;
mod products;
mod random;
mod real;
mod real_cases;
mod real_reads;
mod repairs;
mod running;
mod running_draw;
mod scene;
mod size_list;
mod spoil;
mod step_cases;
mod step_figures;
mod step_meanwhile;
mod steps;
mod steps_met;
mod store;
mod store_cases;
mod store_draw;
mod stream;
mod stream_cases;
mod text_cases;
mod text_figures;
mod text_spoil;
mod texts;
mod tight;
mod trial;
mod worn;

use printer::Printer;
use random::Random;
use std::io::{BufWriter, Read, Write};
use std::process::ExitCode;
use std::sync::atomic::{AtomicU64, Ordering};
use trial::{Place, Trial, Wrong, WrongKind};

/// From how many calls on every refusal of every call must have been met.
const ENOUGH: u64 = 40_000;

/// From how many calls on all products are tried.
const WITH_PRODUCTS: u64 = 20_000;

/// Up to how many calls a run leaves real sizes out, so that it is quick.
const FEW: u64 = 4_000;

struct Options {
    seed: u64,
    calls: u64,
    only: Option<u64>,
    wrong: Option<WrongKind>,
    first: bool,
    trace: bool,
    verbose: bool,
    multiply: bool,
    products: bool,
    printer: Option<Printer>,
    sizes: Option<u64>,
    load: Option<u64>,
    run_load: bool,
}

fn options() -> Result<Options, String> {
    let mut options = Options {
        seed: 1,
        calls: 300_000,
        only: None,
        wrong: None,
        first: false,
        trace: false,
        verbose: false,
        multiply: false,
        products: false,
        printer: None,
        sizes: None,
        load: None,
        run_load: false,
    };
    let mut words = std::env::args().skip(1);
    while let Some(word) = words.next() {
        let mut number = || {
            let value = words.next().ok_or(format!("{word} wants a number"))?;
            value.parse::<u64>().map_err(|_| format!("{word} {value}: not a number"))
        };
        match word.as_str() {
            "--seed" => options.seed = number()?,
            "--calls" => options.calls = number()?,
            "--only" => options.only = Some(number()?),
            "--first" => options.first = true,
            "--trace" => options.trace = true,
            "--verbose" => options.verbose = true,
            "--multiply" => options.multiply = true,
            "--products" => options.products = true,
            "--printer" => options.printer = Some(printer_named(words.next())?),
            "--sizes" => options.sizes = Some(number()?),
            "--trial" => options.run_load = true,
            "--load" => options.load = Some(number()?),
            "--wrong" => options.wrong = Some(wrong_kind(words.next())?),
            _ => return Err(format!("{word}: not an option")),
        }
    }
    Ok(options)
}

fn wrong_kind(word: Option<String>) -> Result<WrongKind, String> {
    match word.as_deref() {
        Some("answer") => Ok(WrongKind::Answer),
        Some("eleven") => Ok(WrongKind::Eleven),
        Some("byte") => Ok(WrongKind::Byte),
        Some("word") => Ok(WrongKind::Word),
        _ => Err("--wrong wants answer, eleven, byte or word".to_string()),
    }
}

fn printer_named(word: Option<String>) -> Result<Printer, String> {
    match word.as_deref() {
        Some("share") => Ok(Printer::Share),
        Some("points") => Ok(Printer::Points),
        _ => Err("--printer wants share or points".to_string()),
    }
}

/// What a printer must write for standard input; where a read fails, it is refused as a malformed line is.
fn print(printer: Printer) -> Vec<u8> {
    let mut input = Vec::new();
    match std::io::stdin().read_to_end(&mut input) {
        Ok(_) => printer::printed(printer, &input),
        Err(_) => printer::refused(call::refusal::SIZE),
    }
}

/// What the program `trial` must write for standard input, line by line as it is worked out; where a read fails, it is refused as any other input.
fn run_load() -> ExitCode {
    let mut input = Vec::new();
    if std::io::stdin().read_to_end(&mut input).is_err() {
        input.clear();
    }
    let mut out = BufWriter::new(std::io::stdout().lock());
    let taken = load::written(&input, |line| out.write_all(line.as_bytes()).is_ok());
    match taken && out.flush().is_ok() {
        true => ExitCode::SUCCESS,
        false => ExitCode::FAILURE,
    }
}

/// Writes bytes to standard output.
fn write(bytes: &[u8]) -> ExitCode {
    match std::io::stdout().write_all(bytes) {
        Ok(()) => ExitCode::SUCCESS,
        Err(_) => ExitCode::FAILURE,
    }
}

/// The case that is run, for the message where the coder breaks off.
static CASE: AtomicU64 = AtomicU64::new(u64::MAX);

/// Says which seed and case repeat it where the coder breaks off.
fn tell_where(seed: u64) {
    let usual = std::panic::take_hook();
    std::panic::set_hook(Box::new(move |broken| {
        match CASE.load(Ordering::Relaxed) {
            u64::MAX => println!("coder: broke off in a figure (seed {seed})"),
            case => println!("coder: broke off in case {case}; repeat with --seed {seed} --only {case} --trace"),
        }
        usual(broken);
    }));
}

/// Runs one case by its own numbers. The first ones are all kinds at extreme sizes, those that follow them, and some others, all kinds at real
/// sizes, the rest one kind at drawn sizes.
fn run_case(trial: &mut Trial, case: u64) {
    let mut random = Random::of_case(trial.seed, case);
    trial.place = Place::Case(case);
    CASE.store(case, Ordering::Relaxed);
    if let Some(&sizes) = draw::EXTREMES.get(case as usize) {
        board_cases::run(trial, &mut random, sizes);
        store_cases::run(trial, &mut random, sizes);
        histories::run(trial, &mut random, sizes);
        tight::run(trial, &mut random, sizes);
        altered::run(trial, &mut random, sizes);
        edit_cases::run(trial, &mut random, sizes);
        step_cases::run(trial, &mut random, sizes);
        careful_cases::run(trial, &mut random, sizes);
        worn::run(trial, &mut random, sizes);
        move_cases::run(trial, &mut random, sizes);
        carried::run(trial, &mut random, sizes);
        text_cases::run(trial, &mut random, sizes);
        prefix_cases::first(trial, &mut random, sizes);
        stream_cases::first(trial, &mut random);
        return;
    }
    if let Some(turn) = real_cases::turn(case) {
        return real_cases::run(trial, &mut random, turn);
    }
    let sizes = draw::sizes(&mut random);
    match random.below(27) {
        0..=1 => histories::run(trial, &mut random, sizes),
        2..=9 => store_cases::run(trial, &mut random, sizes),
        10..=11 => tight::run(trial, &mut random, sizes),
        12 => {
            let sizes = altered::sizes(&mut random, sizes);
            altered::run(trial, &mut random, sizes);
        }
        13 => text_cases::run(trial, &mut random, sizes),
        14 => prefix_cases::run(trial, &mut random, sizes),
        15 => stream_cases::run(trial, &mut random),
        16 => edit_cases::run(trial, &mut random, sizes),
        17 => step_cases::run(trial, &mut random, sizes),
        18 => careful_cases::run(trial, &mut random, sizes),
        19 => worn::run(trial, &mut random, sizes),
        20 => move_cases::run(trial, &mut random, sizes),
        21 => carried::run(trial, &mut random, sizes),
        _ => board_cases::run(trial, &mut random, sizes),
    }
}

fn main() -> ExitCode {
    let options = match options() {
        Ok(options) => options,
        Err(problem) => {
            eprintln!("coder: {problem}");
            return ExitCode::from(2);
        }
    };
    if options.products {
        return write(&products::rows());
    }
    if let Some(printer) = options.printer {
        return write(&print(printer));
    }
    if let Some(most) = options.sizes {
        return write(size_list::lines(most as usize).as_bytes());
    }
    if options.run_load {
        return run_load();
    }
    if let Some(case) = options.load {
        return write(&load::drawn(&mut Random::of_case(options.seed, case)));
    }
    tell_where(options.seed);
    // a fault in the first three quarters, so that a call that fits it follows
    let at = 1 + Random::of_case(options.seed, u64::MAX).next() % (options.calls.max(4) * 3 / 4);
    let wrong = options.wrong.map(|kind| Wrong { at, kind });
    let mut trial = Trial::new(options.seed, options.calls, wrong);
    trial.trace = options.trace;
    if let Some(case) = options.only {
        run_case(&mut trial, case);
    } else if options.multiply {
        products::run(&mut trial);
    } else {
        run_all(&mut trial, &options);
    }
    finish(&trial, &options)
}

/// The figures, the products, and cases until so many calls are made, or until there is a mismatch where the first one is asked for.
fn run_all(trial: &mut Trial, options: &Options) {
    let enough = |trial: &Trial| trial.calls >= options.calls || (options.first && trial.mismatches > 0);
    figures::run(trial);
    if options.calls >= WITH_PRODUCTS && !enough(trial) {
        products::run(trial);
    }
    let mut case = 0;
    while !enough(trial) {
        if options.calls > FEW || real_cases::turn(case).is_none() {
            run_case(trial, case);
        }
        case += 1;
    }
}

/// The table, what was never met, and the last line.
fn finish(trial: &Trial, options: &Options) -> ExitCode {
    if options.verbose {
        trial.print_table();
    }
    let missing = trial.never_met();
    let incomplete = options.only.is_none() && trial.calls >= ENOUGH && !missing.is_empty();
    if incomplete {
        println!("coder: never met: {}", missing.join(", "));
    }
    println!("coder: {} calls, {} mismatches (seed {})", trial.calls, trial.mismatches, trial.seed);
    if incomplete || trial.mismatches > 0 {
        ExitCode::FAILURE
    } else {
        ExitCode::SUCCESS
    }
}
