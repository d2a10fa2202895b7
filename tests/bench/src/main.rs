//! The bench: encode (a write to all boards), read (of k boards), repair r (of r boards together), repair 1 (of one board, with r − 1 stand-ins), one
//! share (the call of a single board), edit 4 (four bytes of the file, one pack count), rewrite (the same without an edit, by a read and a write), careful
//! (a careful read, of k + 2 boards), one worn (the same with a byte of one of them altered) and move (of one board to another point) through the archive,
//! beside two coders in plain Rust; how many times a read's time careful reads take, and how many times that of a repair of one board a move takes; the bytes that repairs move, those of r boards against the cut-set bound; what part of a
//! whole write, and of a read and a write, an edit takes; and how many times a whole repair's time the same repair takes a packet at a time, and in one
//! step (request A.8), through the archive and by the plain coder.
//!
//!     bench [--quick]
//!
//! - `plain` (`tests/plain`) is the baseline of request A.7: a straightforward coder with the same tables of 255 powers and 256 logarithms.
//! - `kernels` (`tests/plain_kernels`) is the algorithm of the archive's kernels with products by these tables: beside plain it shows what the
//!   algorithm gives, and the archive beside it what the rows of multiples give.
//!
//! The three take turns, so that a slower minute of the machine falls on all; the best time of all turns counts. They work on buffers of the same
//! size, filled alike before every operation of every turn and outside of the time. What they leave is compared after every turn. Times are in ns
//! for a stripe, speeds in MB of file bytes for a second (1 MB = 1,000,000 bytes), and a ratio is a coder's time over another's: below 1 is
//! faster.
//!
//! The exit code is 1 where coders leave different bytes, or where at the size that A.7 asks for, the first, encode or read takes the archive
//! more than twice plain's time, or a move more than twice that of a repair of one board; 2 where the arguments are wrong. `--quick` measures a fifth as long.

mod coders;
mod turns;

use std::fs;
use std::process::ExitCode;
use std::thread;
use std::time::Duration;
use turns::{
    measure, Best, Measured, Work, CAREFUL, EDIT, EDITED, MOVE, OPERATIONS, READ, REPAIR, REPAIR_ONE, REWRITE, WRITE,
};
use zebrankai::Sizes;

const TWELVE: Sizes = Sizes { n: 12, k: 6, d: 8, r: 2 };
const FIVE: Sizes = Sizes { n: 5, k: 2, d: 3, r: 2 };
const EIGHT: Sizes = Sizes { n: 8, k: 4, d: 6, r: 2 };
const SIXTEEN: Sizes = Sizes { n: 16, k: 8, d: 12, r: 4 };
const THIRTY_TWO: Sizes = Sizes { n: 32, k: 16, d: 24, r: 8 };

/// What is measured, each with the length of its file: the size that A.7 asks for first; then other sizes; then files of 1, 5 and 20 whole
/// stripes; then a file that leaves its last stripe all but empty.
const RUNS: [(Sizes, usize); 15] = [
    (TWELVE, 32_768),
    (FIVE, 32_768),
    (EIGHT, 32_768),
    (SIXTEEN, 32_768),
    (THIRTY_TWO, 163_840),
    (TWELVE, 72),
    (TWELVE, 5 * 72),
    (TWELVE, 20 * 72),
    (FIVE, 12),
    (FIVE, 5 * 12),
    (FIVE, 20 * 12),
    (THIRTY_TWO, 640),
    (THIRTY_TWO, 5 * 640),
    (THIRTY_TWO, 20 * 640),
    (EIGHT, 1_001),
];

/// How many times plain's time encode and read may take at the size that A.7 asks for.
const MOST: f64 = 2.0;

/// How many times the time of a repair of one board a move may take there.
const MOST_OF_REPAIR: f64 = 2.0;

/// How long each run takes; the first one twice as long.
const TIME: Duration = Duration::from_secs(4);

fn main() -> ExitCode {
    let words: Vec<String> = std::env::args().skip(1).collect();
    let words: Vec<&str> = words.iter().map(String::as_str).collect();
    let time = match words[..] {
        [] => TIME,
        ["--quick"] => TIME / 5,
        _ => {
            eprintln!("usage: bench [--quick]");
            return ExitCode::from(2);
        }
    };
    println!("{}", machine());
    println!(
        "ns for a stripe; MB of the file for a second; of plain, of kernels: time over theirs, below 1 is faster."
    );
    println!("The coders take turns; the best time of each counts.");
    let mut failures = Vec::new();
    for (place, (sizes, length)) in RUNS.into_iter().enumerate() {
        let work = Work::new(sizes, length);
        let measured = measure(&work, if place == 0 { 2 * time } else { time });
        print(&work, &measured);
        if !measured.alike {
            failures.push(format!("{}: the coders leave different bytes, or wrong ones", title(&work)));
        }
        if place == 0 {
            failures.extend(too_slow(&work, &measured));
        }
    }
    println!();
    for failure in &failures {
        println!("FAIL {failure}");
    }
    if !failures.is_empty() {
        return ExitCode::FAILURE;
    }
    println!(
        "All bytes are alike; at the first size encode and read take at most {MOST:.1} times plain's time, and a move at most \
         {MOST_OF_REPAIR:.1} times that of a repair of one board."
    );
    ExitCode::SUCCESS
}

/// The machine, as far as it says what it is.
fn machine() -> String {
    let cores = thread::available_parallelism().map_or(1, usize::from);
    let about = fs::read_to_string("/proc/cpuinfo").unwrap_or_default();
    let model = about.lines().find_map(|line| line.strip_prefix("model name")?.split_once(':'));
    format!("{}, {cores} cores", model.map_or("a machine of no known model", |(_, name)| name.trim()))
}

fn title(work: &Work) -> String {
    let Sizes { n, k, d, r } = work.sizes;
    let stripes = if work.stripes == 1 { "stripe" } else { "stripes" };
    format!("n={n} k={k} d={d} r={r}, {} bytes ({} {stripes})", work.file.len(), work.stripes)
}

/// Encode and read, where they take the archive more of plain's time than is allowed, and a move where it takes more of a repair's.
fn too_slow(work: &Work, measured: &Measured) -> Vec<String> {
    let [archive, plain, _] = &measured.best;
    let ratio = |operation: usize| archive[operation].as_secs_f64() / plain[operation].as_secs_f64();
    let told = |operation: usize| {
        let name = OPERATIONS[operation];
        format!("{}: {name} takes {:.2} times plain's time; {MOST:.1} times is allowed", title(work), ratio(operation))
    };
    let mut slow: Vec<String> = (0..2).filter(|&operation| ratio(operation) > MOST).map(told).collect();
    let of_repair = of(archive, MOVE, REPAIR_ONE);
    if of_repair > MOST_OF_REPAIR {
        slow.push(format!(
            "{}: a move takes {of_repair:.2} times a repair of one board; {MOST_OF_REPAIR:.1} times is allowed",
            title(work)
        ));
    }
    slow
}

/// How many times the time of another operation one takes.
fn of(best: &Best, operation: usize, other: usize) -> f64 {
    best[operation].as_secs_f64() / best[other].as_secs_f64()
}

/// One run as a table.
fn print(work: &Work, measured: &Measured) {
    println!();
    println!("{}, {} turns", title(work), measured.turns);
    println!(
        "{:9} {:>10} {:>7} {:>8} {:>10}   {:>8} {:>7}   {:>10} {:>7} {:>8}",
        "", "archive ns", "MB/s", "of plain", "of kernels", "plain ns", "MB/s", "kernels ns", "MB/s", "of plain"
    );
    for (operation, name) in OPERATIONS.iter().enumerate() {
        let seconds = [0, 1, 2].map(|coder| measured.best[coder][operation].as_secs_f64());
        let [archive, plain, kernels] = seconds;
        let ns = seconds.map(|seconds| seconds * 1e9 / work.stripes as f64);
        let speed = seconds.map(|seconds| work.file.len() as f64 / 1e6 / seconds);
        println!(
            "{name:9} {:>10.0} {:>7.1} {:>8.2} {:>10.2}   {:>8.0} {:>7.1}   {:>10.0} {:>7.1} {:>8.2}",
            ns[0],
            speed[0],
            archive / plain,
            archive / kernels,
            ns[1],
            speed[1],
            ns[2],
            speed[2],
            kernels / plain
        );
    }
    print_moved(work.sizes, work.file.len(), measured);
    print_edit(measured);
    print_careful(measured);
    print_move(measured);
    print_steps(work.sizes, measured);
}

/// The times of a stepped repair beside that of the whole one: of the archive, and of the plain coder.
fn print_steps(sizes: Sizes, measured: &Measured) {
    let Sizes { d, r, .. } = sizes;
    let [archive, plain] = [0, 1].map(|coder| {
        let whole = measured.best[coder][REPAIR].as_secs_f64();
        measured.stepped[coder].map(|time| time.as_secs_f64() / whole)
    });
    let [one, all] = measured.stepped[0].map(|time| 1e6 * time.as_secs_f64());
    println!(
        "stepped   {} packets: one at a time {one:.1} us, {:.2} of the whole repair; in one step {all:.1} us, {:.2} (plain {:.2}, {:.2})",
        r * (d + r - 1),
        archive[0],
        archive[1],
        plain[0],
        plain[1]
    );
}

/// The time of the archive's edit beside those of a whole write, and of a read and a write.
fn print_edit(measured: &Measured) {
    let [edit, write, rewrite] = [EDIT, WRITE, REWRITE].map(|operation| measured.best[0][operation].as_secs_f64());
    println!(
        "edit      {EDITED} bytes in {:.1} us; {:.2} of a whole write, {:.2} of a read and a write",
        1e6 * edit,
        edit / write,
        edit / rewrite
    );
}

/// The times of careful reads beside that of a read: of the archive, of the plain coder and of the kernels' algorithm.
fn print_careful(measured: &Measured) {
    let of_read = |coder: usize, operation: usize| {
        measured.best[coder][operation].as_secs_f64() / measured.best[coder][READ].as_secs_f64()
    };
    let [sound, worn] = CAREFUL.map(|operation| [0, 1, 2].map(|coder| of_read(coder, operation)));
    println!(
        "careful   {:.2} times a read, {:.2} times with one board worn (plain {:.2}, {:.2}; kernels {:.2}, {:.2})",
        sound[0], worn[0], sound[1], worn[1], sound[2], worn[2]
    );
}

/// The time of a move beside that of a repair of one board: of the archive, of the plain coder and of the kernels' algorithm.
fn print_move(measured: &Measured) {
    let [archive, plain, kernels] = [0, 1, 2].map(|coder| of(&measured.best[coder], MOVE, REPAIR_ONE));
    println!("move      {archive:.2} times a repair of one board (plain {plain:.2}; kernels {kernels:.2})");
}

/// The bytes moved beside the cut-set bound at the minimum bandwidth point: each fresh board needs at least (2d + r − 1) L / (k(2d + r − k))
/// bytes for a file of L bytes.
fn print_moved(sizes: Sizes, length: usize, measured: &Measured) {
    let Sizes { k, d, r, .. } = sizes;
    let Measured { moved, moved_one, .. } = *measured;
    let bound = (r * (2 * d + r - 1) * length) as f64 / (k * (2 * d + r - k)) as f64;
    let whole = r * length;
    println!(
        "moved     {moved} bytes for {r} boards; cut-set bound {bound:.0}, {:.3} of it; {:.0} % of fetching the file {r} times",
        moved as f64 / bound,
        100.0 * moved as f64 / whole as f64
    );
    println!(
        "          {moved_one} bytes for one board; {:.0} % of fetching the file",
        100.0 * moved_one as f64 / length as f64
    );
}
