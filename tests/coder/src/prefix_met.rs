//! What was met of the question how far a text makes sense (request A.14), and what must have been.

/// What is done to a text before it is asked about.
pub const KINDS: [&str; 7] = [
    "whole",
    "cut",
    "a byte altered, sense to it",
    "a byte altered, sense beyond",
    "bytes behind",
    "another number",
    "written otherwise",
];

pub const WHOLE: usize = 0;
pub const CUT: usize = 1;
pub const ALTERED: usize = 2;
pub const BEHIND: usize = 4;
pub const NUMBER: usize = 5;
pub const OTHERWISE: usize = 6;

/// Which texts are asked about: short ones without and with a line of points, those of more than 16,384 bytes, and those of a share of more than
/// 65,535.
pub const TEXTS: [&str; 4] = ["no points=", "points=", ">16,384", ">65,535"];

/// Which of them a text is.
pub fn which(text: &[u8], share: &[u8], with_points: bool) -> usize {
    if share.len() > 65_535 {
        3
    } else if text.len() > 16_384 {
        2
    } else {
        usize::from(with_points)
    }
}

/// The lines in which sense ends; the last is behind all lines.
const LINES: [&str; 9] = ["n=", "k=", "d=", "r=", "node=", "length=", "points=", "data=", "behind"];

/// Points of n boards that are 0 to n − 2, what stands behind them, and how many bytes of that make sense: what comes to 0 to n − 1 does not, and
/// neither does a digit with which all bytes are used or do.
pub const ROWS: [(usize, &str, usize); 9] = [
    (16, "0", 0),
    (16, "1", 1),
    (17, "0", 0),
    (17, "1", 1),
    (17, "10", 1),
    (32, "0", 0),
    (32, "1", 0),
    (32, "2", 1),
    (32, "ff\n", 3),
];

#[derive(Default)]
pub struct Met {
    /// how many calls, by kinds and texts
    calls: [[u64; TEXTS.len()]; KINDS.len()],
    /// how many texts were cut, and altered, at every byte, without and with a line of points
    every: [u64; 2],
    /// in which line sense ended, of calls in which not all bytes make sense
    lines: [u64; LINES.len()],
    /// how often each of ROWS was asked
    rows: [u64; ROWS.len()],
}

/// The line in which the sense ends that these bytes make.
fn line(sense: &[u8]) -> usize {
    let lines: Vec<&[u8]> = sense.split(|&byte| byte == b'\n').collect();
    // a line of points stands before the data or not
    let without = usize::from(lines.len() > 6 && !lines[6].starts_with(b"p"));
    lines.len() - 1 + without
}

impl Met {
    /// Counts a call that was answered as it must be.
    pub fn count(&mut self, kind: usize, of: usize, text: &[u8], answer: usize) {
        self.calls[kind][of] += 1;
        if answer < text.len() {
            self.lines[line(&text[..answer])] += 1;
        }
    }

    pub fn count_every(&mut self, of: usize) {
        self.every[of] += 1;
    }

    pub fn count_row(&mut self, n: usize, behind: &str) {
        for (count, (of, digits, _)) in self.rows.iter_mut().zip(ROWS) {
            *count += u64::from((of, digits) == (n, behind));
        }
    }

    /// What must have been met, and was not.
    pub fn never(&self) -> Vec<String> {
        let mut missing = Vec::new();
        for (kind, counts) in KINDS.iter().zip(self.calls) {
            for (of, _) in TEXTS.iter().zip(counts).filter(|(_, count)| *count == 0) {
                missing.push(format!("how far a text makes sense: {kind}, {of}"));
            }
        }
        for (of, _) in TEXTS.iter().zip(self.every).filter(|(_, count)| *count == 0) {
            missing.push(format!("how far a text makes sense: cut and altered at every byte, {of}"));
        }
        for (line, _) in LINES.iter().zip(self.lines).filter(|(_, count)| *count == 0) {
            missing.push(format!("a text that makes sense up to {line}"));
        }
        for ((n, digits, _), _) in ROWS.iter().zip(self.rows).filter(|(_, count)| *count == 0) {
            missing.push(format!("points 0 to {} of {n}, and {digits:?} behind", n - 2));
        }
        missing
    }

    pub fn print(&self) {
        println!("{:30} {}  of the calls of zbk_text_prefix", "sense", TEXTS.map(|of| format!("{of:>11}")).concat());
        for (kind, counts) in KINDS.iter().zip(self.calls) {
            println!("{kind:30} {}", counts.map(|count| format!("{count:>11}")).concat());
        }
        println!("{:30} {}", "cut, altered at every byte", self.every.map(|count| format!("{count:>11}")).concat());
        println!("{:30} {}", "sense ends in", LINES.map(|line| format!("{line:>8}")).concat());
        println!("{:30} {}", "", self.lines.map(|count| format!("{count:>8}")).concat());
        let rows = ROWS.map(|(n, digits, _)| format!("{:>8}", format!("{n}: {}", digits.trim_end())));
        println!("{:30} {}", "points 0 to n-2, then", rows.concat());
        println!("{:30} {}", "", self.rows.map(|count| format!("{count:>8}")).concat());
    }
}
