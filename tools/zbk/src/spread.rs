//! `zbk spread`: a file's shares as texts, one for each board. `zbk share`: one of them. `zbk print`: what the printers write.

use crate::args::{pairs_of, Takes, Words};
use crate::files::{self, shown, Target, PIPE};
use crate::folder::{board_file, Folder, Listing};
use crate::progress::Progress;
use crate::trouble::{boards, given, refused, say, unforeseen, Outcome, Trouble};
use std::ffi::OsStr;
use std::fs;
use zebrankai::{board, Points, Refusal, Sizes, MAX_BOARDS, MAX_STRIPES};

const SIZES_AND_POINTS: &[&str] = &["--boards", "--read", "--helpers", "--fresh", "--points"];
pub const SPREAD: Takes = Takes { command: "spread", valued: SIZES_AND_POINTS, plain: &["--force"] };
pub const SHARE: Takes = Takes {
    command: "share",
    valued: &["--boards", "--read", "--helpers", "--fresh", "--points", "--board", "--output"],
    plain: &["--force"],
};
pub const PRINT: Takes = Takes { command: "print", valued: &[], plain: &["--points-line"] };

/// A file and the sizes and points to spread it by.
struct File {
    sizes: Sizes,
    points: Points,
    bytes: Vec<u8>,
}

/// Which rule sizes break.
pub fn broken_rule(sizes: Sizes) -> String {
    let [n, k, d, r] = [sizes.n, sizes.k, sizes.d, sizes.r].map(given);
    if sizes.n > MAX_BOARDS {
        format!("{n} boards are more than {MAX_BOARDS}")
    } else if sizes.k < 1 {
        "at least 1 board must be read".to_string()
    } else if sizes.r < 1 {
        "at least 1 board is fresh".to_string()
    } else if sizes.k > sizes.d {
        format!("{k} boards read are more than {d} helpers")
    } else {
        format!("{d} helpers and {r} fresh boards are more than {n} boards")
    }
}

impl File {
    /// The file that is named, by the options; refused as the calls would refuse it.
    fn load(words: &Words, name: &OsStr) -> Outcome<File> {
        let sizes = words.sizes()?;
        if !sizes.is_legal() {
            return refused(Refusal::Size, broken_rule(sizes));
        }
        let points = words.points(sizes.n)?;
        if !points.are_legal(sizes.n) {
            return refused(Refusal::Size, "a point stands twice");
        }
        let longest = sizes.longest(MAX_STRIPES);
        let bytes = files::read(name, longest)?;
        if bytes.len() > longest {
            let length = match fs::metadata(name) {
                Ok(found) if name != PIPE && found.is_file() => format!("{} bytes", found.len()),
                _ => format!("more than {longest} bytes"),
            };
            return refused(
                Refusal::Long,
                format!(
                    "{} has {length}; the longest file for these sizes has {longest}, {MAX_STRIPES} stripes of {} bytes",
                    shown(name),
                    sizes.stripe_len()
                ),
            );
        }
        Ok(File { sizes, points, bytes })
    }

    /// The text of a board's share, by the archive.
    fn text(&self, node: usize) -> Result<Vec<u8>, Refusal> {
        let File { sizes, points, bytes } = self;
        let mut share = vec![0; sizes.stripes(bytes.len()) * sizes.share_len()];
        board::share(*sizes, *points, node, bytes, &mut share)?;
        text(*sizes, *points, bytes.len(), node, &share)
    }
}

/// A share as text, by the archive.
pub fn text(sizes: Sizes, points: Points, length: usize, node: usize, share: &[u8]) -> Result<Vec<u8>, Refusal> {
    let mut text = vec![0; sizes.text_room(length)];
    let written = board::share_text(sizes, points, length, node, share, &mut text)?;
    text.truncate(written);
    Ok(text)
}

pub fn spread(words: &Words) -> Outcome {
    let [name, folder] = &words.rest[..] else { return Err(words.wrong("name a file and a folder")) };
    if folder.is_empty() {
        return Err(words.wrong("the folder's name is empty"));
    }
    let file = File::load(words, name)?;
    let Sizes { n, k, .. } = file.sizes;
    let mut targets = Vec::new();
    let _made = if folder == PIPE { None } else { Some(Folder::make(folder)?) };
    if folder != PIPE {
        for board in 0..n {
            targets.push(Target::new(&board_file(folder, board), words.has("--force"))?);
        }
    }
    let progress = Progress::new("shares worked out", n, words.has("--quiet"));
    let mut texts = Vec::new();
    for board in 0..n {
        texts.push(file.text(board).map_err(unforeseen)?);
        progress.step(1);
    }
    if folder == PIPE {
        return files::print(&texts.concat());
    }
    files::write_all(&targets.into_iter().zip(texts).collect::<Vec<_>>())?;
    others_there(folder, n)?;
    if words.has("--quiet") {
        return Ok(());
    }
    let (folder, length) = (shown(folder), file.bytes.len());
    files::report(&format!("{n} texts in {folder}; any {k} of them give the {length} bytes back\n"))
}

/// Says which texts a folder has beside those that were written: of boards that the file has not, and under other names.
fn others_there(folder: &OsStr, n: usize) -> Outcome {
    let texts = Listing::of(folder)?.texts;
    let more: Vec<usize> = texts.iter().map(|(board, _)| *board).filter(|&board| board >= n).collect();
    if !more.is_empty() {
        say(format!("{} also has texts of another file: {}", shown(folder), boards(&more)));
    }
    let named = texts.iter().filter(|(board, name)| *board < n && *name != board_file(folder, *board));
    let named: Vec<String> = named.map(|(_, name)| shown(name)).collect();
    if !named.is_empty() {
        say(format!(
            "{} also has texts under other names, which are not replaced: {}",
            shown(folder),
            named.join("; ")
        ));
    }
    Ok(())
}

pub fn share(words: &Words) -> Outcome {
    let [name] = &words.rest[..] else { return Err(words.wrong("name a file")) };
    let node = words.number("--board")?;
    let output = words.name("--output")?.filter(|output| *output != PIPE);
    let target = output.map(|output| Target::new(output, words.has("--force"))).transpose()?;
    let text = File::load(words, name).and_then(|file| match file.text(node) {
        Err(Refusal::Node) => {
            refused(Refusal::Node, format!("board {}, but there are boards 0 to {}", given(node), file.sizes.n - 1))
        }
        other => other.map_err(unforeseen),
    });
    match (text, target) {
        (Ok(text), Some(target)) => files::write_all(&[(target, text)]),
        (Ok(text), None) => files::print(&text),
        (Err(trouble), _) => answered(trouble),
    }
}

/// A refusal is answered on standard output too, as the printers do: one line `refused=` with the number.
pub fn answered(trouble: Trouble) -> Outcome {
    if let Trouble::Refused(refusal, _) = &trouble {
        files::print(format!("refused={}\n", refusal.number()).as_bytes())?;
    }
    Err(trouble)
}

/// The most bytes of a file that the printers take.
const PRINTED: usize = 16_384;

/// As many bytes of an input as can make a difference: the lines, and more than the printers take.
const INPUT: usize = 1 << 24;

pub fn print(words: &Words) -> Outcome {
    if !words.rest.is_empty() {
        return Err(words.wrong("it reads standard input, and takes no names"));
    }
    let input = files::read(OsStr::new(PIPE), INPUT)?;
    match printed(&input, words.has("--points-line")) {
        Ok(text) => files::print(&text),
        Err(Refusal::Size) => {
            let what = "a line is missing or malformed, or the sizes or points are not legal";
            answered(Trouble::Refused(Refusal::Size, what.to_string()))
        }
        Err(refusal) => answered(unforeseen(refusal)),
    }
}

/// What the share printer writes, with a line of points the points printer; a malformed line is SIZE.
fn printed(input: &[u8], with_points: bool) -> Result<Vec<u8>, Refusal> {
    let mut rest = input;
    let mut line = |name: &str| {
        let end = rest.iter().position(|&byte| byte == b'\n')?;
        let value = std::str::from_utf8(&rest[..end]).ok()?.strip_prefix(name)?;
        rest = &rest[end + 1..];
        Some(value)
    };
    let mut numbers = [0; 5];
    for (number, name) in numbers.iter_mut().zip(["n=", "k=", "d=", "r=", "node="]) {
        *number = line(name).and_then(decimal).ok_or(Refusal::Size)?;
    }
    let [n, k, d, r, node] = numbers;
    let sizes = Sizes { n, k, d, r };
    let mut points = Points::standard(n);
    if with_points {
        let pairs = line("points=").filter(|pairs| !pairs.bytes().any(|byte| byte.is_ascii_uppercase()));
        points = pairs.and_then(|pairs| pairs_of(pairs, n)).map(Points::from).ok_or(Refusal::Size)?;
    }
    if !sizes.is_legal() || !points.are_legal(n) {
        return Err(Refusal::Size);
    }
    if rest.len() > PRINTED {
        return Err(Refusal::Long);
    }
    File { sizes, points, bytes: rest.to_vec() }.text(node)
}

/// A decimal without leading zeros; one that is too great for its type is the greatest.
pub fn decimal(value: &str) -> Option<usize> {
    let digits = !value.is_empty() && value.bytes().all(|byte| byte.is_ascii_digit());
    (digits && (value == "0" || !value.starts_with('0'))).then(|| value.parse().unwrap_or(usize::MAX))
}
