//! What the printers must write for an input, by the coder's own code: the share printer of document 01, and the points printer of request A.9, which
//! "always takes that line after node=". `tests/points_printer.sh` holds the program to it.

use crate::call::refusal::{LONG, NODE, SIZE};
use crate::code::{self, Sizes};
use crate::points;

/// Which printer.
#[derive(Clone, Copy, PartialEq, Eq)]
pub enum Printer {
    Share,
    Points,
}

/// "more than 16,384 file bytes give 3".
const MOST: usize = 16_384;

/// All that the printer writes.
pub fn printed(printer: Printer, input: &[u8]) -> Vec<u8> {
    text(printer, input).unwrap_or_else(refused)
}

/// "one line `refused=` with the number".
pub fn refused(number: u8) -> Vec<u8> {
    format!("refused={number}\n").into_bytes()
}

/// The text of the share, or the number of the refusal: "a malformed line gives 1".
fn text(printer: Printer, input: &[u8]) -> Result<Vec<u8>, u8> {
    let names: &[&str] = match printer {
        Printer::Share => &["n=", "k=", "d=", "r=", "node="],
        Printer::Points => &["n=", "k=", "d=", "r=", "node=", "points="],
    };
    // what stands behind the names, and behind the lines the file
    let mut values = Vec::new();
    let mut file = input;
    for name in names {
        let end = file.iter().position(|&byte| byte == b'\n').ok_or(SIZE)?;
        values.push(file[..end].strip_prefix(name.as_bytes()).ok_or(SIZE)?);
        file = &file[end + 1..];
    }
    let numbers: Vec<usize> = values[..5].iter().map(|value| decimal(value)).collect::<Option<_>>().ok_or(SIZE)?;
    let sizes = Sizes::new(numbers[0], numbers[1], numbers[2], numbers[3]);
    let node = numbers[4];
    if !sizes.legal() {
        return Err(SIZE);
    }
    let points = match printer {
        Printer::Share => points::standard(sizes.n),
        Printer::Points => of_pairs(values[5], sizes.n).ok_or(SIZE)?,
    };
    if !points::legal(sizes, &points) {
        return Err(SIZE);
    }
    if file.len() > MOST || file.len() > sizes.longest() {
        return Err(LONG);
    }
    if node >= sizes.n {
        return Err(NODE);
    }
    let share = code::share(sizes, &points, node, file);
    Ok(code::share_text(sizes, &points, file.len(), node, &share))
}

/// "decimals with no leading zero"; one that is too great for its type is the greatest.
fn decimal(value: &[u8]) -> Option<usize> {
    let digits = std::str::from_utf8(value).ok()?;
    let all_digits = !digits.is_empty() && digits.bytes().all(|byte| byte.is_ascii_digit());
    let leading_zero = digits.len() > 1 && digits.starts_with('0');
    (all_digits && !leading_zero).then(|| digits.parse().unwrap_or(usize::MAX))
}

/// "n lower-case pairs", filled up with 00.
fn of_pairs(value: &[u8], n: usize) -> Option<Vec<u8>> {
    let byte = |pair: &[u8]| (0..256).find(|&byte| code::pairs(&[byte as u8]).as_bytes() == pair);
    let bytes: Vec<usize> = value.chunks(2).map(byte).collect::<Option<_>>()?;
    (bytes.len() == n).then(|| points::filled_up(bytes))
}
