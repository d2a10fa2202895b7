//! The coder's own model of the calls that take shares back from texts (request A.1 of document 02). What stands behind the names is read without
//! much care, in any order of the lines; then the text is written again from it by the coder's own writer, and it is taken just where that gives
//! the same bytes: "Accepted are just the texts that the share-as-text call can write".

use crate::call::refusal::{COUNT, DISAGREE, MIXED, REPEAT, SHORT, SIZE, TEXT};
use crate::call::{Call, Lent, Outcome};
use crate::code::{self, Sizes, MAX_BOARDS};
use crate::{points, prefix};
use std::collections::{BTreeMap, BTreeSet};

/// How many words a text's head has.
pub const HEAD: usize = 6;

/// What a text says.
#[derive(Clone, PartialEq, Eq)]
pub struct Told {
    pub sizes: Sizes,
    pub points: Vec<u8>,
    pub length: usize,
    pub node: usize,
    pub share: Vec<u8>,
}

impl Told {
    /// The one text that says it.
    pub fn text(&self) -> Vec<u8> {
        code::share_text(self.sizes, &self.points, self.length, self.node, &self.share)
    }

    /// What the texts of one file have alike: "sizes or length", and "MIXED covers points too".
    fn of_file(&self) -> (Sizes, &[u8], usize) {
        (self.sizes, &self.points, self.length)
    }
}

/// Two digits for each byte, in either case.
fn bytes_of(pairs: &str) -> Option<Vec<u8>> {
    let pair = |pair: &[u8]| u8::from_str_radix(std::str::from_utf8(pair).ok()?, 16).ok();
    pairs.as_bytes().chunks(2).map(pair).collect()
}

/// What a text says; none where the share-as-text call cannot write it.
pub fn read(text: &[u8]) -> Option<Told> {
    let mut values = BTreeMap::new();
    for line in std::str::from_utf8(text).ok()?.lines() {
        let (name, value) = line.split_once('=')?;
        values.insert(name, value);
    }
    let number = |name: &str| values.get(name)?.parse::<usize>().ok();
    let sizes = Sizes::new(number("n")?, number("k")?, number("d")?, number("r")?);
    let (node, length) = (number("node")?, number("length")?);
    if !sizes.legal() || node >= sizes.n || length > sizes.longest() {
        return None;
    }
    let points = match values.get("points") {
        Some(pairs) => points::filled_up(bytes_of(pairs)?.into_iter().map(usize::from)),
        None => points::standard(sizes.n),
    };
    let share = bytes_of(values.get("data")?)?;
    let fits = share.len() == sizes.stripes(length) * sizes.share_len() && points::legal(sizes, &points);
    let told = Told { sizes, points, length, node, share };
    (fits && told.text() == text).then_some(told)
}

/// The texts that stand one after another, each up to the end of its line data=; none where a piece is no text.
fn read_all(text: &[u8]) -> Option<Vec<Told>> {
    let mut pieces = Vec::new();
    let mut of_line = 0;
    for line in text.split_inclusive(|&byte| byte == b'\n') {
        of_line += line.len();
        if line.starts_with(b"data=") {
            pieces.push(of_line);
            of_line = 0;
        }
    }
    if of_line > 0 {
        pieces.push(of_line);
    }
    let mut start = 0;
    let mut piece = |length: usize| {
        start += length;
        read(&text[start - length..start])
    };
    pieces.into_iter().map(&mut piece).collect()
}

/// The sizes, the points and the length of the first of some texts; none where one of them is no text.
pub fn of_first(text: &[u8]) -> Option<(Sizes, Vec<u8>, usize)> {
    let first = read_all(text)?.into_iter().next()?;
    Some((first.sizes, first.points, first.length))
}

/// What the file of some texts is, or the refusal: "12 TEXT for any other text, before all else; 13 MIXED .. after 12 and before 4", "No text at all
/// is COUNT in the gathering".
fn gathered(text: &[u8], out: usize) -> Result<Vec<u8>, u8> {
    let texts = read_all(text).ok_or(TEXT)?;
    let first = texts.first().ok_or(COUNT)?;
    let (sizes, points, length) = first.of_file();
    let boards: Vec<usize> = texts.iter().map(|told| told.node).collect();
    if texts.iter().any(|told| told.of_file() != first.of_file()) {
        Err(MIXED)
    } else if texts.len() != sizes.k {
        Err(COUNT)
    } else if boards.iter().collect::<BTreeSet<_>>().len() < boards.len() {
        Err(REPEAT)
    } else if out < length {
        Err(SHORT)
    } else {
        let shares: Vec<u8> = texts.iter().flat_map(|told| told.share.clone()).collect();
        code::file(sizes, points, length, &boards, &shares).ok_or(DISAGREE)
    }
}

/// What a reading of a text, a gathering, or the question how far a text makes sense answers and leaves. The head is lent as the record, the points
/// to write as the area.
pub fn expect(call: &Call, lent: &Lent) -> Outcome {
    let mut after = lent.clone();
    let bytes = match call {
        Call::ReadText { text } => {
            if lent.record.len() != HEAD || lent.area.len() != MAX_BOARDS {
                return Outcome::refused(SIZE, lent);
            }
            let Some(Told { sizes, points, length, node, share }) = read(text) else {
                return Outcome::refused(TEXT, lent);
            };
            if lent.out.len() < share.len() {
                return Outcome::refused(SHORT, lent);
            }
            let Sizes { n, k, d, r } = sizes;
            after.record = [n, k, d, r, node, length].map(|number| number as u64).to_vec();
            after.area = points;
            share
        }
        Call::Gather { text } => match gathered(text, lent.out.len()) {
            Ok(file) => file,
            Err(number) => return Outcome::refused(number, lent),
        },
        Call::Prefix { text } => return Outcome::accepted(prefix::longest(text), after),
        _ => unreachable!("a call that takes no text"),
    };
    after.out[..bytes.len()].copy_from_slice(&bytes);
    Outcome::accepted(bytes.len(), after)
}
