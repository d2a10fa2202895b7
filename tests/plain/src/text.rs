//! The two calls that take shares back from texts (request A.1): one text, and k texts one after another. A text is taken apart from its beginning to
//! its end; what stands behind it is handed on.

use crate::board;
use crate::sizes::{pointed, refuse_if, repeats, Points, Refusal, Sizes, MAX_BOARDS, MAX_STRIPES};

/// The words of a head: n, k, d, r, node, length.
const HEAD: usize = 6;

/// What a text says.
struct Told {
    sizes: Sizes,
    points: Points,
    node: usize,
    length: usize,
    share: Vec<u8>,
}

/// The number of a line `name=`, and what stands behind the line. Its digits do not begin with 0, unless that is the only one.
fn number_line<'a>(text: &'a [u8], name: &str) -> Option<(usize, &'a [u8])> {
    let text = text.strip_prefix(name.as_bytes())?.strip_prefix(b"=")?;
    let (digits, behind) = text.split_at(text.iter().position(|byte| !byte.is_ascii_digit())?);
    let (&first, more) = digits.split_first()?;
    if first == b'0' && !more.is_empty() {
        return None;
    }
    let value = |so_far: usize, digit: &u8| so_far.saturating_mul(10).saturating_add(usize::from(digit - b'0'));
    Some((digits.iter().fold(0, value), behind.strip_prefix(b"\n")?))
}

/// The value of a hexadecimal digit in lower case.
pub fn digit(byte: u8) -> Option<u8> {
    match byte {
        b'0'..=b'9' => Some(byte - b'0'),
        b'a'..=b'f' => Some(byte - b'a' + 10),
        _ => None,
    }
}

/// The bytes of a line `name=` with so many pairs, and what stands behind the line.
fn pairs_line<'a>(text: &'a [u8], name: &str, count: usize) -> Option<(Vec<u8>, &'a [u8])> {
    let text = text.strip_prefix(name.as_bytes())?.strip_prefix(b"=")?;
    let (pairs, behind) = text.split_at_checked(2 * count)?;
    let bytes = pairs.chunks(2).map(|pair| Some(16 * digit(pair[0])? + digit(pair[1])?));
    Some((bytes.collect::<Option<_>>()?, behind.strip_prefix(b"\n")?))
}

/// The points of a text and what stands behind their line; without a line they are 0 to n − 1, and then there must be none.
fn points_line(text: &[u8], sizes: Sizes) -> Option<(Points, &[u8])> {
    let mut points = [0; MAX_BOARDS];
    let standard: Vec<u8> = (0..sizes.n as u8).collect();
    if !text.starts_with(b"points") {
        points[..sizes.n].copy_from_slice(&standard);
        return Some((points, text));
    }
    let (of_boards, behind) = pairs_line(text, "points", sizes.n)?;
    points[..sizes.n].copy_from_slice(&of_boards);
    let other = of_boards != standard;
    (other && pointed(sizes, &points).is_ok()).then_some((points, behind))
}

/// The text at the beginning, and what stands behind it; none where no text stands there.
fn text_at(text: &[u8]) -> Option<(Told, &[u8])> {
    let (n, text) = number_line(text, "n")?;
    let (k, text) = number_line(text, "k")?;
    let (d, text) = number_line(text, "d")?;
    let (r, text) = number_line(text, "r")?;
    let (node, text) = number_line(text, "node")?;
    let (length, text) = number_line(text, "length")?;
    let sizes = Sizes { n, k, d, r };
    if !sizes.legal() || node >= n || length > MAX_STRIPES * sizes.stripe_len() {
        return None;
    }
    let (points, text) = points_line(text, sizes)?;
    let (share, text) = pairs_line(text, "data", sizes.stripes(length) * sizes.share_len())?;
    Some((Told { sizes, points, node, length, share }, text))
}

/// One text: its head, its points and its share.
pub fn read_text(text: &[u8], head: &mut [u64], points: &mut [u8], out: &mut [u8]) -> Result<usize, Refusal> {
    refuse_if(head.len() != HEAD || points.len() != MAX_BOARDS, Refusal::Size)?;
    let (told, behind) = text_at(text).ok_or(Refusal::Text)?;
    refuse_if(!behind.is_empty(), Refusal::Text)?;
    let count = told.share.len();
    refuse_if(out.len() < count, Refusal::Short)?;
    let Sizes { n, k, d, r } = told.sizes;
    head.copy_from_slice(&[n, k, d, r, told.node, told.length].map(|number| number as u64));
    points.copy_from_slice(&told.points);
    out[..count].copy_from_slice(&told.share);
    Ok(count)
}

/// The texts that stand one after another.
fn texts(mut text: &[u8]) -> Result<Vec<Told>, Refusal> {
    let mut all: Vec<Told> = Vec::new();
    while !text.is_empty() {
        let (told, behind) = text_at(text).ok_or(Refusal::Text)?;
        all.push(told);
        text = behind;
    }
    Ok(all)
}

/// Whether two texts are of one file, as far as they say.
fn alike(one: &Told, other: &Told) -> bool {
    let numbers = |sizes: Sizes| [sizes.n, sizes.k, sizes.d, sizes.r];
    numbers(one.sizes) == numbers(other.sizes) && one.points == other.points && one.length == other.length
}

/// The file of k texts.
pub fn gather(text: &[u8], out: &mut [u8]) -> Result<usize, Refusal> {
    let all = texts(text)?;
    let Some(first) = all.first() else { return Err(Refusal::Count) };
    refuse_if(!all.iter().all(|told| alike(first, told)), Refusal::Mixed)?;
    refuse_if(all.len() != first.sizes.k, Refusal::Count)?;
    let boards: Vec<usize> = all.iter().map(|told| told.node).collect();
    refuse_if(repeats(boards.iter().copied()), Refusal::Repeat)?;
    refuse_if(out.len() < first.length, Refusal::Short)?;
    let shares: Vec<&[u8]> = all.iter().map(|told| &told.share[..]).collect();
    let file = board::decode(first.sizes, &first.points, first.length, &boards, &shares)?;
    out[..file.len()].copy_from_slice(&file);
    Ok(file.len())
}
