//! How far a text makes sense (request A.14): the length of its longest beginning that also begins some text. It is read from its beginning, byte by
//! byte, each number in the range that those before it leave, and ends at the first byte that no text has there.

use crate::sizes::{Refusal, Sizes, MAX_BOARDS, MAX_STRIPES};
use crate::text::digit;

/// A text, of which the bytes before `at` make sense.
struct Reading<'a> {
    text: &'a [u8],
    at: usize,
}

/// Whether the digits of some number from `low` to `high` begin with those of `value`.
fn begins(value: usize, low: usize, high: usize) -> bool {
    let mut numbers = 1;
    while value * numbers <= high {
        if value * numbers + numbers > low {
            return true;
        }
        if value == 0 {
            return false;
        }
        numbers *= 10;
    }
    false
}

impl Reading<'_> {
    /// Goes on behind a byte that may stand here.
    fn past(&mut self, may: impl FnOnce(u8) -> bool) -> Option<u8> {
        let byte = *self.text.get(self.at)?;
        if !may(byte) {
            return None;
        }
        self.at += 1;
        Some(byte)
    }

    fn name(&mut self, name: &str) -> Option<()> {
        name.bytes().chain([b'=']).try_for_each(|due| self.past(|byte| byte == due).map(drop))
    }

    /// The line of a number from `low` to `high`.
    fn number(&mut self, name: &str, low: usize, high: usize) -> Option<usize> {
        self.name(name)?;
        let first = self.past(|byte| byte.is_ascii_digit() && begins(usize::from(byte - b'0'), low, high))?;
        let mut value = usize::from(first - b'0');
        loop {
            let with = |byte: u8| 10 * value + usize::from(byte - b'0');
            let byte = self.past(|byte| match byte {
                b'\n' => value >= low,
                b'0'..=b'9' => value > 0 && begins(with(byte), low, high),
                _ => false,
            })?;
            if byte == b'\n' {
                return Some(value);
            }
            value = with(byte);
        }
    }

    /// The line of so many pairs; `may` says which byte may stand behind those before it.
    fn pairs(&mut self, name: &str, count: usize, may: impl Fn(&[u8], u8) -> bool) -> Option<()> {
        self.name(name)?;
        let mut bytes = Vec::new();
        while bytes.len() < count {
            let some = |high: u8| (0..16).any(|low| may(&bytes, 16 * high + low));
            let high = digit(self.past(|byte| digit(byte).is_some_and(some))?)?;
            let low = digit(self.past(|byte| digit(byte).is_some_and(|low| may(&bytes, 16 * high + low)))?)?;
            bytes.push(16 * high + low);
        }
        self.past(|byte| byte == b'\n').map(drop)
    }

    fn text(&mut self) -> Option<()> {
        let n = self.number("n", 2, MAX_BOARDS)?;
        let k = self.number("k", 1, n - 1)?;
        let d = self.number("d", k, n - 1)?;
        let r = self.number("r", 1, n - d)?;
        self.number("node", 0, n - 1)?;
        let sizes = Sizes { n, k, d, r };
        let length = self.number("length", 0, MAX_STRIPES * sizes.stripe_len())?;
        if self.text.get(self.at) == Some(&b'p') {
            let in_order = |before: &[u8], byte: u8| before.iter().chain([&byte]).copied().eq(0..n as u8);
            self.pairs("points", n, |before, byte| !before.contains(&byte) && !in_order(before, byte))?;
        }
        self.pairs("data", sizes.stripes(length) * sizes.share_len(), |_, _| true)
    }
}

/// The length of the longest beginning that also begins some text. Nothing is refused.
pub fn prefix(text: &[u8]) -> Result<usize, Refusal> {
    let mut reading = Reading { text, at: 0 };
    // where it is a text up to some byte, what stands behind that makes no sense
    let _ = reading.text();
    Ok(reading.at)
}
