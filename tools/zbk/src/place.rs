//! Where bytes stop being a text, to say it: which line and place, what was expected there and what was found. Whether they are one is the archive's
//! to say.

use zebrankai::{Sizes, MAX_BOARDS, MAX_STRIPES};

/// The place from which on some bytes are no text.
#[derive(Debug, PartialEq, Eq)]
pub struct Fault {
    /// how many bytes stand before it
    at: usize,
    expected: String,
    /// how many characters are shown of what stands there, at most
    shown: usize,
}

/// Bytes that are read from a place on.
struct Reading<'a> {
    bytes: &'a [u8],
    at: usize,
}

/// How many characters are shown of a line or a number that is another one than is expected.
const SHOWN: usize = 24;

impl<'a> Reading<'a> {
    fn fault<T>(&self, at: usize, expected: impl Into<String>) -> Result<T, Fault> {
        Err(Fault { at, expected: expected.into(), shown: SHOWN })
    }

    /// The same, for one wrong character.
    fn wrong_character<T>(&self, at: usize, expected: impl Into<String>) -> Result<T, Fault> {
        Err(Fault { at, expected: expected.into(), shown: 1 })
    }

    /// Passes by a name and its '='; `expected` is what is said where it does not stand here.
    fn name(&mut self, name: &str, expected: &str) -> Result<(), Fault> {
        let due = name.bytes().chain([b'=']);
        let alike = due.clone().zip(&self.bytes[self.at..]).take_while(|(due, byte)| due == *byte).count();
        if alike < due.count() {
            return self.fault(self.at + alike, expected);
        }
        self.at += alike;
        Ok(())
    }

    fn line_end(&mut self, expected: &str) -> Result<(), Fault> {
        if self.bytes.get(self.at) != Some(&b'\n') {
            return self.wrong_character(self.at, expected);
        }
        self.at += 1;
        Ok(())
    }

    /// The number of a line, which is from `low` to `high`; `why` says of which rule that is.
    fn number(&mut self, name: &str, low: usize, high: usize, why: &str) -> Result<usize, Fault> {
        self.name(name, &format!("the line {name}="))?;
        let start = self.at;
        let digits = self.bytes[start..].iter().take_while(|byte| byte.is_ascii_digit()).count();
        if digits == 0 {
            return self.wrong_character(start, "a digit");
        }
        if digits > 1 && self.bytes[start] == b'0' {
            return self.fault(start, "a number without leading zeros");
        }
        let value = |so_far: usize, byte: &u8| so_far.saturating_mul(10).saturating_add(usize::from(byte - b'0'));
        let written = &self.bytes[start..start + digits];
        let number = written.iter().fold(0, value);
        let range = format!("{name} from {low} to {high} ({why})");
        // a number that is too small may begin another one
        let begins = |other: usize| other.to_string().as_bytes().starts_with(written);
        if number > high || (number < low && !(low..=high).any(begins)) {
            return self.fault(start, range);
        }
        self.at += digits;
        self.line_end("a digit or the end of the line")?;
        if number < low {
            return self.fault(start, range);
        }
        Ok(number)
    }

    /// How many hexadecimal digits stand here, at most so many.
    fn digits(&self, most: usize) -> usize {
        let digit = |byte: &&u8| matches!(byte, b'0'..=b'9' | b'a'..=b'f');
        self.bytes[self.at..].iter().take(most).take_while(digit).count()
    }

    /// So many pairs and the end of the line.
    fn pairs(&mut self, count: usize, what: &str) -> Result<(), Fault> {
        let digits = self.digits(2 * count);
        if digits < 2 * count {
            let at = self.at + digits;
            return match self.bytes.get(at) {
                None | Some(b'\n') => self.fault(at, format!("{what}, {} digits, not {digits}", 2 * count)),
                _ => self.wrong_character(at, "a digit 0 to 9 or a to f"),
            };
        }
        self.at += digits;
        self.line_end(&format!("the end of the line behind {what}"))
    }

    /// The line with the points, where one is due or stands here.
    fn points(&mut self, n: usize) -> Result<(), Fault> {
        let line = self.at;
        if self.bytes.get(line) == Some(&b'd') {
            return Ok(());
        }
        self.name("points", "the line points= or data=")?;
        // the last may be one digit, with which sixteen points begin
        let start = self.at;
        let mut before: Vec<usize> = Vec::new();
        for (board, written) in self.bytes[start..start + self.digits(2 * n)].chunks(2).enumerate() {
            let digit = |byte: u8| char::from(byte).to_digit(16).unwrap_or(0) as usize;
            let (first, count) = match *written {
                [high, low] => (16 * digit(high) + digit(low), 1),
                _ => (16 * digit(written[0]), 16),
            };
            let in_order = board + 1 == n && before.iter().copied().eq(0..board);
            if in_order && count == 1 && first == board {
                return self.fault(line, "no line points=, since the points are 0 to n - 1 in order");
            }
            if (first..first + count).all(|point| before.contains(&point) || (in_order && point == board)) {
                return self.fault(start + 2 * board, "a point that no board before has");
            }
            before.push(first);
        }
        self.pairs(n, &format!("{n} pairs, one for each board"))
    }

    fn text(&mut self) -> Result<(), Fault> {
        let n = self.number("n", 2, MAX_BOARDS, "2 to 32 boards")?;
        let k = self.number("k", 1, n - 1, "1 <= k <= d < n")?;
        let d = self.number("d", k, n - 1, "k <= d < n")?;
        let r = self.number("r", 1, n - d, "1 <= r, d + r <= n")?;
        self.number("node", 0, n - 1, "a board below n")?;
        let sizes = Sizes { n, k, d, r };
        let length = self.number("length", 0, sizes.longest(MAX_STRIPES), "4096 stripes at most")?;
        self.points(n)?;
        self.name("data", "the line data=")?;
        let count = sizes.stripes(length) * sizes.share_len();
        self.pairs(count, &format!("{count} pairs of the share"))
    }
}

/// Where the text that begins at a place ends, or from where on it is none.
pub fn text_end(bytes: &[u8], at: usize) -> Result<usize, Fault> {
    let mut reading = Reading { bytes, at };
    reading.text().map(|()| reading.at)
}

impl Fault {
    /// Behind a text, where nothing may stand.
    pub fn behind(at: usize) -> Fault {
        Fault { at, expected: "the end of the text".to_string(), shown: SHOWN }
    }

    /// The line and the place in it, both from 1, what was expected and what stands there.
    pub fn words(&self, bytes: &[u8]) -> String {
        let before = &bytes[..self.at];
        let line = 1 + before.iter().filter(|&&byte| byte == b'\n').count();
        let place = 1 + before.iter().rev().take_while(|&&byte| byte != b'\n').count();
        format!(
            "line {line}, place {place}: expected {}, found {}",
            self.expected,
            found(&bytes[self.at..], self.shown)
        )
    }
}

/// What stands at a place, in words.
fn found(rest: &[u8], most: usize) -> String {
    let plain = |byte: &u8| byte.is_ascii_graphic() || *byte == b' ';
    match rest {
        [] => "the end of the text".to_string(),
        [b'\n', ..] => "the end of the line".to_string(),
        [b'\r', ..] => "a carriage return (byte 0D)".to_string(),
        [byte, ..] if plain(byte) => {
            let line: Vec<u8> = rest.iter().copied().take_while(plain).collect();
            let cut = if most > 1 && line.len() > most { ".." } else { "" };
            format!("'{}'{cut}", String::from_utf8_lossy(&line[..line.len().min(most)]))
        }
        [byte, ..] => format!("byte {byte:02X}"),
    }
}

#[cfg(test)]
mod tests {
    use super::text_end;
    use zebrankai::board;

    /// Whether some bytes are one text is found as the archive finds it. The place that is told is not behind that up to which they make sense, and
    /// is their end just where all of them do.
    fn as_the_archive(bytes: &[u8]) {
        let read = board::read_text(bytes, &mut vec![0; bytes.len()]).is_ok();
        let found = text_end(bytes, 0).map(|end| end == bytes.len());
        assert_eq!(found == Ok(true), read, "{:?}: {found:?}", String::from_utf8_lossy(bytes));
        let sense = board::text_prefix(bytes);
        let told = match text_end(bytes, 0) {
            Ok(end) => end == sense,
            Err(fault) => fault.at <= sense && (fault.at == bytes.len()) == (sense == bytes.len()),
        };
        assert!(told, "{:?}: {found:?}, and sense up to {sense}", String::from_utf8_lossy(bytes));
    }

    const TEXTS: [&str; 4] = [
        "n=2\nk=1\nd=1\nr=1\nnode=0\nlength=2\ndata=0506\n",
        "n=12\nk=1\nd=2\nr=10\nnode=11\nlength=0\ndata=\n",
        "n=5\nk=2\nd=3\nr=2\nnode=1\nlength=12\npoints=0102030405\ndata=080c1014040a20\n",
        "n=3\nk=1\nd=2\nr=1\nnode=2\nlength=9\npoints=fe00ba\ndata=0123456789ab0123456789ab\n",
    ];

    #[test]
    fn a_text_cut_or_altered_in_a_byte() {
        for text in TEXTS {
            for place in 0..text.len() {
                as_the_archive(&text.as_bytes()[..place]);
                for byte in 0..=255 {
                    let mut altered = text.as_bytes().to_vec();
                    altered[place] = byte;
                    as_the_archive(&altered);
                }
            }
            as_the_archive(text.as_bytes());
        }
    }

    #[test]
    fn a_text_with_bytes_put_in_or_left_out() {
        for text in TEXTS {
            for place in 0..=text.len() {
                for byte in *b"0123456789af\n\r =nkdrx" {
                    let (before, behind) = text.as_bytes().split_at(place);
                    as_the_archive(&[before, &[byte], behind].concat());
                    as_the_archive(&[before, behind.get(1..).unwrap_or_default()].concat());
                    as_the_archive(&[before, &[byte, byte], behind].concat());
                }
            }
        }
    }

    #[test]
    fn points_that_are_almost_in_order() {
        for n in [2, 3, 15, 16, 17, 32] {
            let points: String = (0..n - 1).map(|point| format!("{point:02x}")).collect();
            let text = format!("n={n}\nk=1\nd=1\nr=1\nnode=0\nlength=0\npoints={points}");
            for high in "0123456789abcdefgA\n".chars() {
                as_the_archive(format!("{text}{high}").as_bytes());
                for low in "0123456789abcdefgA\n".chars() {
                    as_the_archive(format!("{text}{high}{low}").as_bytes());
                    as_the_archive(format!("{text}{high}{low}\ndata=\n").as_bytes());
                }
            }
        }
    }

    #[test]
    fn every_number_in_every_line() {
        for text in TEXTS {
            let lines: Vec<&str> = text.lines().collect();
            for (line, old) in lines.iter().enumerate().take(6) {
                let name = old.split('=').next().unwrap();
                for number in (0..70).chain([4095, 4096, 4097, 8192, 8193, 20480, 49152, 49153, 1u64 << 32]) {
                    let new = format!("{name}={number}");
                    let all = lines.iter().enumerate().map(|(place, old)| if place == line { &new } else { *old });
                    as_the_archive((all.collect::<Vec<_>>().join("\n") + "\n").as_bytes());
                }
            }
        }
    }
}
