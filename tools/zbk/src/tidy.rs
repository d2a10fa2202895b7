//! `zbk tidy`: texts that mail, editors and other machines have changed in ways that show. What is undone alters no digit but a hexadecimal one's
//! case, and invents none: what is left without blanks and line ends is what was there. Whether the result is a text, the archive says.

use crate::args::{Takes, Words};
use crate::files::{self, shown, Target, PIPE};
use crate::folder::{board_file, Folder};
use crate::texts::{self, Text};
use crate::trouble::{count, failed, refused, say, Outcome};
use std::ffi::OsStr;
use zebrankai::Refusal;

pub const TIDY: Takes = Takes { command: "tidy", valued: &["--output", "--folder"], plain: &["--force"] };

/// The lines of a text that have a number, and those that have pairs of digits.
const NUMBERS: [&str; 6] = ["n", "k", "d", "r", "node", "length"];
const PAIRS: [&str; 2] = ["points", "data"];

/// What was undone, and how often.
#[derive(Default)]
struct Changes {
    wide: usize,
    marks: usize,
    line_ends: usize,
    blanks: usize,
    empty: usize,
    capitals: usize,
    joined: usize,
    last: usize,
}

impl Changes {
    /// In words; none where nothing was undone.
    fn words(&self) -> Option<String> {
        let counted =
            |number: usize, what: &str, done: &str| (number > 0).then(|| format!("{} {done}", count(number, what)));
        let once = |number: usize, what: &str| (number > 0).then(|| what.to_string());
        let said: Vec<String> = [
            once(self.wide, "UTF-16 made single bytes"),
            once(self.marks, "byte order mark left out"),
            counted(self.line_ends, "line end", "made a line feed"),
            counted(self.blanks, "blank", "left out"),
            counted(self.empty, "empty line", "left out"),
            counted(self.capitals, "capital", "made small"),
            counted(self.joined, "broken line", "joined"),
            once(self.last, "line feed put behind the last line"),
        ]
        .into_iter()
        .flatten()
        .collect();
        (!said.is_empty()).then(|| said.join("; "))
    }
}

/// Bytes that are tidy, and what was changed.
struct Tidied {
    bytes: Vec<u8>,
    changes: Changes,
}

const MARK: char = '\u{feff}';

fn is_blank(character: char) -> bool {
    matches!(character, ' ' | '\t' | '\u{b}' | '\u{c}' | '\u{a0}')
}

/// Whether bytes are UTF-16, by their mark or by their first letter, and then whether the lower byte is first.
fn low_first(bytes: &[u8]) -> Option<bool> {
    match bytes {
        [0xff, 0xfe, ..] | [b'n' | b'N', 0, ..] => Some(true),
        [0xfe, 0xff, ..] | [0, b'n' | b'N', ..] => Some(false),
        _ => None,
    }
}

/// The characters of bytes; bytes that are none are U+FFFD, which no text has.
fn characters(bytes: &[u8], changes: &mut Changes) -> String {
    let Some(low_first) = low_first(bytes) else { return String::from_utf8_lossy(bytes).into_owned() };
    changes.wide += 1;
    let units = bytes.chunks(2).map(|two| match *two {
        [low, high] if low_first => u16::from_le_bytes([low, high]),
        [high, low] => u16::from_be_bytes([high, low]),
        _ => 0xfffd,
    });
    char::decode_utf16(units).map(|unit| unit.unwrap_or('\u{fffd}')).collect()
}

/// Lines without what ends them: a line feed, a carriage return, or both.
fn lines(text: &str, changes: &mut Changes) -> Vec<String> {
    let both = text.matches("\r\n").count();
    changes.line_ends += text.matches('\r').count();
    let text = if both > 0 { text.replace("\r\n", "\n") } else { text.to_string() };
    let mut lines: Vec<String> = text.split(['\n', '\r']).map(str::to_string).collect();
    match lines.last() {
        Some(last) if last.is_empty() => drop(lines.pop()),
        Some(last) if last.chars().all(is_blank) => {}
        _ => changes.last += 1,
    }
    lines
}

/// A line without its blanks and marks.
fn without_blanks(line: &str, changes: &mut Changes) -> String {
    changes.blanks += line.chars().filter(|&character| is_blank(character)).count();
    line.chars().filter(|&character| !is_blank(character)).collect()
}

/// In small letters.
fn small(line: &str, changes: &mut Changes) -> String {
    changes.capitals += line.bytes().filter(u8::is_ascii_uppercase).count();
    line.to_ascii_lowercase()
}

/// A line that is tidy, and the name that it begins with. Blanks within a number stay, and are refused: they may stand for a digit.
fn tidy_line(line: &str, changes: &mut Changes) -> (Option<&'static str>, String) {
    let (name, value) = line.split_once('=').unwrap_or(("", line));
    let key = name.trim_matches(is_blank).to_ascii_lowercase();
    let known = |names: &[&'static str]| names.iter().copied().find(|name| *name == key);
    if let Some(name) = known(&PAIRS) {
        return (Some(name), small(&without_blanks(line, changes), changes));
    }
    if let Some(key) = known(&NUMBERS) {
        let number = value.trim_matches(is_blank);
        changes.blanks += line.chars().filter(|&character| is_blank(character)).count();
        changes.blanks -= number.chars().filter(|&character| is_blank(character)).count();
        return (Some(key), format!("{}={number}", small(name.trim_matches(is_blank), changes)));
    }
    (None, line.to_string())
}

/// Whether a line goes on with the digits of the line before.
fn goes_on(line: &str) -> bool {
    line.chars().all(|character| character.is_ascii_hexdigit() || is_blank(character))
}

/// What there is beside blanks, line ends and marks, in small letters: tidying leaves it as it is.
fn substance(text: &str) -> impl Iterator<Item = char> + '_ {
    text.chars()
        .filter(|&character| !is_blank(character) && !matches!(character, '\n' | '\r' | MARK))
        .map(|character| character.to_ascii_lowercase())
}

/// Bytes made tidy, whether they are texts then or not; none where something else would have to be changed.
fn made_tidy(bytes: &[u8]) -> Option<Tidied> {
    let mut changes = Changes::default();
    let text = characters(bytes, &mut changes);
    let mut tidy = String::new();
    let mut pairs = false;
    for line in lines(&text, &mut changes) {
        let unmarked = line.trim_start_matches(MARK);
        changes.marks += line.chars().count() - unmarked.chars().count();
        let unended = unmarked.trim_matches(is_blank);
        if unended.is_empty() {
            changes.blanks += unmarked.chars().count();
            changes.empty += 1;
        } else if pairs && goes_on(unended) {
            tidy.pop();
            tidy.push_str(&small(&without_blanks(unmarked, &mut changes), &mut changes));
            tidy.push('\n');
            changes.joined += 1;
        } else {
            let (name, line) = tidy_line(unmarked, &mut changes);
            pairs = name.is_some_and(|name| PAIRS.contains(&name));
            tidy.push_str(&line);
            tidy.push('\n');
        }
    }
    substance(&text).eq(substance(&tidy)).then(|| Tidied { bytes: tidy.into_bytes(), changes })
}

/// What tidying changes in bytes that are no texts, where they are texts then.
pub fn helps(bytes: &[u8]) -> Option<String> {
    let tidied = made_tidy(bytes)?;
    let texts = texts::texts_of(OsStr::new(""), &tidied.bytes, false);
    texts.iter().all(|text| text.read.is_ok()).then(|| tidied.changes.words()).flatten()
}

/// The texts that a file has when it is tidy; says what is changed. Or why they are none.
fn tidied(name: &OsStr, quiet: bool) -> Outcome<Result<Vec<Text>, String>> {
    let bytes = files::read(name, texts::MOST)?;
    let said = shown(name);
    let Some(Tidied { bytes, changes }) = made_tidy(&bytes).filter(|_| bytes.len() <= texts::MOST) else {
        return Ok(Err(format!(
            "{said}: too long, or something else than blanks and line ends would have to be changed"
        )));
    };
    let texts = texts::texts_of(name, &bytes, false);
    for text in &texts {
        if let Err(unreadable) = &text.read {
            return Ok(Err(format!("{}, as tidied: {}", text.name, unreadable.why)));
        }
    }
    if !quiet {
        say(format!("{said}: {}", changes.words().unwrap_or_else(|| "tidy already".to_string())));
    }
    Ok(Ok(texts))
}

pub fn tidy(words: &Words) -> Outcome {
    if words.rest.is_empty() {
        return Err(words.wrong("name the texts, or - for standard input"));
    }
    let (output, folder) = (words.name("--output")?, words.name("--folder")?);
    if output.is_some() && folder.is_some() {
        return Err(words.wrong("--output or --folder, not both"));
    }
    let (quiet, force) = (words.has("--quiet"), words.has("--force"));
    let target = output.filter(|output| *output != PIPE).map(|output| Target::new(output, force)).transpose()?;
    let (mut texts, mut faults) = (Vec::new(), Vec::new());
    for name in texts::names(&words.rest, quiet)? {
        match tidied(&name, quiet)? {
            Ok(more) => texts.extend(more),
            Err(fault) => faults.push(fault),
        }
    }
    if !faults.is_empty() {
        let advice = "copy it again from where it was written";
        return refused(Refusal::Text, format!("nothing is written\n  {}\n  {advice}", faults.join("\n  ")));
    }
    if let Some(folder) = folder {
        return into_folder(folder, &texts, force);
    }
    let bytes: Vec<u8> = texts.iter().flat_map(|text| text.bytes.iter().copied()).collect();
    match target {
        Some(target) => files::write_all(&[(target, bytes)]),
        None => files::print(&bytes),
    }
}

/// Writes each text under its board's name.
fn into_folder(folder: &OsStr, texts: &[Text], force: bool) -> Outcome {
    if folder == PIPE {
        return failed("--folder names a folder, not a pipe");
    }
    let readable = texts::readable(texts)?;
    texts::different(&readable)?;
    let _made = Folder::make(folder)?;
    let mut files = Vec::new();
    for (text, read) in readable {
        files.push((Target::new(&board_file(folder, read.node), force)?, text.bytes.clone()));
    }
    files::write_all(&files)
}

#[cfg(test)]
mod tests {
    use super::{helps, made_tidy, substance};
    use zebrankai::board;

    const TEXT: &str = "n=5\nk=2\nd=3\nr=2\nnode=1\nlength=12\npoints=0a02030405\ndata=080c1014040a2f\n";

    fn tidy(bytes: &[u8]) -> String {
        made_tidy(bytes).map(|tidied| String::from_utf8(tidied.bytes).unwrap()).unwrap_or_default()
    }

    /// These bytes are tidied to the text, and this is said.
    fn made(bytes: &[u8], said: &str) {
        assert_eq!(tidy(bytes), TEXT, "{}", String::from_utf8_lossy(bytes));
        assert_eq!(helps(bytes).as_deref(), Some(said));
    }

    #[test]
    fn each_change() {
        assert_eq!(tidy(TEXT.as_bytes()), TEXT);
        assert_eq!(helps(TEXT.as_bytes()), None);
        made(TEXT.replace('\n', "\r\n").as_bytes(), "8 line ends made a line feed");
        made(TEXT.replace('\n', "\r").as_bytes(), "8 line ends made a line feed");
        made(format!("\u{feff}{TEXT}").as_bytes(), "byte order mark left out");
        let wide: Vec<u8> = TEXT.encode_utf16().flat_map(u16::to_le_bytes).collect();
        made(&wide, "UTF-16 made single bytes");
        made(&[&[0xff, 0xfe], &wide[..]].concat(), "UTF-16 made single bytes; byte order mark left out");
        let high: Vec<u8> = TEXT.encode_utf16().flat_map(u16::to_be_bytes).collect();
        made(&[&[0xfe, 0xff], &high[..]].concat(), "UTF-16 made single bytes; byte order mark left out");
        made(TEXT.replace("=", " =\t").as_bytes(), "16 blanks left out");
        made(TEXT.replace('\n', "\u{a0}\n  ").as_bytes(), "24 blanks left out; 1 empty line left out");
        made(TEXT.replace('\n', "\n\n").as_bytes(), "8 empty lines left out");
        made(TEXT.to_uppercase().as_bytes(), "28 capitals made small");
        made(
            TEXT.replace("080c", "08\n0c").replace("0a02", "0a\n 02").as_bytes(),
            "1 blank left out; 2 broken lines joined",
        );
        made(TEXT.replace("080c", "08 0 c").as_bytes(), "2 blanks left out");
        made(TEXT.trim_end().as_bytes(), "line feed put behind the last line");
    }

    #[test]
    fn what_is_no_matter_of_tidiness() {
        for (old, new) in [
            ("length=12", "length=1 2"),
            ("length=12", "length=1\n2"),
            ("n=5", "n=05"),
            ("n=5\n", "n=5"),
            ("node=1", "node=l"),
            ("080c", "O80c"),
            ("080c", "08"),
            ("080c", "08-0c"),
            ("data=", "data"),
            ("k=2\n", ""),
        ] {
            assert_eq!(helps(TEXT.replace(old, new).as_bytes()), None, "{old} {new}");
        }
        assert_eq!(helps(b"\xff\xfen"), None);
        assert_eq!(helps(&[TEXT.as_bytes(), b"\xff"].concat()), None);
    }

    /// Whatever byte is put anywhere: the substance stays, and a text that comes out has the counts and the share that stand there.
    #[test]
    fn no_digit_is_altered_or_invented() {
        let due = board::read_text(TEXT.as_bytes(), &mut [0; 100]).unwrap();
        let plain: Vec<char> = substance(TEXT).collect();
        for place in 0..=TEXT.len() {
            for byte in 0..=255 {
                let bytes = [&TEXT.as_bytes()[..place], &[byte], &TEXT.as_bytes()[place..]].concat();
                let Some(tidied) = made_tidy(&bytes) else { continue };
                if board::read_text(&tidied.bytes, &mut [0; 100]).is_ok() {
                    let blank = b" \t\n\r\x0b\x0c".contains(&byte);
                    assert!(blank, "byte {byte:02X} put at {place} is left out");
                    assert_eq!(board::read_text(&tidied.bytes, &mut [0; 100]).unwrap(), due);
                    assert!(substance(&tidy(&bytes)).eq(plain.iter().copied()));
                }
            }
        }
    }
}
