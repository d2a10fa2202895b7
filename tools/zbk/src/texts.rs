//! Texts from files, pipes and folders: where each came from, and what the archive reads from it.

use crate::files::{self, Unread, PIPE};
use crate::folder::Listing;
use crate::json::Value;
use crate::place::{text_end, Fault};
use crate::sense;
use crate::tidy;
use crate::trouble::{count, refused, say, unforeseen, Outcome, Trouble};
use std::ffi::{OsStr, OsString};
use std::path::Path;
use zebrankai::{board, Points, Refusal, Sizes};

/// The most bytes that are taken from one file: 32 of the longest texts.
pub const MOST: usize = 32 * (2 * 4096 * 62 + 200);

/// A text, or what is none.
pub struct Text {
    /// where it came from
    pub name: String,
    pub bytes: Vec<u8>,
    pub read: Result<Read, Unreadable>,
}

/// What a text says.
pub struct Read {
    pub sizes: Sizes,
    pub points: Points,
    pub node: usize,
    pub length: usize,
    pub share: Vec<u8>,
}

/// Why a text is none, in words.
pub struct Unreadable {
    pub refusal: Refusal,
    pub why: String,
    /// how far it makes sense, where it has bytes
    pub sense: Option<String>,
    /// what 'zbk tidy' changes, where it makes texts of the file
    pub tidy: Option<String>,
}

impl Text {
    /// Bytes that are no text.
    fn none(name: &str, bytes: Vec<u8>, why: String) -> Text {
        let sense = sense::words(&bytes, 0);
        Text { name: name.to_string(), bytes, read: Err(Unreadable { refusal: Refusal::Text, why, sense, tidy: None }) }
    }
}

impl Unreadable {
    /// What tidying does, where it helps.
    pub fn remedy(&self) -> String {
        let tidied = |changes| format!("\n    'zbk tidy' makes it a text: {changes}");
        self.tidy.as_ref().map(tidied).unwrap_or_default()
    }
}

impl Read {
    /// What all texts of one file have alike.
    pub fn of_file(&self) -> (Sizes, Points, usize) {
        (self.sizes, self.points, self.length)
    }

    /// The same as members of an object.
    pub fn json(&self) -> [(&'static str, Value); 7] {
        let Sizes { n, k, d, r } = self.sizes;
        let points: Vec<usize> = self.points.of_boards(n).iter().map(|&point| usize::from(point)).collect();
        [
            ("n", n.into()),
            ("k", k.into()),
            ("d", d.into()),
            ("r", r.into()),
            ("points", (&points).into()),
            ("length", self.length.into()),
            ("stripes", self.sizes.stripes(self.length).into()),
        ]
    }
}

/// Reads one text by the archive, that which begins at a place and is all that is left; `fault` says why it is none.
fn read(bytes: &[u8], at: usize, fault: impl FnOnce() -> Option<String>) -> Result<Read, Unreadable> {
    let mut share = vec![0; (bytes.len() - at) / 2];
    match board::read_text(&bytes[at..], &mut share) {
        Ok(board::TextRead { sizes, points, node, length, written }) => {
            share.truncate(written);
            Ok(Read { sizes, points, node, length, share })
        }
        Err(refusal) => {
            let why = fault().unwrap_or_else(|| refusal.sentence().to_string());
            Err(Unreadable { refusal, why, sense: sense::words(bytes, at), tidy: None })
        }
    }
}

/// The texts that a file or a pipe has, one after another; the last may be none, and is then all that is left. Where it is asked for, of one that
/// is none is told whether tidying helps.
pub fn texts_of(name: &OsStr, bytes: &[u8], with_tidy: bool) -> Vec<Text> {
    let mut texts = split(name, bytes);
    if let Some(Err(unreadable)) = texts.last_mut().map(|last| last.read.as_mut()).filter(|_| with_tidy) {
        unreadable.tidy = tidy::helps(bytes);
    }
    texts
}

fn split(name: &OsStr, bytes: &[u8]) -> Vec<Text> {
    let shown = files::shown(name);
    let mut texts = Vec::new();
    let mut at = 0;
    while at < bytes.len() || texts.is_empty() {
        let end = text_end(bytes, at);
        let (upto, fault) = match &end {
            Ok(end) => (&bytes[..*end], None),
            Err(fault) => (bytes, Some(fault.words(bytes))),
        };
        let why = if bytes.is_empty() { Some("it is empty".to_string()) } else { fault };
        texts.push(Text { name: shown.to_string(), bytes: upto[at..].to_vec(), read: read(upto, at, || why) });
        match end {
            Ok(end) => at = end,
            Err(_) => break,
        }
    }
    // one text, and bytes that do not begin another: they stand behind it
    if let [_, last] = &texts[..] {
        let start = bytes.len() - last.bytes.len();
        if last.read.is_err() && !last.bytes.starts_with(b"n=") {
            let why = Fault::behind(start).words(bytes);
            return vec![Text { name: shown.to_string(), bytes: bytes.to_vec(), read: read(bytes, 0, || Some(why)) }];
        }
    }
    let all = texts.len();
    if all > 1 {
        for (place, text) in texts.iter_mut().enumerate() {
            text.name = format!("{shown}, text {}", place + 1);
        }
    }
    texts
}

/// The files that a name stands for: itself, or the texts of boards in a folder, where the others are named on standard error unless it is to be
/// quiet.
fn named(name: &OsStr, quiet: bool) -> Result<Vec<OsString>, Unread> {
    if name == PIPE || !Path::new(name).is_dir() {
        return Ok(vec![name.to_os_string()]);
    }
    let listing = Listing::of(name)?;
    if !quiet {
        listing.tell_passed(name);
    }
    if listing.texts.is_empty() {
        return Err(Unread::folder(name, "it has no texts board-0.txt and so on"));
    }
    let mut kept: Vec<(usize, OsString)> = Vec::new();
    for (board, file) in listing.texts {
        match kept.iter().find(|(other, before)| *other == board && same(before, &file)) {
            Some((_, before)) if !quiet => {
                say(format!("passed over: {} is the same as {}", files::shown(&file), files::shown(before)));
            }
            Some(_) => {}
            None => kept.push((board, file)),
        }
    }
    Ok(kept.into_iter().map(|(_, file)| file).collect())
}

/// Whether two files have the same bytes, as a copy has.
fn same(one: &OsStr, other: &OsStr) -> bool {
    let bytes = |name| files::read(name, MOST).ok().filter(|bytes| bytes.len() <= MOST);
    // a pipe could be read once only
    Path::new(one).is_file() && Path::new(other).is_file() && bytes(one).is_some_and(|one| Some(one) == bytes(other))
}

/// Sees that standard input is not to be read twice.
fn one_pipe(names: &[OsString]) -> Outcome {
    if names.iter().filter(|name| *name == PIPE).count() > 1 {
        return Err(Trouble::Usage("- stands twice; standard input is read once".to_string(), None));
    }
    Ok(())
}

/// The files that names stand for.
pub fn names(names: &[OsString], quiet: bool) -> Outcome<Vec<OsString>> {
    one_pipe(names)?;
    let mut files = Vec::new();
    for name in names {
        files.extend(named(name, quiet)?);
    }
    Ok(files)
}

/// All texts of the files that are named. One that cannot be read is the end of it, or where `all` are wanted is among them as a text that is none.
pub fn load(names: &[OsString], all: bool, quiet: bool) -> Outcome<Vec<Text>> {
    one_pipe(names)?;
    let mut texts = Vec::new();
    let mut add = |name: &OsStr, found: Result<Vec<Text>, Unread>| -> Outcome {
        match found {
            Err(unread) if all => texts.push(Text::none(&files::shown(name), Vec::new(), unread.why)),
            found => texts.extend(found?),
        }
        Ok(())
    };
    for name in names {
        match named(name, quiet) {
            Ok(files) => files.iter().try_for_each(|file| add(file, load_file(file)))?,
            Err(unread) => add(name, Err(unread))?,
        }
    }
    Ok(texts)
}

/// All texts of one file.
pub fn load_file(name: &OsStr) -> Result<Vec<Text>, Unread> {
    let bytes = files::read(name, MOST)?;
    if bytes.len() > MOST {
        return Ok(vec![Text::none(&files::shown(name), bytes, "it is longer than all texts of a file".to_string())]);
    }
    Ok(texts_of(name, &bytes, true))
}

/// Those that are texts, or the refusal that says which are none and where.
pub fn readable(texts: &[Text]) -> Outcome<Vec<(&Text, &Read)>> {
    let mut readable: Vec<(&Text, &Read)> = Vec::new();
    let mut faults = Vec::new();
    let mut again = false;
    for text in texts {
        match &text.read {
            Ok(read) => readable.push((text, read)),
            Err(unreadable) if unreadable.refusal == Refusal::Text => {
                faults.push(format!("{}: {}{}", text.name, unreadable.why, unreadable.remedy()));
                again |= unreadable.tidy.is_none();
            }
            Err(Unreadable { refusal, .. }) => return Err(unforeseen(*refusal)),
        }
    }
    if faults.is_empty() {
        return Ok(readable);
    }
    let none = if faults.len() == 1 { "one is no text".to_string() } else { format!("{} are no texts", faults.len()) };
    let mut what = format!("of {} given, {none}\n  {}", count(texts.len(), "text"), faults.join("\n  "));
    if again {
        what.push_str(
            "\n  copy such a text again, whole, from where it was written; 'zbk look' says how far it makes sense",
        );
    }
    if let Some((_, first)) = readable.first() {
        let k = first.sizes.k;
        let mut have: Vec<usize> = readable.iter().map(|(_, read)| read.node).collect();
        have.sort_unstable();
        have.dedup();
        let fit = have.len() == readable.len() && readable.iter().all(|(_, read)| read.of_file() == first.of_file());
        if fit && have.len() >= k {
            what.push_str(&format!("\n  the other {} are enough, since k = {k}", have.len()));
        }
    }
    refused(Refusal::Text, what)
}

/// Points in short form.
pub fn points_words(sizes: Sizes, points: Points) -> String {
    if points == Points::standard(sizes.n) {
        format!("0 to {}", sizes.n - 1)
    } else if points == Points::first_series(sizes.n) {
        format!("1 to {}", sizes.n)
    } else {
        points.of_boards(sizes.n).iter().map(|point| format!("{point:02x}")).collect()
    }
}

/// Texts, by the files that they say they are of; that with most texts first.
pub fn by_file<'a>(texts: &[(&'a Text, &'a Read)]) -> Vec<Vec<(&'a Text, &'a Read)>> {
    let mut groups: Vec<Vec<(&Text, &Read)>> = Vec::new();
    for &(text, read) in texts {
        match groups.iter_mut().find(|group| group[0].1.of_file() == read.of_file()) {
            Some(group) => group.push((text, read)),
            None => groups.push(vec![(text, read)]),
        }
    }
    groups.sort_by_key(|group| std::cmp::Reverse(group.len()));
    groups
}

/// What a text says of its file.
pub fn file_words(read: &Read) -> String {
    let Sizes { n, k, d, r } = read.sizes;
    format!("n={n} k={k} d={d} r={r} points {} length={}", points_words(read.sizes, read.points), read.length)
}

/// The names of texts, one after another.
pub fn names_of(texts: &[(&Text, &Read)]) -> String {
    texts.iter().map(|(text, _)| text.name.as_str()).collect::<Vec<_>>().join("; ")
}

/// Sees that all texts are of one file, as far as they say; else the refusal says which differ and in what.
pub fn alike(texts: &[(&Text, &Read)]) -> Outcome {
    let groups = by_file(texts);
    if groups.len() <= 1 {
        return Ok(());
    }
    let said: Vec<String> =
        groups.iter().map(|group| format!("{}: {}", file_words(group[0].1), names_of(group))).collect();
    refused(Refusal::Mixed, format!("the texts are of {} files\n  {}", groups.len(), said.join("\n  ")))
}

/// Sees that no two texts are of one board.
pub fn different(texts: &[(&Text, &Read)]) -> Outcome {
    for (place, (text, read)) in texts.iter().enumerate() {
        if let Some((before, other)) = texts[..place].iter().find(|(_, other)| other.node == read.node) {
            let alike =
                if other.share == read.share { "they are the same" } else { "'zbk check' says which fits the others" };
            let names = format!("{}; {}", before.name, text.name);
            return refused(Refusal::Repeat, format!("two texts are of board {}: {names}; {alike}", read.node));
        }
    }
    Ok(())
}
