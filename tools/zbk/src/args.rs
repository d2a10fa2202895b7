//! The words of the command line: options with values, options without, and the rest.

use crate::files::shown;
use crate::help;
use crate::trouble::{Outcome, Trouble};
use std::ffi::{OsStr, OsString};
use std::os::unix::ffi::OsStrExt;
use zebrankai::{Points, Sizes, MAX_BOARDS};

/// What a command takes: its name, its options with a value and those without. `--help` and `--quiet` are every command's.
pub struct Takes {
    pub command: &'static str,
    pub valued: &'static [&'static str],
    pub plain: &'static [&'static str],
}

/// The words of one command. Names of files may be any bytes.
pub struct Words {
    pub command: &'static str,
    values: Vec<(&'static str, OsString)>,
    without: Vec<&'static str>,
    pub rest: Vec<OsString>,
}

/// Short names of options.
pub const SHORT: [(&str, &str); 9] = [
    ("-n", "--boards"),
    ("-k", "--read"),
    ("-d", "--helpers"),
    ("-r", "--fresh"),
    ("-o", "--output"),
    ("-f", "--force"),
    ("-q", "--quiet"),
    ("-h", "--help"),
    ("-p", "--points"),
];

/// The long name of an option, and the value that is joined to it: --boards=8, -n8.
fn name_and_value(word: &OsStr) -> (String, Option<OsString>) {
    let long = |name: &[u8]| SHORT.iter().find(|(short, _)| short.as_bytes() == name).map(|(_, long)| long.to_string());
    let bytes = word.as_bytes();
    let joined = |from: usize| Some(OsStr::from_bytes(&bytes[from..]).to_os_string());
    let equals = bytes.iter().position(|&byte| byte == b'=').filter(|_| bytes.starts_with(b"--"));
    match (equals, bytes.get(..2).and_then(long)) {
        (Some(at), _) => (String::from_utf8_lossy(&bytes[..at]).into_owned(), joined(at + 1)),
        (None, Some(name)) if bytes.len() > 2 => (name, joined(2)),
        (None, Some(name)) => (name, None),
        (None, None) => (word.to_string_lossy().into_owned(), None),
    }
}

impl Words {
    /// Reads the words behind a command's name; none where it was asked for help, which is then printed.
    pub fn read(takes: &Takes, words: &[OsString]) -> Outcome<Option<Words>> {
        let command = takes.command;
        let mut read = Words { command, values: Vec::new(), without: Vec::new(), rest: Vec::new() };
        let mut words = words.iter();
        while let Some(word) = words.next() {
            if word == "--" {
                read.rest.extend(words.by_ref().cloned());
            } else if !is_option(word) {
                read.rest.push(word.clone());
            } else {
                let (name, joined) = name_and_value(word);
                if let Some(&option) = takes.valued.iter().find(|option| **option == name) {
                    let value = joined.or_else(|| words.next().filter(|word| !is_option(word)).cloned());
                    let value = value.filter(|value| !value.is_empty());
                    let value = value.ok_or_else(|| read.wrong(format!("{option} wants a value")))?;
                    read.values.push((option, value));
                } else if joined.is_some() {
                    return Err(read.wrong(format!("no option {name} with a value")));
                } else if name == "--help" {
                    help::print(Some(command))?;
                    return Ok(None);
                } else if let Some(&option) =
                    [&["--quiet"], takes.plain].concat().iter().find(|option| **option == name)
                {
                    read.without.push(option);
                } else {
                    return Err(read.wrong(format!("no option {}", shown(word))));
                }
            }
        }
        Ok(Some(read))
    }

    /// The command line makes no sense.
    pub fn wrong(&self, what: impl Into<String>) -> Trouble {
        Trouble::Usage(format!("{}: {}", self.command, what.into()), Some(self.command))
    }

    pub fn has(&self, option: &str) -> bool {
        self.without.contains(&option)
    }

    /// A word that is no name of a file.
    pub fn plain<'a>(&self, word: &'a OsStr) -> Outcome<&'a str> {
        word.to_str().ok_or_else(|| self.wrong(format!("{}: not in UTF-8, and no name of a file", shown(word))))
    }

    /// Whether an option with a value is given.
    pub fn given(&self, option: &str) -> bool {
        self.values.iter().any(|(name, _)| *name == option)
    }

    /// All values of an option that are no names of files, in the order given.
    pub fn all(&self, option: &str) -> Outcome<Vec<&str>> {
        self.values.iter().filter(|(name, _)| *name == option).map(|(_, value)| self.plain(value)).collect()
    }

    /// The value of an option that may be given once, and is no name of a file.
    pub fn value(&self, option: &str) -> Outcome<Option<&str>> {
        self.name(option)?.map(|value| self.plain(value)).transpose()
    }

    /// The name of a file that an option has, which may be given once.
    pub fn name(&self, option: &str) -> Outcome<Option<&OsStr>> {
        let values: Vec<&OsStr> =
            self.values.iter().filter(|(name, _)| *name == option).map(|(_, value)| value.as_os_str()).collect();
        match values[..] {
            [] => Ok(None),
            [value] => Ok(Some(value)),
            _ => Err(self.wrong(format!("{option} is given twice"))),
        }
    }

    /// The number that an option must have.
    pub fn number(&self, option: &str) -> Outcome<usize> {
        let value = self.value(option)?.ok_or_else(|| self.wrong(format!("{option} is missing")))?;
        self.number_of(option, value)
    }

    /// The number that an option has; another one where it is not given.
    pub fn number_or(&self, option: &str, otherwise: usize) -> Outcome<usize> {
        self.value(option)?.map_or(Ok(otherwise), |value| self.number_of(option, value))
    }

    /// One that is too great for its type is the greatest.
    pub fn number_of(&self, option: &str, value: &str) -> Outcome<usize> {
        if value.is_empty() || !value.bytes().all(|byte| byte.is_ascii_digit()) {
            return Err(self.wrong(format!("{option} {value}: not a number")));
        }
        Ok(value.parse().unwrap_or(usize::MAX))
    }

    /// A list of numbers with commas between.
    pub fn list(&self, option: &str, value: &str) -> Outcome<Vec<usize>> {
        value.split(',').map(|word| self.number_of(option, word.trim())).collect()
    }

    /// The sizes, of four options; legal or not.
    pub fn sizes(&self) -> Outcome<Sizes> {
        Ok(Sizes {
            n: self.number("--boards")?,
            k: self.number("--read")?,
            d: self.number("--helpers")?,
            r: self.number("--fresh")?,
        })
    }

    /// The points for n boards: standard, first-series, or n pairs of hexadecimal digits; legal or not.
    pub fn points(&self, n: usize) -> Outcome<Points> {
        match self.value("--points")? {
            None | Some("standard") => Ok(Points::standard(n)),
            Some("first-series") => Ok(Points::first_series(n)),
            Some(pairs) => pairs_of(pairs, n).map(Points::from).ok_or_else(|| {
                let due = format!("standard, first-series, or a pair of hexadecimal digits for each of the {n} boards");
                self.wrong(format!("--points {pairs}: give {due}"))
            }),
        }
    }
}

/// Whether a word is an option; - is a pipe.
fn is_option(word: &OsStr) -> bool {
    word.as_bytes().starts_with(b"-") && word != "-"
}

/// The bytes of n pairs, 00 behind them.
pub fn pairs_of(pairs: &str, n: usize) -> Option<[u8; MAX_BOARDS]> {
    let digits = pairs.bytes().all(|byte| byte.is_ascii_hexdigit());
    if !digits || n > MAX_BOARDS || pairs.len() != 2 * n {
        return None;
    }
    let mut points = [0; MAX_BOARDS];
    for (board, point) in points[..n].iter_mut().enumerate() {
        *point = u8::from_str_radix(&pairs[2 * board..2 * board + 2], 16).ok()?;
    }
    Some(points)
}
