//! Files read whole, and written whole or not at all: to a temporary name in the same folder, then renamed.

use crate::leftover;
use crate::trouble::{failed, Outcome, Trouble};
use std::ffi::OsStr;
use std::fs::{self, File, OpenOptions};
use std::io::{self, ErrorKind, IsTerminal, Read, Write};
use std::path::PathBuf;

/// Standard input's name.
pub const PIPE: &str = "-";

/// A file or a folder that cannot be read, and why.
pub struct Unread {
    what: String,
    pub why: String,
}

impl From<Unread> for Trouble {
    fn from(Unread { what, why }: Unread) -> Trouble {
        Trouble::Failed(format!("cannot read {what}: {why}"))
    }
}

impl Unread {
    pub fn folder(name: &OsStr, why: impl Into<String>) -> Unread {
        Unread { what: format!("the folder {}", shown(name)), why: why.into() }
    }
}

/// The bytes of a file, or of standard input; not more than `most`, and one that says that there are more.
pub fn read(name: &OsStr, most: usize) -> Result<Vec<u8>, Unread> {
    let mut bytes = Vec::new();
    let limit = most as u64 + 1;
    let done = if name == PIPE {
        io::stdin().lock().take(limit).read_to_end(&mut bytes)
    } else {
        File::open(name).and_then(|file| file.take(limit).read_to_end(&mut bytes))
    };
    match done {
        Ok(_) => Ok(bytes),
        Err(error) => Err(Unread { what: shown(name), why: words(&error) }),
    }
}

/// A file's name as it is said: bytes that are no characters, and characters that a terminal obeys, are escaped, as \xFF and \u{1b}.
pub fn shown(name: &OsStr) -> String {
    if name == PIPE {
        return "standard input".to_string();
    }
    let mut said = String::new();
    for part in name.as_encoded_bytes().utf8_chunks() {
        for character in part.valid().chars() {
            match character {
                '\\' => said.push_str("\\\\"),
                _ if character.is_control() => said.extend(character.escape_default()),
                _ => said.push(character),
            }
        }
        said.extend(part.invalid().iter().map(|byte| format!("\\x{byte:02X}")));
    }
    said
}

/// An error without the machine's number for it.
pub fn words(error: &io::Error) -> String {
    let said = error.to_string();
    said.split(" (os error").next().unwrap_or(&said).to_lowercase()
}

/// Writes to standard output.
pub fn print(bytes: &[u8]) -> Outcome {
    let mut out = io::stdout().lock();
    match out.write_all(bytes).and_then(|()| out.flush()) {
        Ok(()) => Ok(()),
        Err(error) if error.kind() == ErrorKind::BrokenPipe => Err(Trouble::Told),
        Err(error) => failed(format!("cannot write to standard output: {}", words(&error))),
    }
}

/// Whether bytes are no text that a terminal only shows.
pub fn is_binary(bytes: &[u8]) -> bool {
    match std::str::from_utf8(bytes) {
        Ok(text) => text.chars().any(|character| character.is_control() && !matches!(character, '\n' | '\t')),
        Err(_) => true,
    }
}

/// Sees that raw bytes may go to standard output: not to a terminal, which would obey them, unless that is wanted.
pub fn raw_allowed(force: bool) -> Outcome {
    if !force && io::stdout().is_terminal() {
        let instead = "name a file with -o, use a pipe, or give --force";
        return failed(format!("standard output is a terminal, and these bytes are not plain text: {instead}"));
    }
    Ok(())
}

/// Writes a report of what is done to standard output; where nobody reads it, it is done all the same.
pub fn report(lines: &str) -> Outcome {
    match print(lines.as_bytes()) {
        Err(Trouble::Told) => Ok(()),
        other => other,
    }
}

/// A file that is to be written: where it is asked for, and where a link leads to.
pub struct Target {
    asked: String,
    path: PathBuf,
    /// whether it is there, and a device or a pipe, which is written to as it is
    special: bool,
    there: bool,
}

impl Target {
    /// Sees whether a file may be written: not where one is there, unless that is wanted.
    pub fn new(asked: &OsStr, force: bool) -> Outcome<Target> {
        let name = shown(asked);
        let path = fs::canonicalize(asked).unwrap_or_else(|_| PathBuf::from(asked));
        let found = fs::metadata(&path);
        if let Err(error) = &found {
            if error.kind() != ErrorKind::NotFound {
                return failed(format!("cannot write {name}: {}", words(error)));
            }
        }
        if found.is_err() && fs::symlink_metadata(asked).is_ok() {
            return failed(format!("cannot write {name}: it is a link that leads nowhere"));
        }
        let there = found.is_ok();
        let (folder, file) = found.map_or((false, false), |found| (found.is_dir(), found.is_file()));
        if folder {
            return failed(format!("cannot write {name}: it is a folder"));
        }
        if file && !force {
            return failed(format!("{name} is there already; --force replaces it"));
        }
        Ok(Target { asked: name, path, special: there && !file, there })
    }

    fn cannot(&self, error: io::Error) -> Trouble {
        Trouble::Failed(format!("cannot write {}: {}", self.asked, words(&error)))
    }

    /// The temporary name beside it.
    fn beside(&self, again: usize) -> PathBuf {
        self.path.with_file_name(leftover::temporary(again))
    }
}

/// A file under its temporary name, which is removed unless it is put in its place.
struct Written<'a> {
    target: &'a Target,
    beside: PathBuf,
}

impl<'a> Written<'a> {
    fn new(target: &'a Target, fill: impl FnOnce(&mut File) -> io::Result<()>) -> Outcome<Written<'a>> {
        // one that is there is of another target
        let create =
            |beside: PathBuf| OpenOptions::new().write(true).create_new(true).open(&beside).map(|file| (file, beside));
        let mut created = create(target.beside(0));
        for again in 1..1000 {
            match &created {
                Err(error) if error.kind() == ErrorKind::AlreadyExists => created = create(target.beside(again)),
                _ => break,
            }
        }
        let (mut file, beside) = created.map_err(|error| target.cannot(error))?;
        let written = Written { target, beside };
        let done = fill(&mut file).and_then(|()| file.sync_all());
        done.map_err(|error| target.cannot(error))?;
        if target.there {
            // as it was, as far as may be
            let _ = fs::metadata(&target.path).and_then(|old| fs::set_permissions(&written.beside, old.permissions()));
        }
        Ok(written)
    }

    /// Puts it in its place. One that came there meanwhile stays, unless it was there before and is to be replaced.
    fn put(self) -> Outcome {
        let target = self.target;
        if !target.there {
            match fs::hard_link(&self.beside, &target.path) {
                Ok(()) => return Ok(()),
                Err(_) if target.path.exists() => return failed(format!("{} is there already", target.asked)),
                // a file system without links
                Err(_) => {}
            }
        }
        fs::rename(&self.beside, &target.path).map_err(|error| target.cannot(error))
    }
}

impl Drop for Written<'_> {
    fn drop(&mut self) {
        let _ = fs::remove_file(&self.beside);
    }
}

/// Writes files, each whole or not at all; none is put in its place before all are written.
pub fn write_all(files: &[(Target, Vec<u8>)]) -> Outcome {
    let plain = files.iter().filter(|(target, _)| !target.special);
    leftover::remove(plain.map(|(target, _)| target.path.as_path()));
    let mut written = Vec::new();
    for (target, bytes) in files {
        if target.special {
            fs::write(&target.path, bytes).map_err(|error| target.cannot(error))?;
        } else {
            written.push(Written::new(target, |file| file.write_all(bytes))?);
        }
    }
    written.into_iter().try_for_each(Written::put)
}

/// Writes a file that is filled part by part, whole or not at all; where it is a device or a pipe, as far as it goes.
pub fn write_parts(target: &Target, fill: impl FnOnce(&mut File) -> io::Result<()>) -> Outcome {
    if target.special {
        return File::create(&target.path).and_then(|mut file| fill(&mut file)).map_err(|error| target.cannot(error));
    }
    leftover::remove([target.path.as_path()]);
    Written::new(target, fill)?.put()
}

#[cfg(test)]
mod tests {
    use super::{is_binary, shown};
    use std::ffi::OsStr;
    use std::os::unix::ffi::OsStrExt;

    #[test]
    fn names_as_they_are_said() {
        let said = |name: &[u8]| shown(OsStr::from_bytes(name));
        assert_eq!(said(b"-"), "standard input");
        assert_eq!(said("stock, \u{e9}tag\u{e8}re 2".as_bytes()), "stock, \u{e9}tag\u{e8}re 2");
        assert_eq!(said(b"b\xffck"), "b\\xFFck");
        assert_eq!(said(b"a\x1b[2Jb\n\\"), "a\\u{1b}[2Jb\\n\\\\");
    }

    #[test]
    fn bytes_that_a_terminal_obeys() {
        for text in ["", "plain\n\ttext \u{e9}\n"] {
            assert!(!is_binary(text.as_bytes()), "{text:?}");
        }
        for bytes in [&b"\xff"[..], b"a\x1b[2J", b"\0", b"a\rb", b"\xc2\x9b", b"\x7f"] {
            assert!(is_binary(bytes), "{bytes:?}");
        }
    }
}
