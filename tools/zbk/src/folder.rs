//! Folders of texts: made where they are missing, and what lies in them, by the files' names.

use crate::files::{shown, words, Unread};
use crate::trouble::{failed, say, Outcome};
use std::ffi::{OsStr, OsString};
use std::fs;
use std::io;
use std::path::{Path, PathBuf};

/// A folder that is made where it is missing. What was made goes again where it stays empty.
pub struct Folder {
    made: Vec<PathBuf>,
}

impl Folder {
    pub fn make(name: &OsStr) -> Outcome<Folder> {
        let mut folder = Folder { made: Vec::new() };
        let path: PathBuf = Path::new(name).components().collect();
        let missing: Vec<&Path> =
            path.ancestors().take_while(|path| !path.as_os_str().is_empty() && !path.is_dir()).collect();
        for path in missing.into_iter().rev() {
            match fs::create_dir(path) {
                Ok(()) => folder.made.push(path.to_path_buf()),
                // it came there meanwhile
                Err(_) if path.is_dir() => {}
                Err(error) => return failed(format!("cannot make the folder {}: {}", shown(name), words(&error))),
            }
        }
        Ok(folder)
    }
}

impl Drop for Folder {
    fn drop(&mut self) {
        // one that is not empty stays
        for path in self.made.iter().rev() {
            let _ = fs::remove_dir(path);
        }
    }
}

/// The name of a board's text in a folder.
pub fn board_file(folder: &OsStr, board: usize) -> OsString {
    Path::new(folder).join(format!("board-{board}.txt")).into_os_string()
}

/// What a folder has.
pub struct Listing {
    /// the files that are named as texts of boards, in their order; of one board that first which is named as the tool names it
    pub texts: Vec<(usize, OsString)>,
    /// the names of the others, but hidden ones
    passed: Vec<String>,
}

/// The board of which a file is named: board-2.txt, in any case, also as a copy is named, board-2 (1).txt.
fn board_of(name: &str) -> Option<usize> {
    let name = name.to_ascii_lowercase();
    let number = name.strip_prefix("board-")?.strip_suffix(".txt")?;
    let number = match number.strip_suffix(')').and_then(|copy| copy.split_once('(')) {
        Some((number, copy)) if !copy.is_empty() && copy.bytes().all(|byte| byte.is_ascii_digit()) => number.trim_end(),
        _ => number,
    };
    // numbers as they are written, without a sign or leading zeros
    number.parse::<usize>().ok().filter(|board| board.to_string() == number)
}

impl Listing {
    pub fn of(folder: &OsStr) -> Result<Listing, Unread> {
        let cannot = |error: io::Error| Unread::folder(folder, words(&error));
        let mut listing = Listing { texts: Vec::new(), passed: Vec::new() };
        for entry in fs::read_dir(folder).map_err(cannot)? {
            let name = entry.map_err(cannot)?.file_name();
            match name.to_str().and_then(board_of) {
                Some(board) => listing.texts.push((board, Path::new(folder).join(name).into_os_string())),
                None if name.as_encoded_bytes().starts_with(b".") => {}
                None => listing.passed.push(shown(&name)),
            }
        }
        listing.texts.sort_by_cached_key(|(board, name)| (*board, *name != board_file(folder, *board), name.clone()));
        listing.passed.sort_unstable();
        Ok(listing)
    }

    /// Names on standard error what is passed over.
    pub fn tell_passed(&self, folder: &OsStr) {
        if self.passed.is_empty() {
            return;
        }
        let mut named = self.passed[..self.passed.len().min(NAMED)].join("; ");
        if self.passed.len() > NAMED {
            named.push_str(&format!("; and {} more", self.passed.len() - NAMED));
        }
        say(format!("passed over in {}, not named as board-0.txt and so on: {named}", shown(folder)));
    }
}

/// So many files that are passed over are named.
const NAMED: usize = 8;

#[cfg(test)]
mod tests {
    use super::board_of;

    #[test]
    fn names_of_texts() {
        for name in ["board-2.txt", "BOARD-2.TXT", "Board-2.Txt", "board-2 (1).txt", "board-2(13).TXT"] {
            assert_eq!(board_of(name), Some(2), "{name}");
        }
        assert_eq!(board_of("board-31.txt"), Some(31));
        for name in [
            "board-02.txt",
            "board-+2.txt",
            "board-.txt",
            "board-2.txt.bak",
            "board-2 ().txt",
            "board-2 (a).txt",
            "2.txt",
        ] {
            assert_eq!(board_of(name), None, "{name}");
        }
    }
}
