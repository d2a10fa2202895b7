//! Temporary names, and the files that an interrupted run left under them, which the next run removes.

use crate::files::shown;
use crate::trouble::{count, say};
use std::fs;
use std::path::Path;
use std::time::Duration;

/// A temporary name says the machine's run, the process and which of its files it is.
const BEGIN: &str = ".zbk-";

/// A file of another machine, or from before a power failure, is left by an interrupted run where it is older than this: the tool writes one in
/// seconds.
const OLD: Duration = Duration::from_secs(3600);

/// Tells this machine since it was started from others, and from itself before.
fn machine() -> String {
    let id = fs::read_to_string("/proc/sys/kernel/random/boot_id").unwrap_or_default();
    id.chars().filter(char::is_ascii_hexdigit).take(8).collect()
}

/// The temporary name of this process's file with a number.
pub fn temporary(number: usize) -> String {
    format!("{BEGIN}{}-{}-{number}", machine(), std::process::id())
}

/// Whether a process of this machine is this tool, and not this very process, which has begun no file yet.
fn runs(process: &str) -> bool {
    let name = |process: &str| fs::read(format!("/proc/{process}/comm")).ok();
    let program = |process: &str| fs::read_link(format!("/proc/{process}/exe")).ok();
    let same = name(process).is_some_and(|other| Some(other) == name("self"))
        || program(process).is_some_and(|other| Some(other) == program("self"));
    same && process != std::process::id().to_string()
}

/// Whether a file is one that an interrupted run left.
fn is_left(path: &Path, name: &str) -> bool {
    let Some(parts) = name.strip_prefix(BEGIN).map(|rest| rest.split('-').collect::<Vec<_>>()) else { return false };
    let (machine_of, numbers) = match &parts[..] {
        [machine, numbers @ ..] if numbers.len() == 2 => (*machine, numbers),
        // as earlier versions named them
        numbers if numbers.len() == 2 => ("", numbers),
        _ => return false,
    };
    let digits = |part: &&str| !part.is_empty() && part.bytes().all(|byte| byte.is_ascii_digit());
    let Ok(found) = fs::symlink_metadata(path) else { return false };
    if !numbers.iter().all(digits) || !found.is_file() {
        return false;
    }
    if !machine_of.is_empty() && machine_of == machine() {
        return !runs(numbers[0]);
    }
    found.modified().ok().and_then(|then| then.elapsed().ok()).is_some_and(|age| age > OLD)
}

/// Removes what interrupted runs left beside some files, and says so; before this process begins a file of its own.
pub fn remove<'a>(beside: impl IntoIterator<Item = &'a Path>) {
    let mut folders: Vec<&Path> = beside.into_iter().filter_map(Path::parent).collect();
    folders.dedup();
    for folder in folders {
        let folder = if folder.as_os_str().is_empty() { Path::new(".") } else { folder };
        let Ok(entries) = fs::read_dir(folder) else { continue };
        let left = entries.flatten().filter(|entry| {
            entry.file_name().to_str().is_some_and(|name| is_left(&entry.path(), name))
                && fs::remove_file(entry.path()).is_ok()
        });
        let removed = left.count();
        if removed > 0 {
            let files = count(removed, "file");
            say(format!("removed {files} that an interrupted run left in {}", shown(folder.as_os_str())));
        }
    }
}
