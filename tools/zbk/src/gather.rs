//! `zbk gather`: the file from texts.

use crate::agree;
use crate::args::{Takes, Words};
use crate::files::{self, Target, PIPE};
use crate::texts::{self, Read, Text};
use crate::trouble::{boards, count, refused, say, Outcome};
use zebrankai::{Refusal, Sizes};

pub const GATHER: Takes = Takes { command: "gather", valued: &["--output"], plain: &["--force"] };

pub fn gather(words: &Words) -> Outcome {
    if words.rest.is_empty() {
        return Err(words.wrong("name the texts, or - for standard input"));
    }
    let (quiet, force) = (words.has("--quiet"), words.has("--force"));
    let output = words.name("--output")?.filter(|output| *output != PIPE);
    let target = output.map(|output| Target::new(output, force)).transpose()?;
    let texts = texts::load(&words.rest, false, quiet)?;
    if texts.iter().all(|text| text.bytes.is_empty()) {
        let names: Vec<&str> = texts.iter().map(|text| text.name.as_str()).collect();
        let are = if names.len() == 1 { "is" } else { "are" };
        return refused(Refusal::Count, format!("no text at all: {} {are} empty", names.join("; ")));
    }
    let readable = texts::readable(&texts)?;
    texts::alike(&readable)?;
    enough(&readable)?;
    texts::different(&readable)?;
    let gathered = agree::gathered(&readable, quiet)?;
    match target {
        Some(target) => files::write_all(&[(target, gathered.file)])?,
        None => {
            files::raw_allowed(force || !files::is_binary(&gathered.file))?;
            files::print(&gathered.file)?;
        }
    }
    // a text that is wrong is named in any case
    if gathered.odd || !quiet {
        say(gathered.shown);
    }
    Ok(())
}

/// Sees that there are k texts; else the refusal says which boards are missing.
fn enough(texts: &[(&Text, &Read)]) -> Outcome {
    let Sizes { n, k, .. } = texts[0].1.sizes;
    let mut have: Vec<usize> = texts.iter().map(|(_, read)| read.node).collect();
    have.sort_unstable();
    have.dedup();
    if texts.len() >= k {
        return Ok(());
    }
    let others: Vec<usize> = (0..n).filter(|board| !have.contains(board)).collect();
    let more = k - have.len();
    refused(
        Refusal::Count,
        format!(
            "{} of {}, and k = {k} are needed: {more} more of {}",
            count(texts.len(), "text"),
            boards(&have),
            boards(&others)
        ),
    )
}
