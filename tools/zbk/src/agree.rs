//! Whether texts of one file agree. k of them give a file, and show no more than that they fit together. Among k + 1 one that is wrong always
//! shows. Of k + 2 or more the archive's careful read gives the file that all but at most one of them have, and names that one.

use crate::pairs::Pairs;
use crate::part::{parts, Texts};
use crate::progress::Progress;
use crate::texts::{names_of, Read};
use crate::trouble::{boards, count, refused, unforeseen, Outcome};
use zebrankai::{Refusal, Sizes};

/// What texts show: k or more, alike, of different boards.
pub enum Shown {
    /// all have shares of this file
    Agree(Vec<u8>),
    /// all but the one at this place have; only k + 2 texts or more show it
    Odd(Vec<u8>, usize),
    Disagree,
}

/// So many stripes are looked at in one call, so that how far it is can be told.
const BLOCK: usize = 128;

/// What texts show. `step` is called with the stripes that were looked at. Of more than k + 2 the first so many say the file: where all but one
/// of all texts have shares of a file, all but one of these have. Whole shares count: a text that is wrong in one part is the odd one in all.
fn shown(texts: &Texts, step: impl Fn(usize)) -> Result<Shown, Refusal> {
    let Read { sizes, length, .. } = *texts[0].1;
    let k = sizes.k;
    let first = if texts.len() < k + 2 { k } else { k + 2 };
    let (mut file, mut wrong) = (Vec::new(), Vec::new());
    for part in parts(sizes, length, BLOCK) {
        let given =
            if first == k { part.file(&texts[..k]).map(|file| (file, None)) } else { part.careful(&texts[..first]) };
        let (bytes, odd) = match given {
            Err(Refusal::Disagree) => return Ok(Shown::Disagree),
            given => given?,
        };
        wrong.extend((0..first).filter(|&place| Some(texts[place].1.node) == odd));
        for (place, (_, read)) in texts.iter().enumerate().skip(first) {
            if !part.holds(read, &bytes)? {
                wrong.push(place);
            }
        }
        file.extend(bytes);
        step(part.count);
    }
    wrong.sort_unstable();
    wrong.dedup();
    Ok(match wrong[..] {
        [] => Shown::Agree(file),
        [place] if first == k + 2 => Shown::Odd(file, place),
        _ => Shown::Disagree,
    })
}

/// Of k + 1 texts that disagree, those of which each could be the wrong one: k others give a file without it.
fn suspects<'a>(texts: &Texts<'a>, quiet: bool) -> Result<Vec<&'a str>, Refusal> {
    let progress = Progress::new("leaving out each text in turn", texts.len(), quiet);
    let mut found = Vec::new();
    for leave in 0..texts.len() {
        let rest: Vec<_> =
            texts.iter().enumerate().filter(|(place, _)| *place != leave).map(|(_, text)| *text).collect();
        if let Shown::Agree(_) = shown(&rest, |_| ())? {
            found.push(texts[leave].0.name.as_str());
        }
        progress.step(1);
    }
    Ok(found)
}

/// The one text that does not fit the others: what is known of it. That it alone is wrong is not.
fn odd_words(name: &str, others: usize, fit: &str) -> String {
    format!(
        "{name} does not fit the other {}, which {fit}: if one text alone is wrong, it is this one",
        count(others, "text")
    )
}

/// The groups into which texts fall two by two, in words; or where to find more.
fn groups_words(texts: &Texts, quiet: bool) -> Result<String, Refusal> {
    let Some(groups) = Pairs::told(texts, quiet)?.groups().filter(|groups| groups.len() > 1) else {
        return Ok("; 'zbk check' says which do not fit, and in which stripes".to_string());
    };
    if groups.len() == texts.len() {
        return Ok("; no two of them fit each other".to_string());
    }
    let mut said = "; two by two they fall into groups, as texts of several files do".to_string();
    for group in groups {
        let group: Vec<_> = group.into_iter().map(|place| texts[place]).collect();
        said.push_str(&format!(
            "\n  {}: {}",
            if group.len() > 1 { "fit each other" } else { "fits none" },
            names_of(&group)
        ));
    }
    Ok(said)
}

/// Texts that disagree, and no single one of k + 2 or more is at fault: the refusal that says which do, as far as it can be told; `advice` is
/// what to do with one at fault.
fn disagree<T>(texts: &Texts, advice: &str, quiet: bool) -> Outcome<T> {
    let Sizes { n, k, .. } = texts[0].1.sizes;
    let named = boards(&texts.iter().map(|(_, read)| read.node).collect::<Vec<_>>());
    if texts.len() == k {
        let told = if k + 2 <= n { "; with two texts more it can be told which" } else { "" };
        let names: Vec<&str> = texts.iter().map(|(text, _)| text.name.as_str()).collect();
        let more = format!("at least one of them is not as it was written{told}\n  {}", names.join("\n  "));
        return refused(Refusal::Disagree, format!("no file has the shares of {named}: {more}"));
    }
    let none = || -> Outcome<String> {
        let groups = groups_words(texts, quiet).map_err(unforeseen)?;
        Ok(format!("the texts of {named} do not agree, whichever one of them is left out{groups}"))
    };
    if texts.len() > k + 1 {
        return refused(Refusal::Disagree, none()?);
    }
    let told = if k + 2 <= n { "; with a text more it can be told which" } else { "" };
    let what = match &suspects(texts, quiet).map_err(unforeseen)?[..] {
        [] => none()?,
        // k texts show no more than that they fit together
        [name] => format!("{}; {advice}", odd_words(name, k, "fit together")),
        names => {
            let left_out = format!("if one alone is wrong, it is one of these{told}\n  {}", names.join("\n  "));
            format!("no file has the shares of {named}: {left_out}")
        }
    };
    refused(Refusal::Disagree, what)
}

/// What texts show, with a word on how far it is.
pub fn looked_at(texts: &Texts, what: &'static str, quiet: bool) -> Result<Shown, Refusal> {
    let progress = Progress::new(what, texts[0].1.sizes.stripes(texts[0].1.length), quiet);
    shown(texts, |stripes| progress.step(stripes))
}

/// Sees that all texts agree; else the refusal says which do not, as far as it can be told. `advice` is what to do with one at fault.
pub fn all(texts: &Texts, advice: &str, quiet: bool) -> Outcome {
    match looked_at(texts, "stripes checked", quiet).map_err(unforeseen)? {
        Shown::Agree(_) => Ok(()),
        Shown::Odd(_, place) => {
            let odd = odd_words(&texts[place].0.name, texts.len() - 1, "agree");
            refused(Refusal::Disagree, format!("{odd}; {advice}"))
        }
        Shown::Disagree => disagree(texts, advice, quiet),
    }
}

/// A file that texts give.
pub struct Gathered {
    pub file: Vec<u8>,
    /// what they show of each other, in words
    pub shown: String,
    /// whether one of them is odd
    pub odd: bool,
}

/// What so many texts that agree show.
pub fn agree_words(texts: usize, Sizes { n, k, .. }: Sizes) -> String {
    let all = count(texts, "text");
    if texts > k {
        return format!("{all} agree; one that is wrong would show");
    }
    let more = if k + 2 <= n { ": one more would show whether one of them is wrong, two more which" } else { "" };
    format!("{all} fit together, and none is left to check them{more}")
}

/// The file that all texts agree on, or all but one of k + 2 or more; else the refusal that says which do not.
pub fn gathered(texts: &Texts, quiet: bool) -> Outcome<Gathered> {
    let from = |length: usize, leave: Option<usize>| {
        let used = texts.iter().enumerate().filter(|(place, _)| Some(*place) != leave).map(|(_, (_, read))| read.node);
        let mut used: Vec<usize> = used.collect();
        used.sort_unstable();
        format!("{} from {}", count(length, "byte"), boards(&used))
    };
    match looked_at(texts, "stripes gathered", quiet).map_err(unforeseen)? {
        Shown::Agree(file) => {
            let shown = format!("{}; {}", agree_words(texts.len(), texts[0].1.sizes), from(file.len(), None));
            Ok(Gathered { file, shown, odd: false })
        }
        Shown::Odd(file, place) => {
            let odd = odd_words(&texts[place].0.name, texts.len() - 1, "agree");
            let shown = format!("{odd}; {}", from(file.len(), Some(place)));
            Ok(Gathered { file, shown, odd: true })
        }
        Shown::Disagree => disagree(texts, "leave it out", quiet),
    }
}

#[cfg(test)]
mod tests {
    use super::{shown, Shown, BLOCK};
    use crate::texts::{readable, texts_of};
    use std::cell::Cell;
    use std::ffi::OsStr;
    use zebrankai::{board, trial_file, Points, Sizes};

    /// How far it is moves on while a file is gathered, up to all of its stripes; the file is the same in parts and in one.
    #[test]
    fn the_progress_moves() {
        let sizes = Sizes { n: 5, k: 2, d: 3, r: 2 };
        let (points, length) = (Points::standard(5), 3 * BLOCK * sizes.stripe_len() - 5);
        let mut file = vec![0; length];
        trial_file(1, &mut file);
        let mut all = Vec::new();
        for node in 0..5 {
            let mut share = vec![0; sizes.whole_share_len(length)];
            board::share(sizes, points, node, &file, &mut share).unwrap();
            let mut text = vec![0; sizes.text_room(length)];
            let written = board::share_text(sizes, points, length, node, &share, &mut text).unwrap();
            all.extend_from_slice(&text[..written]);
        }
        let texts = texts_of(OsStr::new("all"), &all, false);
        let texts = readable(&texts).unwrap_or_default();
        for count in 2..=5 {
            let (steps, stripes) = (Cell::new(0), Cell::new(0));
            let step = |more| {
                steps.set(steps.get() + 1);
                stripes.set(stripes.get() + more);
            };
            assert!(matches!(shown(&texts[..count], step), Ok(Shown::Agree(gathered)) if gathered == file));
            assert_eq!((steps.get(), stripes.get()), (3, sizes.stripes(length)));
        }
    }
}
