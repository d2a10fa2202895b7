//! What refusals mean, who acts and what to do, in the words of docs/REFUSALS.md.

use crate::args::{Takes, Words};
use crate::files;
use crate::trouble::{Outcome, Trouble};
use std::fmt::Write;
use zebrankai::Refusal;

pub const EXPLAIN: Takes = Takes { command: "explain", valued: &[], plain: &[] };

/// The most bytes in a line.
const WIDE: usize = 79;

/// Explains the refusals that are named, one after another.
pub fn explain(words: &Words) -> Outcome {
    if words.rest.is_empty() {
        return Err(words.wrong("which refusal? Name it by number or name"));
    }
    let refusals: Vec<Refusal> =
        words.rest.iter().map(|word| refusal(words, words.plain(word)?)).collect::<Outcome<_>>()?;
    let mut said = String::new();
    for (place, refusal) in refusals.into_iter().enumerate() {
        if place > 0 {
            said.push('\n');
        }
        writeln!(said, "{} {}", refusal.number(), refusal.name()).expect("a string takes it");
        for part in [
            refusal.sentence().to_string(),
            format!("Who acts: {}", refusal.who()),
            format!("What to do: {}", refusal.remedy()),
        ] {
            said.push_str(&wrapped(&part));
        }
    }
    files::print(said.as_bytes())
}

/// The refusal that a word names: 10, DISAGREE, disagree, ZBK_DISAGREE.
fn refusal(words: &Words, word: &str) -> Result<Refusal, Trouble> {
    let name = word.get(..4).filter(|begin| begin.eq_ignore_ascii_case("zbk_")).map_or(word, |_| &word[4..]);
    let number =
        Some(word).filter(|word| word.bytes().all(|byte| byte.is_ascii_digit())).and_then(|word| word.parse().ok());
    Refusal::from_name(name).or_else(|| number.and_then(Refusal::from_number)).ok_or_else(|| {
        words.wrong(match number {
            Some(0) => "0 is no refusal: the call was accepted".to_string(),
            Some(11) => "11 is not used: no call answers it".to_string(),
            _ => format!("no refusal {word}; their numbers are 1 to 17, without 11"),
        })
    })
}

/// The words of a text in lines that are not too wide.
fn wrapped(text: &str) -> String {
    let mut lines = String::new();
    let mut wide = 0;
    for word in text.split(' ') {
        if wide > 0 && wide + 1 + word.len() > WIDE {
            lines.push('\n');
            wide = 0;
        }
        if wide > 0 {
            lines.push(' ');
            wide += 1;
        }
        lines.push_str(word);
        wide += word.len();
    }
    lines.push('\n');
    lines
}
