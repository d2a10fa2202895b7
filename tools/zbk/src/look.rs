//! `zbk look`: what texts are.

use crate::args::{Takes, Words};
use crate::files;
use crate::json::{object, Value};
use crate::texts::{self, points_words, Read, Text, Unreadable};
use crate::trouble::{boards, count, Outcome, Trouble};
use zebrankai::Sizes;

pub const LOOK: Takes = Takes { command: "look", valued: &[], plain: &["--json"] };

pub fn look(words: &Words) -> Outcome {
    if words.rest.is_empty() {
        return Err(words.wrong("name the texts, or - for standard input"));
    }
    let texts = texts::load(&words.rest, true, words.has("--quiet"))?;
    if words.has("--json") {
        return told(files::print(json(&texts).line().as_bytes()), &texts);
    }
    let head = ["text", "board", "n", "k", "d", "r", "points", "length", "stripes", "share"].map(str::to_string);
    let rows: Vec<[String; 10]> = texts.iter().map(row).collect();
    let widths: Vec<usize> = (0..head.len())
        .map(|column| rows.iter().chain([&head]).map(|row| row[column].chars().count()).max().unwrap_or(0))
        .collect();
    let mut table = line(&head, &widths);
    for (text, row) in texts.iter().zip(&rows) {
        table.push_str(&match &text.read {
            Ok(_) => line(row, &widths),
            Err(Unreadable { why, sense, tidy, .. }) => {
                let tidy = tidy.as_ref().map(|changes| format!("'zbk tidy' makes it a text: {changes}"));
                let more = sense.iter().chain(&tidy).map(|line| format!("{:1$}  {line}\n", "", widths[0]));
                format!("{:<1$}  not readable: {why}\n", text.name, widths[0]) + &more.collect::<String>()
            }
        });
    }
    table.push_str(&summary(&texts));
    told(files::print(table.as_bytes()), &texts)
}

/// The end of it: 1 where a text is not readable.
fn told(printed: Outcome, texts: &[Text]) -> Outcome {
    printed?;
    if texts.iter().all(|text| text.read.is_ok()) {
        Ok(())
    } else {
        Err(Trouble::Told)
    }
}

/// What the table says, as JSON.
fn json(texts: &[Text]) -> Value {
    let of = |text: &Text| match &text.read {
        Ok(read) => {
            let mut said =
                object([("text", (&text.name).into()), ("readable", true.into()), ("board", read.node.into())]);
            said.extend(read.json());
            said.extend([("share", read.share.len().into())]);
            said
        }
        Err(Unreadable { why, sense, tidy, .. }) => object([
            ("text", (&text.name).into()),
            ("readable", false.into()),
            ("why", why.into()),
            ("sense", sense.into()),
            ("tidy", tidy.into()),
        ]),
    };
    Value::List(texts.iter().map(of).collect())
}

/// A row of the table: names to the left, numbers to the right.
fn line(row: &[String; 10], widths: &[usize]) -> String {
    let cell = |(column, word): (usize, &String)| {
        let width = widths[column];
        if column == 0 || column == 6 {
            format!("{word:<width$}")
        } else {
            format!("{word:>width$}")
        }
    };
    row.iter().enumerate().map(cell).collect::<Vec<_>>().join("  ").trim_end().to_string() + "\n"
}

fn row(text: &Text) -> [String; 10] {
    let mut row: [String; 10] = Default::default();
    row[0] = text.name.clone();
    if let Ok(read) = &text.read {
        let Sizes { n, k, d, r } = read.sizes;
        row[6] = points_words(read.sizes, read.points);
        let numbers = [read.node, n, k, d, r, read.length, read.sizes.stripes(read.length), read.share.len()];
        for (column, number) in [1, 2, 3, 4, 5, 7, 8, 9].into_iter().zip(numbers) {
            row[column] = number.to_string();
        }
    }
    row
}

/// What the texts are together.
fn summary(texts: &[Text]) -> String {
    let reads: Vec<&Read> = texts.iter().filter_map(|text| text.read.as_ref().ok()).collect();
    let unreadable = texts.len() - reads.len();
    let mut told = String::new();
    if unreadable > 0 {
        told = format!("{} not readable\n", count(unreadable, "text"));
    }
    if let [first, ..] = reads[..] {
        let mut have: Vec<usize> = reads.iter().map(|read| read.node).collect();
        have.sort_unstable();
        have.dedup();
        let k = first.sizes.k;
        told.push_str(&if reads.iter().any(|read| read.of_file() != first.of_file()) {
            "the texts are of several files\n".to_string()
        } else if have.len() < k {
            format!(
                "{} of one file: {} more of its {} boards are needed\n",
                boards(&have),
                k - have.len(),
                first.sizes.n
            )
        } else {
            format!(
                "{} of one file, as far as they say: {k} are enough; 'zbk check' sees whether they agree\n",
                boards(&have)
            )
        });
    }
    told
}
