//! `zbk check`: whether texts agree, and if not, which do not fit: two by two, and stripe by stripe where there are enough.

use crate::agree::{self, agree_words, Shown};
use crate::args::{Takes, Words};
use crate::files;
use crate::json::{object, Value};
use crate::pairs::Pairs;
use crate::part::Texts;
use crate::progress::Progress;
use crate::stripes::{most_wrong, Stripes};
use crate::texts::{self, file_words, names_of, Read, Text, Unreadable};
use crate::trouble::{boards, count, ranges, unforeseen, Outcome, Trouble};
use zebrankai::{Refusal, Sizes};

pub const CHECK: Takes = Takes { command: "check", valued: &[], plain: &["--json"] };

/// The texts that say they are of one file, and what they show.
struct Checked<'a> {
    texts: Vec<(&'a Text, &'a Read)>,
    /// texts that are the same as another one of these
    copies: Vec<(&'a str, &'a str)>,
    /// the boards that they are of
    boards: Vec<usize>,
    agree: bool,
    pairs: Pairs,
    stripes: Option<Stripes>,
}

impl<'a> Checked<'a> {
    fn of(given: &Texts<'a>, quiet: bool) -> Result<Checked<'a>, Refusal> {
        let mut texts: Vec<(&Text, &Read)> = Vec::new();
        let mut copies = Vec::new();
        for &(text, read) in given {
            match texts.iter().find(|(_, other)| other.node == read.node && other.share == read.share) {
                Some((before, _)) => copies.push((text.name.as_str(), before.name.as_str())),
                None => texts.push((text, read)),
            }
        }
        let mut boards: Vec<usize> = texts.iter().map(|(_, read)| read.node).collect();
        boards.sort_unstable();
        boards.dedup();
        let Read { sizes, length, .. } = *texts[0].1;
        let enough = boards.len() >= sizes.k;
        let different = boards.len() == texts.len();
        let agree =
            enough && different && matches!(agree::looked_at(&texts, "stripes checked", quiet)?, Shown::Agree(_));
        // texts that agree also fit two by two
        let pairs = if agree { Pairs::all_fit(texts.len()) } else { Pairs::told(&texts, quiet)? };
        let progress = Progress::new("stripes looked at", sizes.stripes(length), quiet);
        let stripes = (enough && !agree).then(|| Stripes::of(&texts, |stripes| progress.step(stripes))).transpose()?;
        Ok(Checked { texts, copies, boards, agree, pairs, stripes })
    }

    fn sizes(&self) -> Sizes {
        self.texts[0].1.sizes
    }

    fn enough(&self) -> bool {
        self.boards.len() >= self.sizes().k
    }

    fn name(&self, place: usize) -> &str {
        &self.texts[place].0.name
    }

    /// Whether all fit each other, two by two.
    fn all_fit(&self) -> bool {
        self.pairs.apart.iter().flatten().all(|&stripes| stripes == 0)
    }

    fn words(&self) -> String {
        let k = self.sizes().k;
        let (texts, boards) = (count(self.texts.len(), "text"), boards(&self.boards));
        let mut said = if self.agree {
            format!("{}; {boards}\n", agree_words(self.texts.len(), self.sizes()))
        } else if !self.enough() && self.all_fit() {
            let fit = if self.texts.len() > 1 { " fit each other two by two" } else { "" };
            let more = k - self.boards.len();
            format!("{texts} of {boards}{fit}; k = {k} are needed to say more, {more} more\n")
        } else {
            format!("{texts} of {boards} do not agree\n")
        };
        for (copy, text) in &self.copies {
            said.push_str(&format!("  {copy} is the same as {text}\n"));
        }
        if !self.agree {
            said.push_str(&self.stripes_words());
            said.push_str(&self.pairs_words());
        }
        said
    }

    /// Which texts are wrong, stripe by stripe.
    fn stripes_words(&self) -> String {
        let Some(Stripes { wrong, untold }) = &self.stripes else { return String::new() };
        let (all, k) = (self.texts.len(), self.sizes().k);
        let stripes = self.sizes().stripes(self.texts[0].1.length);
        let of = |list: &[usize]| match list.len() {
            count if count == stripes => "all stripes".to_string(),
            1 => format!("stripe {}", list[0]),
            _ => format!("stripes {}", ranges(list)),
        };
        let mut said = String::new();
        let most = most_wrong(all, k);
        if wrong.iter().any(|list| !list.is_empty()) {
            let are = if most == 1 { "is" } else { "are" };
            said.push_str(&format!("stripe by stripe, if at most {most} of the {all} {are} wrong in each:\n"));
        }
        for (place, list) in wrong.iter().enumerate().filter(|(_, list)| !list.is_empty()) {
            said.push_str(&format!("  {} is wrong in {} of {stripes}: {}\n", self.name(place), list.len(), of(list)));
        }
        if !untold.is_empty() && most == 0 {
            let told = if k + 2 <= self.sizes().n { format!("; {} texts can tell", k + 2) } else { String::new() };
            said.push_str(&format!("not all are right in {}{told}\n", of(untold)));
        } else if !untold.is_empty() {
            said.push_str(&format!("it cannot be told which are wrong in {}\n", of(untold)));
        }
        said
    }

    /// Which texts fit each other: their groups where they fall into some, else of each text those that it does not fit.
    fn pairs_words(&self) -> String {
        if self.all_fit() {
            return if self.enough() { "two by two all fit each other\n".to_string() } else { String::new() };
        }
        let mut said = String::new();
        if let Some(groups) = self.pairs.groups() {
            said.push_str("two by two they fall into groups; none of one fits any of another:\n");
            for group in groups {
                let of: Vec<_> = group.iter().map(|&place| self.texts[place]).collect();
                let fit = if of.len() > 1 { "fit each other" } else { "fits none" };
                said.push_str(&format!("  {fit}: {}\n", names_of(&of)));
            }
            return said;
        }
        said.push_str("two by two, in how many stripes they do not fit:\n");
        for (place, apart) in self.pairs.apart.iter().enumerate() {
            let misfits: Vec<String> = (place + 1..apart.len())
                .filter(|&other| apart[other] > 0)
                .map(|other| format!("{} in {}", self.name(other), apart[other]))
                .collect();
            if !misfits.is_empty() {
                said.push_str(&format!("  {} and {}\n", self.name(place), misfits.join("; ")));
            }
        }
        said
    }

    fn json(&self) -> Value {
        let (k, all) = (self.sizes().k, self.texts.len());
        let wrong = |place: usize| match &self.stripes {
            Some(stripes) => (&stripes.wrong[place]).into(),
            None => Value::List(Vec::new()),
        };
        let text = |(place, (text, read)): (usize, &(&Text, &Read))| {
            object([
                ("text", (&text.name).into()),
                ("board", read.node.into()),
                ("wrong_stripes", wrong(place)),
                ("misfit_stripes", (&self.pairs.apart[place]).into()),
            ])
        };
        let copy = |(copy, text): &(&str, &str)| object([("text", (*copy).into()), ("same_as", (*text).into())]);
        let mut said = object([
            ("agree", self.agree.into()),
            ("enough", self.enough().into()),
            ("checked", (self.agree && all > k).into()),
        ]);
        said.extend(self.texts[0].1.json());
        said.extend([
            ("texts", Value::List(self.texts.iter().enumerate().map(text).collect())),
            ("copies", Value::List(self.copies.iter().map(copy).collect())),
            ("groups", (&self.pairs.groups()).into()),
            ("told_if_wrong_at_most", most_wrong(all, k).into()),
            (
                "untold_stripes",
                self.stripes.as_ref().map_or(Value::List(Vec::new()), |stripes| (&stripes.untold).into()),
            ),
        ]);
        said
    }
}

pub fn check(words: &Words) -> Outcome {
    if words.rest.is_empty() {
        return Err(words.wrong("name the texts, or - for standard input"));
    }
    let quiet = words.has("--quiet");
    let texts = texts::load(&words.rest, true, quiet)?;
    let readable: Vec<(&Text, &Read)> =
        texts.iter().filter_map(|text| text.read.as_ref().ok().map(|read| (text, read))).collect();
    let unreadable: Vec<(&str, &Unreadable)> =
        texts.iter().filter_map(|text| text.read.as_ref().err().map(|why| (text.name.as_str(), why))).collect();
    let files = texts::by_file(&readable);
    let checked: Vec<Checked> =
        files.iter().map(|texts| Checked::of(texts, quiet)).collect::<Result<_, _>>().map_err(unforeseen)?;
    let agree = unreadable.is_empty() && matches!(&checked[..], [one] if one.agree);
    if words.has("--json") {
        files::print(json(agree, &checked, &unreadable).line().as_bytes())?;
    } else if !quiet {
        files::print(said(&checked, &unreadable).as_bytes())?;
    }
    if agree {
        Ok(())
    } else {
        Err(Trouble::Told)
    }
}

fn said(checked: &[Checked], unreadable: &[(&str, &Unreadable)]) -> String {
    let mut said = String::new();
    for (name, why) in unreadable {
        said.push_str(&format!("{name} is not readable: {}{}\n", why.why, why.remedy()));
    }
    if unreadable.iter().any(|(_, why)| why.sense.is_some() && why.tidy.is_none()) {
        said.push_str(
            "copy such a text again, whole, from where it was written; 'zbk look' says how far it makes sense\n",
        );
    }
    if checked.len() > 1 {
        said.push_str(&format!("the texts are of {} files\n", checked.len()));
    }
    for one in checked {
        if checked.len() > 1 {
            said.push_str(&format!("{}:\n", file_words(one.texts[0].1)));
        }
        said.push_str(&one.words());
    }
    said
}

fn json(agree: bool, checked: &[Checked], unreadable: &[(&str, &Unreadable)]) -> Value {
    let none = |(name, why): &(&str, &Unreadable)| {
        object([("text", (*name).into()), ("why", (&why.why).into()), ("tidy", (&why.tidy).into())])
    };
    object([
        ("agree", agree.into()),
        ("files", Value::List(checked.iter().map(Checked::json).collect())),
        ("unreadable", Value::List(unreadable.iter().map(none).collect())),
    ])
}
