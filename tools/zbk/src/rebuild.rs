//! `zbk rebuild`: fresh boards' texts from those of others, by the packets that they send each other.

use crate::agree;
use crate::args::{Takes, Words};
use crate::files::{self, shown, Target};
use crate::folder::{board_file, Listing};
use crate::json::{object, Value};
use crate::progress::Progress;
use crate::spread;
use crate::texts::{self, Read, Text};
use crate::trouble::{boards, count, given, list, refused, say, unforeseen, Outcome, Trouble};
use std::ffi::{OsStr, OsString};
use zebrankai::{board, Points, Refusal, Sizes};

pub const REBUILD: Takes =
    Takes { command: "rebuild", valued: &["--fresh", "--helpers", "--stand-ins"], plain: &["--force", "--json"] };

/// The texts of boards that are not fresh, as a folder has them, and the names under which fresh boards' texts are written.
struct Shelf {
    texts: Vec<Text>,
    targets: Vec<OsString>,
    /// what is not used, and why
    unused: Vec<(String, String)>,
}

/// Why the texts of a file are not those of a board; none where it is one, and the board's.
fn unfit(found: &[Text], board: usize) -> Option<String> {
    match (found, &found[0].read) {
        ([_, _, ..], _) => Some("more than one text".to_string()),
        (_, Err(unreadable)) => Some(unreadable.why.clone() + &unreadable.remedy()),
        (_, Ok(read)) if read.node != board => Some(format!("it is the text of board {}", read.node)),
        _ => None,
    }
}

impl Shelf {
    /// The texts of a folder but those of fresh boards, which are not looked at. One that is no text, of another board than its name says, or a
    /// copy, is left out; why is told.
    fn load(folder: &OsStr, fresh: &[usize], quiet: bool) -> Outcome<Shelf> {
        let listing = Listing::of(folder)?;
        if !quiet {
            listing.tell_passed(folder);
        }
        let mut shelf = Shelf { texts: Vec::new(), targets: Vec::new(), unused: Vec::new() };
        for &board in fresh {
            let mut there = listing.texts.iter().filter(|(other, _)| *other == board).map(|(_, name)| name);
            // a text that is there under another name is the one that is replaced
            shelf.targets.push(there.next().cloned().unwrap_or_else(|| board_file(folder, board)));
            let others =
                there.map(|name| (shown(name), format!("a text of board {board}, which is rebuilt; move it away")));
            shelf.unused.extend(others);
        }
        for (board, name) in listing.texts.iter().filter(|(board, _)| !fresh.contains(board)) {
            shelf.add(*board, name);
        }
        for (name, why) in &shelf.unused {
            say(format!("{name} is not used: {why}"));
        }
        if shelf.texts.is_empty() {
            return refused(Refusal::Down, format!("{} has no text of a board that is not fresh", shown(folder)));
        }
        Ok(shelf)
    }

    /// Adds the text of a board, or why it is not used.
    fn add(&mut self, board: usize, name: &OsStr) {
        let mut found = match texts::load_file(name) {
            Ok(found) => found,
            Err(unread) => return self.unused.push((shown(name), unread.why)),
        };
        let copy =
            self.texts.iter().find(|text| text.bytes == found[0].bytes).map(|text| format!("a copy of {}", text.name));
        match unfit(&found, board).or(copy) {
            Some(why) => self.unused.push((shown(name), why)),
            None => self.texts.append(&mut found),
        }
    }

    /// All texts, which are of one file as far as they say.
    fn all(&self) -> Outcome<Vec<(&Text, &Read)>> {
        let readable = texts::readable(&self.texts)?;
        texts::alike(&readable)?;
        texts::different(&readable)?;
        Ok(readable)
    }
}

/// Who sends what to one fresh board.
struct Plan {
    board: usize,
    helpers: Vec<usize>,
    stand_ins: Vec<usize>,
}

/// The lists that an option gives: one for all fresh boards, or one for each.
fn lists(words: &Words, option: &str, fresh: usize) -> Outcome<Option<Vec<Vec<usize>>>> {
    let given: Vec<Vec<usize>> =
        words.all(option)?.into_iter().map(|value| words.list(option, value)).collect::<Outcome<_>>()?;
    match given.len() {
        0 => Ok(None),
        1 => Ok(Some(vec![given[0].clone(); fresh])),
        count if count == fresh => Ok(Some(given)),
        count => {
            Err(words.wrong(format!("{option} is given {count} times: give it once, or once for each fresh board")))
        }
    }
}

/// Sees that a list that is named has so many boards.
fn counted(what: &str, list: &Option<Vec<usize>>, due: usize) -> Outcome {
    match list {
        Some(list) if list.len() != due => {
            refused(Refusal::Count, format!("{} {what} are named, and {due} are needed", list.len()))
        }
        _ => Ok(()),
    }
}

/// Sees that a list may be: of boards that have texts, none of them fresh or twice or among those taken.
fn check(what: &str, list: &[usize], taken: &[usize], sizes: Sizes, have: &[usize]) -> Outcome {
    for (place, board) in list.iter().enumerate() {
        if *board >= sizes.n {
            return refused(
                Refusal::Node,
                format!("board {} of the {what}: there are boards 0 to {}", given(*board), sizes.n - 1),
            );
        }
        if list[..place].contains(board) || taken.contains(board) {
            return refused(Refusal::Repeat, format!("board {board} of the {what} is named twice, or is fresh"));
        }
        if !have.contains(board) {
            return refused(Refusal::Down, format!("board {board} of the {what} has no text that can be used"));
        }
    }
    Ok(())
}

/// Who sends what: as the words say, and where they do not, the first boards that have texts.
fn plans(words: &Words, fresh: &[usize], sizes: Sizes, have: &[usize]) -> Outcome<Vec<Plan>> {
    let Sizes { n, k, d, r } = sizes;
    let t = fresh.len();
    if t > r {
        return refused(Refusal::Count, format!("{t} fresh boards, and at most r = {r} are rebuilt together"));
    }
    if let Some(board) = fresh.iter().find(|&&board| board >= n) {
        return refused(Refusal::Node, format!("fresh board {}: there are boards 0 to {}", given(*board), n - 1));
    }
    if let Some(place) = (1..t).find(|&place| fresh[..place].contains(&fresh[place])) {
        return refused(Refusal::Repeat, format!("board {} is named fresh twice", fresh[place]));
    }
    let helpers = lists(words, "--helpers", t)?;
    let stand_ins = lists(words, "--stand-ins", t)?;
    let mut plans = Vec::new();
    for (place, &board) in fresh.iter().enumerate() {
        let named = |lists: &Option<Vec<Vec<usize>>>| lists.as_ref().map(|lists| lists[place].clone());
        let (named_helpers, named_stand_ins) = (named(&helpers), named(&stand_ins));
        counted("helpers", &named_helpers, d)?;
        counted("stand-ins", &named_stand_ins, r - t)?;
        let kept = named_stand_ins.clone().unwrap_or_default();
        let free = |taken: &[usize]| have.iter().copied().filter(|board| !taken.contains(board)).collect::<Vec<_>>();
        let helpers = named_helpers.unwrap_or_else(|| free(&kept).into_iter().take(d).collect());
        let stand_ins = named_stand_ins.unwrap_or_else(|| free(&helpers).into_iter().take(r - t).collect());
        if helpers.len() < d || stand_ins.len() < r - t {
            let missing: Vec<usize> = (0..n).filter(|board| !have.contains(board)).collect();
            let advice = if (t + 1..=r).contains(&missing.len()) {
                let named = missing.iter().map(usize::to_string).collect::<Vec<_>>().join(",");
                format!("; all that are missing can be named together, --fresh {named}")
            } else if have.len() >= k {
                "; these are enough for 'zbk gather', and then 'zbk spread'".to_string()
            } else {
                String::new()
            };
            return refused(
                Refusal::Down,
                format!(
                    "{d} helpers and {} are needed beside the fresh boards, and there are texts of {}{advice}",
                    count(r - t, "stand-in"),
                    boards(have)
                ),
            );
        }
        check("helpers", &helpers, fresh, sizes, have)?;
        check("stand-ins", &stand_ins, &[fresh, &helpers].concat(), sizes, have)?;
        plans.push(Plan { board, helpers, stand_ins });
    }
    Ok(plans)
}

/// The boards that send, and what is counted on the bus.
struct Bus<'a> {
    sizes: Sizes,
    points: Points,
    length: usize,
    senders: Vec<&'a Read>,
    carried: usize,
}

impl Bus<'_> {
    /// The packet of a helper.
    fn helper_packet(&self, helper: usize, receiver: usize) -> Result<Vec<u8>, Refusal> {
        let share = &self.senders.iter().find(|read| read.node == helper).expect("it has a text").share;
        let mut packet = vec![0; self.sizes.helper_packet_len(self.length)];
        board::helper_packet(self.sizes, self.points, self.length, helper, receiver, share, &mut packet)?;
        Ok(packet)
    }

    /// What a fresh board gets from its helpers.
    fn helpers_send(&mut self, plan: &Plan) -> Result<Vec<u8>, Refusal> {
        let mut packets = Vec::new();
        for &helper in &plan.helpers {
            packets.extend(self.helper_packet(helper, plan.board)?);
        }
        self.carried += packets.len();
        Ok(packets)
    }

    /// What it gets from its stand-ins: the second bytes of a helper packet.
    fn stand_ins_send(&mut self, plan: &Plan) -> Result<Vec<u8>, Refusal> {
        let mut packets = Vec::new();
        for &stand_in in &plan.stand_ins {
            packets.extend(self.helper_packet(stand_in, plan.board)?.chunks(2).map(|pair| pair[1]));
        }
        self.carried += packets.len();
        Ok(packets)
    }

    /// What a fresh board sends another, from its own helpers' packets.
    fn exchanged(&mut self, sender: &Plan, packets: &[u8], receiver: usize) -> Result<Vec<u8>, Refusal> {
        let Bus { sizes, points, length, .. } = *self;
        let mut packet = vec![0; sizes.exchange_packet_len(length)];
        board::exchange_packet(sizes, points, length, sender.board, &sender.helpers, packets, receiver, &mut packet)?;
        self.carried += packet.len();
        Ok(packet)
    }

    /// The texts of all fresh boards.
    fn rebuilt(&mut self, plans: &[Plan], progress: &Progress) -> Result<Vec<Vec<u8>>, Refusal> {
        let Bus { sizes, points, length, .. } = *self;
        let mut heard = Vec::new();
        for plan in plans {
            heard.push(self.helpers_send(plan)?);
            progress.step(1);
        }
        let mut texts = Vec::new();
        for (plan, packets) in plans.iter().zip(&heard) {
            let mut partners = plan.stand_ins.clone();
            let mut sent = self.stand_ins_send(plan)?;
            for (other, packets) in plans.iter().zip(&heard).filter(|(other, _)| other.board != plan.board) {
                partners.push(other.board);
                sent.extend(self.exchanged(other, packets, plan.board)?);
            }
            let mut share = vec![0; sizes.stripes(length) * sizes.share_len()];
            let helpers = &plan.helpers;
            board::finished_share(sizes, points, length, plan.board, helpers, packets, &partners, &sent, &mut share)?;
            texts.push(spread::text(sizes, points, length, plan.board, &share)?);
            progress.step(1);
        }
        Ok(texts)
    }
}

pub fn rebuild(words: &Words) -> Outcome {
    let folder = match &words.rest[..] {
        [] => return Err(words.wrong("name the folder of the texts")),
        [folder] if folder.is_empty() => return Err(words.wrong("the folder's name is empty")),
        [folder] => folder,
        _ => return Err(words.wrong("one folder; numbers of boards have commas between, as 2,5")),
    };
    let fresh = words.value("--fresh")?.ok_or_else(|| words.wrong("--fresh is missing: which boards?"))?;
    let fresh = words.list("--fresh", fresh)?;
    let quiet = words.has("--quiet");
    let shelf = Shelf::load(folder, &fresh, quiet)?;
    let all = shelf.all()?;
    let (sizes, points, length) = all[0].1.of_file();
    let have: Vec<usize> = all.iter().map(|(_, read)| read.node).collect();
    let plans = plans(words, &fresh, sizes, &have)?;
    let targets: Vec<Target> =
        shelf.targets.iter().map(|name| Target::new(name, words.has("--force"))).collect::<Outcome<_>>()?;

    // packets of a text that is not as it was written would spoil what is rebuilt; where d = k those that send may not show it, the others do
    agree::all(&all, "name it with --fresh, or move it away", quiet)?;
    let sends =
        |board: usize| plans.iter().any(|plan| plan.helpers.contains(&board) || plan.stand_ins.contains(&board));
    let senders: Vec<(&Text, &Read)> = all.into_iter().filter(|(_, read)| sends(read.node)).collect();
    let reads = senders.iter().map(|(_, read)| *read).collect();
    let mut bus = Bus { sizes, points, length, senders: reads, carried: 0 };
    let progress = Progress::new("steps of the rebuilding", 2 * plans.len(), quiet);
    let rebuilt = bus.rebuilt(&plans, &progress).map_err(unforeseen)?;
    let (stripes, t, each) = (sizes.stripes(length), plans.len(), sizes.share_len());
    if bus.carried != stripes * t * each {
        return Err(Trouble::Failed(format!("{} bytes were carried, and {} are due", bus.carried, stripes * t * each)));
    }
    files::write_all(&targets.into_iter().zip(rebuilt).collect::<Vec<_>>())?;
    if words.has("--json") {
        files::report(&json(&plans, &shelf, bus.carried, stripes).line())
    } else if quiet {
        Ok(())
    } else {
        files::report(&report(&plans, bus.carried, stripes, each))
    }
}

/// The other fresh boards, with which one exchanges packets.
fn exchanges(plans: &[Plan], plan: &Plan) -> Vec<usize> {
    plans.iter().map(|other| other.board).filter(|&board| board != plan.board).collect()
}

/// Who sent what, in words.
fn report(plans: &[Plan], carried: usize, stripes: usize, each: usize) -> String {
    let mut said = String::new();
    for plan in plans {
        said.push_str(&format!("board {} rebuilt: helpers {}", plan.board, list(&plan.helpers)));
        for (what, from) in [("stand-ins", &plan.stand_ins), ("exchanges with", &exchanges(plans, plan))] {
            if !from.is_empty() {
                said.push_str(&format!("; {what} {}", list(from)));
            }
        }
        said.push('\n');
    }
    let (stripes, t) = (count(stripes, "stripe"), count(plans.len(), "board"));
    said.push_str(&format!("{carried} bytes over the bus: {stripes} x {t} x {each} bytes\n"));
    said
}

fn json(plans: &[Plan], shelf: &Shelf, carried: usize, stripes: usize) -> Value {
    let plan = |(plan, name): (&Plan, &OsString)| {
        object([
            ("board", plan.board.into()),
            ("text", (&shown(name)).into()),
            ("helpers", (&plan.helpers).into()),
            ("stand_ins", (&plan.stand_ins).into()),
            ("exchanges", (&exchanges(plans, plan)).into()),
        ])
    };
    let unused = |(name, why): &(String, String)| object([("text", name.into()), ("why", why.into())]);
    object([
        ("rebuilt", Value::List(plans.iter().zip(&shelf.targets).map(plan).collect())),
        ("stripes", stripes.into()),
        ("bytes_over_bus", carried.into()),
        ("unused", Value::List(shelf.unused.iter().map(unused).collect())),
    ])
}
