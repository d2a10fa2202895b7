//! `zbk sizes`: all legal sizes, as the size printer writes them; and of some sizes what they cost.

use crate::args::{Takes, Words};
use crate::files;
use crate::json::Value;
use crate::spread::{answered, broken_rule};
use crate::trouble::{count, given, refused, Outcome, Trouble};
use zebrankai::{Refusal, Sizes, MAX_BOARDS, MAX_STRIPES};

pub const SIZES: Takes =
    Takes { command: "sizes", valued: &["--boards", "--read", "--helpers", "--fresh", "--length"], plain: &["--json"] };

/// The options that say sizes.
const FOUR: [&str; 4] = ["--boards", "--read", "--helpers", "--fresh"];

pub fn sizes(words: &Words) -> Outcome {
    let four = FOUR.iter().any(|option| words.given(option));
    match (&words.rest[..], four) {
        ([limit], false) if !words.given("--length") => list(words, words.plain(limit)?),
        ([], true) => figures(words),
        _ => Err(words.wrong("name the most boards, 2 to 32; or sizes by --boards, --read, --helpers and --fresh")),
    }
}

/// All legal sizes with at most so many boards.
fn list(words: &Words, limit: &str) -> Outcome {
    let most = limit.parse::<usize>().ok().filter(|most| most.to_string() == limit && (2..=MAX_BOARDS).contains(most));
    let Some(most) = most else {
        return answered(Trouble::Refused(Refusal::Size, format!("the most boards are 2 to 32, not {limit}")));
    };
    let all = (2..=most).flat_map(|n| (1..n).flat_map(move |k| (k..n).map(move |d| (n, k, d))));
    let all = all.flat_map(|(n, k, d)| (1..=n - d).map(move |r| Sizes { n, k, d, r }));
    if words.has("--json") {
        return files::print(Value::List(all.map(|sizes| Value::Object(named(sizes))).collect()).line().as_bytes());
    }
    let line = |sizes: Sizes| {
        let Sizes { n, k, d, r } = sizes;
        format!("n={n} k={k} d={d} r={r} share={} stripe={}\n", sizes.share_len(), sizes.stripe_len())
    };
    files::print(all.map(line).collect::<String>().as_bytes())
}

/// Sizes, and the bytes of a share and of a stripe.
fn named(sizes: Sizes) -> Vec<(&'static str, Value)> {
    let Sizes { n, k, d, r } = sizes;
    let numbers =
        [("n", n), ("k", k), ("d", d), ("r", r), ("share", sizes.share_len()), ("stripe", sizes.stripe_len())];
    numbers.into_iter().map(|(name, number)| (name, number.into())).collect()
}

/// What sizes cost, each against the file's bytes.
struct Cost {
    /// on all boards
    storage: f64,
    /// on all boards by a code that stores as little as can be
    least: f64,
    /// over the bus for one board
    one: f64,
    /// over the bus for r boards together
    together: f64,
    /// for r boards where one fetches the file and sends the others a k-th of it each
    fetched: f64,
}

impl Cost {
    fn of(sizes: Sizes) -> Cost {
        let [n, k, r, share, stripe] =
            [sizes.n, sizes.k, sizes.r, sizes.share_len(), sizes.stripe_len()].map(|number| number as f64);
        Cost {
            storage: n * share / stripe,
            least: n / k,
            one: share / stripe,
            together: r * share / stripe,
            fetched: 1.0 + (r - 1.0) / k,
        }
    }
}

/// The lengths for a file.
fn lengths(sizes: Sizes, length: usize) -> [(&'static str, usize); 8] {
    let share = sizes.whole_share_len(length);
    [
        ("length", length),
        ("stripes", sizes.stripes(length)),
        ("share", share),
        ("text_at_most", sizes.text_room(length)),
        ("helper_packet", sizes.helper_packet_len(length)),
        ("exchange_packet", sizes.exchange_packet_len(length)),
        ("area", sizes.area_len(sizes.stripes(length).max(1))),
        ("bus_for_a_board", share),
    ]
}

fn figures(words: &Words) -> Outcome {
    let sizes = words.sizes()?;
    if !sizes.is_legal() {
        return refused(Refusal::Size, broken_rule(sizes));
    }
    let longest = sizes.longest(MAX_STRIPES);
    let length = words.value("--length")?.map(|value| words.number_of("--length", value)).transpose()?;
    if let Some(length) = length.filter(|length| *length > longest) {
        return refused(
            Refusal::Long,
            format!("{} bytes; the longest file for these sizes has {longest}", given(length)),
        );
    }
    let said = if words.has("--json") { json(sizes, length).line() } else { table(sizes, length) };
    files::print(said.as_bytes())
}

fn json(sizes: Sizes, length: Option<usize>) -> Value {
    let Cost { storage, least, one, together, fetched } = Cost::of(sizes);
    let careful = Some(sizes.k + 2).filter(|boards| *boards <= sizes.n);
    let mut said = Value::Object(named(sizes));
    said.extend([
        ("longest", sizes.longest(MAX_STRIPES).into()),
        ("may_be_lost", (sizes.n - sizes.k).into()),
        ("careful_read", (&careful).into()),
        ("storage", Value::Fraction(storage)),
        ("storage_least", Value::Fraction(least)),
        ("bus_one", Value::Fraction(one)),
        ("bus_together", Value::Fraction(together)),
        ("bus_together_fetched", Value::Fraction(fetched)),
    ]);
    if let Some(length) = length {
        said.extend([("file", Value::Object(lengths(sizes, length).map(|(name, bytes)| (name, bytes.into())).into()))]);
    }
    said
}

fn table(sizes: Sizes, length: Option<usize>) -> String {
    let Sizes { n, k, d, r } = sizes;
    let Cost { storage, least, one, together, fetched } = Cost::of(sizes);
    let careful =
        if k + 2 <= n { format!("{} boards name one that is wrong", k + 2) } else { "too few boards".to_string() };
    let others = if r > 1 { format!(" and {}", count(r - 1, "other")) } else { String::new() };
    let mut rows = vec![
        ("sizes", format!("n={n} k={k} d={d} r={r}")),
        ("a stripe", format!("{} bytes of the file, {} on each board", sizes.stripe_len(), sizes.share_len())),
        ("longest file", format!("{} bytes, {MAX_STRIPES} stripes", sizes.longest(MAX_STRIPES))),
        ("may be lost", format!("{} of {n} boards, and the file is read; with {d} left, boards are rebuilt", n - k)),
        ("careful read", careful),
        ("storage", format!("{storage:.2} times the file; the least for these n and k is {least:.2}")),
        ("one rebuilt", format!("{one:.2} of the file over the bus, from {}{others}", count(d, "helper"))),
    ];
    if r > 1 {
        let against = format!("{fetched:.2} where one fetches the file for all");
        rows.push(("together", format!("{together:.2} of the file over the bus for {r} boards; {against}")));
    }
    if let Some(length) = length {
        let file = lengths(sizes, length).map(|(name, bytes)| format!("{} {bytes}", name.replace('_', " ")));
        rows.push(("this file", file.join(", ")));
    }
    rows.into_iter().map(|(name, words)| format!("{name:<14}{words}\n")).collect()
}
