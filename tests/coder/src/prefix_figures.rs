//! Figures of request A.14 of document 02: how far texts make sense, as literal texts with the numbers worked out by hand.

use crate::call::{Call, Lent, Outcome};
use crate::figures::figure;
use crate::trial::Trial;

/// Document 01's text, and one with points.
const PRINTED: &str = "n=2\nk=1\nd=1\nr=1\nnode=0\nlength=2\ndata=0506\n";
const POINTED: &str = "n=2\nk=1\nd=1\nr=1\nnode=1\nlength=1\npoints=ba09\ndata=c0de\n";

/// Texts up to a place, what stands behind it, and how many bytes of that make sense.
const NUMBERS: [(&str, &[(&str, usize)]); 13] = [
    ("", &[("", 0), ("x", 0), ("n", 1), ("n ", 1), ("\n", 0), ("k=1", 0), ("\u{feff}n=2", 0)]),
    (
        "n=",
        &[
            ("0", 0),
            ("02", 0),
            ("1", 1),
            ("1\n", 1),
            ("2\n", 2),
            ("32", 2),
            ("32\n", 3),
            ("33", 1),
            ("4", 1),
            ("40", 1),
        ],
    ),
    ("n=2", &[("\r\n", 0), (" ", 0), ("\nd", 1), ("\nk", 2), ("\nk=1\nd=1\nr=1\nn", 14)]),
    ("n=4\nk=3\nd=", &[("2", 0), ("3", 1), ("3\n", 2), ("4", 0), ("3\nr=2", 4), ("3\nr=1\n", 6)]),
    ("n=32\nk=20\nd=", &[("1", 0), ("2", 1), ("3", 1), ("20", 2), ("2\n", 1), ("19", 0), ("31", 2), ("32", 1)]),
    ("n=5\nk=2\nd=3\nr=", &[("0", 0), ("1", 1), ("2", 1), ("3", 0), ("10", 1), ("2\nnode=5", 7), ("2\nnode=4", 8)]),
    (
        "n=5\nk=2\nd=3\nr=2\nnode=4\nlength=",
        &[("49152", 5), ("49153", 4), ("100000", 5), ("49152\n", 6), ("5000\n", 5), ("", 0)],
    ),
    (
        "n=32\nk=1\nd=1\nr=1\nnode=",
        &[("4", 1), ("40", 1), ("31", 2), ("32", 1), ("0", 1), ("00", 1), ("0\n", 2), ("\n", 0)],
    ),
    (
        "n=2\nk=1\nd=1\nr=1\nnode=0\nlength=",
        &[("8192", 4), ("8193", 3), ("0", 1), ("01", 1), ("-1", 0), ("1\np", 3), ("1\nn", 2)],
    ),
    (
        "n=32\nk=31\nd=31\nr=1\nnode=0\nlength=",
        &[("4063232\n", 8), ("4063233", 6), ("40632320", 7), ("406323", 6), ("9999999", 6)],
    ),
    (
        "n=2\nk=1\nd=1\nr=1\nnode=0\nlength=1\npoints=",
        &[
            ("0001", 3),
            ("0000", 3),
            ("0002", 4),
            ("0A", 1),
            ("00\n", 2),
            ("0100\n", 5),
            ("010200", 4),
            ("0102\npoints", 5),
        ],
    ),
    (
        "n=2\nk=1\nd=1\nr=1\nnode=0\nlength=1\n",
        &[
            ("data=0506\n", 10),
            ("data=0506\n\n", 10),
            ("data=050600", 9),
            ("data=0\n", 6),
            ("x", 0),
            ("dat ", 3),
            ("data=0F", 6),
        ],
    ),
    (
        "n=2\nk=1\nd=1\nr=1\nnode=0\nlength=0\n",
        &[("data=\n", 6), ("data=0", 5), ("data=\nn=2", 6), ("points=0201\ndata=\n", 18)],
    ),
];

/// n boards, of whose points 0 to n − 2 are said; what stands behind them, and how many bytes of that make sense.
const ROWS: [(usize, &[(&str, usize)]); 4] = [
    (15, &[("0", 1), ("0e", 1), ("0f", 2), ("0d", 1)]),
    (16, &[("0", 0), ("1", 1), ("10", 2), ("0f", 0)]),
    (17, &[("0", 0), ("10", 1), ("11", 2), ("1", 1)]),
    (32, &[("1", 0), ("ff\n", 3), ("0", 0), ("20", 2)]),
];

pub fn run(trial: &mut Trial) {
    for (before, all) in NUMBERS {
        for (behind, count) in all {
            makes_sense(trial, before, behind, *count);
        }
    }
    for (n, all) in ROWS {
        let points: String = (0..n - 1).map(|point| format!("{point:02x}")).collect();
        let before = format!("n={n}\nk=1\nd=1\nr=1\nnode=0\nlength=1\npoints={points}");
        for (behind, count) in all {
            makes_sense(trial, &before, behind, *count);
        }
    }
    for text in [PRINTED, POINTED] {
        for place in 0..=text.len() {
            makes_sense(trial, &text[..place], "", 0);
        }
        makes_sense(trial, text, "\n", 0);
        makes_sense(trial, text, text, 0);
    }
}

/// All bytes of `before` and so many of those behind it.
fn makes_sense(trial: &mut Trial, before: &str, behind: &str, count: usize) {
    let call = Call::Prefix { text: [before, behind].concat().into_bytes() };
    let expected = Outcome::accepted(before.len() + count, Lent::default());
    figure(trial, "how far a text makes sense", call, Lent::default(), expected);
}
