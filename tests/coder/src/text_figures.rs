//! Figures of request A.1 of document 02, as literal texts: document 01's own text, texts of five boards, and what is none.

use crate::call::refusal::{COUNT, DISAGREE, MIXED, REPEAT, SHORT, SIZE, TEXT};
use crate::call::{Call, Lent, Outcome};
use crate::figures::{figure, refused};
use crate::points::filled_up;
use crate::trial::Trial;

/// The text that document 01 prints.
const PRINTED: &str = "n=2\nk=1\nd=1\nr=1\nnode=0\nlength=2\ndata=0506\n";

/// Document 01's file X²Y on boards 1, 3 and 4 of five, k = 2, d = 3, r = 2 (M8, M10, M11), and on boards 1 and 3 of the first series.
const BOARD_1: &str = "n=5\nk=2\nd=3\nr=2\nnode=1\nlength=12\ndata=01020304000405\n";
const BOARD_3: &str = "n=5\nk=2\nd=3\nr=2\nnode=3\nlength=12\ndata=0f1400050a3000\n";
const BOARD_4: &str = "n=5\nk=2\nd=3\nr=2\nnode=4\nlength=12\ndata=40001020300004\n";
const FIRST_1: &str = "n=5\nk=2\nd=3\nr=2\nnode=1\nlength=12\npoints=0102030405\ndata=080c1014040a20\n";
const FIRST_3: &str = "n=5\nk=2\nd=3\nr=2\nnode=3\nlength=12\npoints=0102030405\ndata=40501020304404\n";

/// The file X²Y.
const FILE: [u8; 12] = [0, 0, 0, 0, 0, 0, 0, 0, 0, 0, 0, 1];

pub fn run(trial: &mut Trial) {
    reads(trial, PRINTED, [2, 1, 1, 1, 0, 2], &[0, 1], &[5, 6]);
    reads(trial, BOARD_3, [5, 2, 3, 2, 3, 12], &[0, 1, 2, 3, 4], &[0x0F, 0x14, 0x00, 0x05, 0x0A, 0x30, 0x00]);
    reads(trial, FIRST_1, [5, 2, 3, 2, 1, 12], &[1, 2, 3, 4, 5], &[0x08, 0x0C, 0x10, 0x14, 0x04, 0x0A, 0x20]);
    reads(trial, "n=32\nk=1\nd=1\nr=1\nnode=31\nlength=0\ndata=\n", [32, 1, 1, 1, 31, 0], &all_32(), &[]);
    not_read(trial);
    cut_and_altered(trial);
    gathered(trial);
    not_gathered(trial);
}

/// 0 to 31.
fn all_32() -> Vec<usize> {
    (0..32).collect()
}

/// What a reading is lent: six words, room for 32 points, and an output.
fn lent(out: usize) -> Lent {
    Lent { record: vec![u64::MAX; 6], area: vec![0xEE; 32], out: vec![0xEE; out], ..Lent::default() }
}

fn read(text: &str) -> Call {
    Call::ReadText { text: text.as_bytes().to_vec() }
}

fn gather(texts: &[&str]) -> Call {
    Call::Gather { text: texts.concat().into_bytes() }
}

/// A text that is read: its head, its points and its share, into an output that is longer by one byte.
fn reads(trial: &mut Trial, text: &str, head: [u64; 6], points: &[usize], share: &[u8]) {
    let out = [share, &[0xEE]].concat();
    let after = Lent { record: head.to_vec(), area: filled_up(points.to_vec()), out, ..Lent::default() };
    figure(trial, "a text read", read(text), lent(share.len() + 1), Outcome::accepted(share.len(), after));
    if !share.is_empty() {
        refused(trial, "an output too short by one", read(text), lent(share.len() - 1), SHORT);
    }
}

/// "12 TEXT for any other text, before all else"; "No text at all is .. TEXT in the reader".
fn not_read(trial: &mut Trial) {
    let wrong = [
        "",
        "x",
        "\n",
        "n=02\nk=1\nd=1\nr=1\nnode=0\nlength=2\ndata=0506\n",
        "n=2\nk=1\nd=1\nr=1\nnode=00\nlength=2\ndata=0506\n",
        "n=+2\nk=1\nd=1\nr=1\nnode=0\nlength=2\ndata=0506\n",
        "n=\nk=1\nd=1\nr=1\nnode=0\nlength=2\ndata=0506\n",
        "n=18446744073709551618\nk=1\nd=1\nr=1\nnode=0\nlength=2\ndata=0506\n",
        // sizes, board and length that the share-as-text call refuses
        "n=1\nk=1\nd=1\nr=1\nnode=0\nlength=2\ndata=0506\n",
        "n=33\nk=1\nd=1\nr=1\nnode=0\nlength=2\ndata=0506\n",
        "n=2\nk=0\nd=1\nr=1\nnode=0\nlength=2\ndata=0506\n",
        "n=2\nk=1\nd=1\nr=0\nnode=0\nlength=2\ndata=0506\n",
        "n=2\nk=1\nd=1\nr=1\nnode=2\nlength=2\ndata=0506\n",
        "n=2\nk=1\nd=1\nr=1\nnode=0\nlength=8193\ndata=0506\n",
        // pairs
        "n=2\nk=1\nd=1\nr=1\nnode=0\nlength=2\ndata=05\n",
        "n=2\nk=1\nd=1\nr=1\nnode=0\nlength=2\ndata=050607\n",
        "n=2\nk=1\nd=1\nr=1\nnode=0\nlength=2\ndata=0A06\n",
        "n=2\nk=1\nd=1\nr=1\nnode=0\nlength=3\ndata=0506\n",
        "n=2\nk=1\nd=1\nr=1\nnode=0\nlength=0\ndata=0506\n",
        // lines
        "n=2\r\nk=1\r\nd=1\r\nr=1\r\nnode=0\r\nlength=2\r\ndata=0506\r\n",
        "k=1\nn=2\nd=1\nr=1\nnode=0\nlength=2\ndata=0506\n",
        "n=2\nk=1\nd=1\nr=1\nnode=0\nlength=2\n\ndata=0506\n",
        "n=2\nk=1\nd=1\nr=1\nlength=2\nnode=0\ndata=0506\n",
        "n=2\nk=1\nd=1\nr=1\nnode=0\nlength=2\ndata=0506",
        "n=2\nk=1\nd=1\nr=1\nnode=0\nlength=2\ndata=0506\n\n",
        "n=2\nk=1\nd=1\nr=1\nnode=0\nlength=2\ndata=0506\nn=2\nk=1\nd=1\nr=1\nnode=1\nlength=2\ndata=0605\n",
        // points
        "n=2\nk=1\nd=1\nr=1\nnode=0\nlength=2\npoints=0001\ndata=0506\n",
        "n=2\nk=1\nd=1\nr=1\nnode=0\nlength=2\npoints=0101\ndata=0506\n",
        "n=2\nk=1\nd=1\nr=1\nnode=0\nlength=2\npoints=01\ndata=0506\n",
        "n=2\nk=1\nd=1\nr=1\nnode=0\nlength=2\npoints=010200\ndata=0506\n",
        "n=2\nk=1\nd=1\nr=1\nnode=0\nlength=2\npoints=010A\ndata=0506\n",
        "n=2\nk=1\nd=1\nr=1\nnode=0\npoints=0102\nlength=2\ndata=0506\n",
    ];
    for text in wrong {
        refused(trial, "no text", read(text), lent(100), TEXT);
        // before SHORT, after a head or points of another length
        refused(trial, "no text, and no room", read(text), lent(0), TEXT);
    }
    for text in [PRINTED, "x"] {
        for (words, bytes) in [(5, 32), (7, 32), (0, 32), (6, 31), (6, 33), (6, 0)] {
            let lent = Lent { record: vec![9; words], area: vec![9; bytes], ..Lent::default() };
            refused(trial, "another head", read(text), lent, SIZE);
        }
    }
}

/// Document 01's text and one with points: cut at every byte, and with every byte altered to each of those that texts have.
fn cut_and_altered(trial: &mut Trial) {
    let with_points = "n=2\nk=1\nd=1\nr=1\nnode=1\nlength=1\npoints=ba09\ndata=c0de\n";
    for text in [PRINTED, with_points] {
        for place in 0..text.len() {
            refused(trial, "a text cut", read(&text[..place]), lent(2), TEXT);
            for byte in *b"0129afAF\n\r =n\0\x80" {
                let mut altered = text.as_bytes().to_vec();
                if altered[place] == byte {
                    continue;
                }
                altered[place] = byte;
                let call = Call::ReadText { text: altered };
                let lent = lent(2);
                let expected = crate::texts::expect(&call, &lent);
                figure(trial, "a text with a byte altered", call, lent, expected);
            }
        }
    }
}

/// k texts in any order.
fn gathered(trial: &mut Trial) {
    let all: [(&[&str], &[u8]); 6] = [
        (&[PRINTED], &[5, 3]),
        (&[BOARD_1, BOARD_3], &FILE),
        (&[BOARD_3, BOARD_1], &FILE),
        (&[BOARD_4, BOARD_1], &FILE),
        (&[FIRST_3, FIRST_1], &FILE),
        (&["n=2\nk=1\nd=1\nr=1\nnode=1\nlength=0\ndata=\n"], &[]),
    ];
    for (texts, file) in all {
        let lent = Lent::output(vec![0xEE; file.len() + 1]);
        let after = Lent::output([file, &[0xEE]].concat());
        figure(trial, "texts gathered", gather(texts), lent, Outcome::accepted(file.len(), after));
    }
}

/// "12 TEXT .. before all else; 13 MIXED .. after 12 and before 4"; then 6, 7, 10. TEXT is asked of all bytes before MIXED of any text.
fn not_gathered(trial: &mut Trial) {
    let of_6 = &BOARD_3.replace("n=5", "n=6");
    let of_11 = &BOARD_3.replace("length=12", "length=11");
    // six boards with the same 32 bytes of points, since the last one has 00
    let first_of_6 = &FIRST_3.replace("n=5", "n=6").replace("0102030405", "010203040500");
    let altered = &BOARD_3.replace("data=0f", "data=0e");
    let upper = &BOARD_3.replace("0f14", "0F14");
    let said = &BOARD_3.replace("data", "points=0001020304\ndata");
    let all: [(&[&str], usize, u8); 31] = [
        (&[], 12, COUNT),
        (&[], 0, COUNT),
        (&["x"], 12, TEXT),
        (&["\n"], 12, TEXT),
        (&[BOARD_1, BOARD_3, "x"], 12, TEXT),
        (&[BOARD_1, "\n", BOARD_3], 12, TEXT),
        (&[BOARD_1, upper], 12, TEXT),
        (&[BOARD_1, said], 12, TEXT),
        (&[BOARD_1, &BOARD_3[..BOARD_3.len() - 1]], 12, TEXT),
        // broken, mixed, too many
        (&[BOARD_1, of_6, BOARD_3, "n="], 12, TEXT),
        (&[of_6, upper], 12, TEXT),
        (&[BOARD_1, of_6], 12, MIXED),
        (&[of_6, BOARD_1], 12, MIXED),
        (&[BOARD_1, of_11], 12, MIXED),
        (&[BOARD_1, FIRST_3], 12, MIXED),
        (&[FIRST_1, BOARD_3], 12, MIXED),
        (&[BOARD_1, PRINTED], 12, MIXED),
        (&[FIRST_1, first_of_6], 12, MIXED),
        (&[first_of_6, FIRST_1], 12, MIXED),
        // mixed and too many; mixed, a board twice and no room
        (&[BOARD_1, BOARD_3, of_11], 12, MIXED),
        (&[BOARD_1, BOARD_4, FIRST_3], 12, MIXED),
        (&[BOARD_3, of_11], 0, MIXED),
        (&[BOARD_1], 12, COUNT),
        (&[BOARD_1, BOARD_3, BOARD_4], 12, COUNT),
        // too many and a board twice
        (&[BOARD_1, BOARD_1, BOARD_3], 12, COUNT),
        (&[BOARD_1, BOARD_1], 12, REPEAT),
        (&[BOARD_3, altered], 0, REPEAT),
        (&[BOARD_1, BOARD_3], 11, SHORT),
        (&[BOARD_1, altered], 11, SHORT),
        (&[BOARD_1, altered], 12, DISAGREE),
        (&[of_11, &BOARD_1.replace("length=12", "length=11")], 12, DISAGREE),
    ];
    for (texts, out, number) in all {
        refused(trial, "texts not gathered", gather(texts), Lent::output(vec![0xEE; out]), number);
    }
}
