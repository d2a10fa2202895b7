//! Products of two bytes (request A.4 of document 02): all 65,536, and all quotients by the 255 bytes other than 00, through the archive, against the
//! field of the coder alone; and all products and inverses as bytes, for `tests/products.sh`.
//!
//! Points may be any bytes (request A.9). With k = d = r = 1 a stripe is two bytes, the coefficients of F = a + b Y, and a board keeps F at its own
//! point and at its neighbour's. So of the file 00 b a board with the point y keeps y × b; and one with the point 00 that keeps 00 and b, its
//! neighbour having the point y, gives the file 00 and b divided by y.

use crate::call::{Call, Lent, Outcome};
use crate::code::Sizes;
use crate::field::FIELD;
use crate::points::filled_up;
use crate::store;
use crate::trial::{Place, Trial};

/// Two boards.
const TWO: Sizes = Sizes { n: 2, k: 1, d: 1, r: 1 };

/// A third one to send to.
const THREE: Sizes = Sizes { n: 3, ..TWO };

/// A stripe for each byte.
const STRIPES: usize = 256;

/// 256 stripes of two bytes: 00, and what is given for each byte.
fn each_byte(second: impl Fn(u8) -> u8) -> Vec<u8> {
    (0..=255).flat_map(|b| [0, second(b)]).collect()
}

/// What a board keeps of the stripes 00 b: products with its own point and with its neighbour's.
fn kept(own: u8, neighbour: u8) -> Vec<u8> {
    (0..=255).flat_map(|b| [FIELD.product(own, b), FIELD.product(neighbour, b)]).collect()
}

/// Every product, and every quotient.
pub fn run(trial: &mut Trial) {
    for y in 0..=255u8 {
        // the other board's point
        let z = !y;
        let points = filled_up([y, z].map(usize::from));
        by_share(trial, &points);
        by_write(trial, &points);
    }
    for y in 1..=255u8 {
        let points = filled_up([0, usize::from(y)]);
        by_file(trial, &points);
        by_read(trial, &points);
        by_helper(trial, y);
    }
}

fn check(trial: &mut Trial, name: &str, call: Call, lent: Lent, expected: Outcome) {
    trial.place = Place::Figure(name.to_string());
    trial.check(&call, &lent, &expected);
}

/// Holds a board-level call to these bytes.
fn writes(trial: &mut Trial, name: &str, call: Call, bytes: Vec<u8>) {
    let lent = Lent::output(vec![0xEE; bytes.len()]);
    check(trial, name, call, lent, Outcome::accepted(bytes.len(), Lent::output(bytes)));
}

fn by_share(trial: &mut Trial, points: &[u8]) {
    let call = Call::Share { sizes: TWO, points: points.to_vec(), node: 0, file: each_byte(|b| b) };
    writes(trial, "products by a share", call, kept(points[0], points[1]));
}

fn by_write(trial: &mut Trial, points: &[u8]) {
    let area = [kept(points[0], points[1]), kept(points[1], points[0])].concat();
    let words = |written: Option<usize>, boards: &[usize]| store::words(TWO, points, STRIPES, written, boards);
    let lent = Lent::idle(words(None, &[]), vec![0xEE; area.len()], Vec::new());
    let after = Lent::idle(words(Some(2 * STRIPES), &[0, 1]), area, Vec::new());
    let call = Call::Write { file: each_byte(|b| b) };
    check(trial, "products by a write", call, lent, Outcome::accepted(0, after));
}

fn quotient(b: u8, y: u8) -> u8 {
    FIELD.product(b, FIELD.inverse(y))
}

fn by_file(trial: &mut Trial, points: &[u8]) {
    let shares = each_byte(|b| b);
    let call = Call::File { sizes: TWO, points: points.to_vec(), length: 2 * STRIPES, boards: vec![0], shares };
    writes(trial, "quotients by a file", call, each_byte(|b| quotient(b, points[1])));
}

fn by_read(trial: &mut Trial, points: &[u8]) {
    let record = store::words(TWO, points, STRIPES, Some(2 * STRIPES), &[0]);
    let area = [each_byte(|b| b), vec![0xEE; 2 * STRIPES]].concat();
    let lent = Lent::idle(record, area, vec![0xEE; 2 * STRIPES]);
    let after = Lent { out: each_byte(|b| quotient(b, points[1])), ..lent.clone() };
    check(trial, "quotients by a read", Call::Read { boards: vec![0] }, lent, Outcome::accepted(0, after));
}

/// Board 0 has the point 00 and keeps 00 and b, so its f has the slope b divided by y; board 2 hears the slope times its own point, and then byte 0
/// of the stripe, which is all of board 0's g.
fn by_helper(trial: &mut Trial, y: u8) {
    let x = if y == 1 { 2 } else { 1 };
    let points = filled_up([0, y, x].map(usize::from));
    let share = each_byte(|b| b);
    let call = Call::Helper { sizes: THREE, points, length: 2 * STRIPES, helper: 0, receiver: 2, share };
    let packet = (0..=255).flat_map(|b| [FIELD.product(quotient(b, y), x), 0]).collect();
    writes(trial, "quotients by a helper packet", call, packet);
}

/// All products and inverses of the coder's own field: for each byte a the products of a and 00 to FF, and the inverse of a, which is 00 for 00.
pub fn rows() -> Vec<u8> {
    assert!(FIELD.holds(), "the coder's own field is wrong");
    let inverse = |a| if a == 0 { 0 } else { FIELD.inverse(a) };
    (0..=255).flat_map(|a| (0..=255).map(move |b| FIELD.product(a, b)).chain([inverse(a)])).collect()
}
