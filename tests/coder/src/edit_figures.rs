//! Edits (request A.6 of document 02) as literal figures: n = 5, k = 2, d = 3, r = 2 and F = X²Y, whose coefficient 01 becomes 02, so that each share
//! is doubled; what is refused of an edit, each line before those that follow.

use crate::call::refusal::{AREA, COUNT, DISAGREE, DOWN, EMPTY, NODE, RANGE, REPEAT, SIZE};
use crate::call::{Call, Lent, Outcome};
use crate::figures::{figure, record_of, refused, Series};
use crate::trial::Trial;

fn call(offset: usize, bytes: &[u8], boards: &[usize]) -> Call {
    Call::Edit { offset, bytes: bytes.to_vec(), boards: boards.to_vec() }
}

/// 02 in the place of 01 and back, with all boards in service, with one out of service, and with a wrong one.
pub fn doubled(trial: &mut Trial, series: &Series) {
    let Series { name, points, shares, .. } = series;
    // all are below 80: 02 times each is its double
    let shares = shares.concat();
    let doubles: Vec<u8> = shares.iter().map(|byte| 2 * byte).collect();
    let all = Lent::idle(record_of(points, 0b11111), shares, Vec::new());
    let after = Lent { area: doubles, ..all.clone() };
    for (offset, bytes) in [(11, &[2][..]), (8, &[0, 0, 0, 2]), (0, &[0, 0, 0, 0, 0, 0, 0, 0, 0, 0, 0, 2])] {
        let expected = Outcome::accepted(0, after.clone());
        figure(trial, &format!("{name}: an edit to 02"), call(offset, bytes, &[4, 1]), all.clone(), expected);
    }
    let back = Outcome::accepted(0, all.clone());
    figure(trial, &format!("{name}: an edit back to 01"), call(11, &[1], &[0, 3]), after.clone(), back);

    // boards 0 and 2 are out of service, with any bytes; board 3 holds 99 more than its share in byte 1
    let spoilt = |lent: &Lent| {
        let mut lent = lent.clone();
        lent.record = record_of(points, 0b11010);
        lent.area[..7].fill(0xEE);
        lent.area[14..21].fill(0x77);
        lent.area[22] ^= 0x99;
        lent
    };
    let expected = Outcome::accepted(0, spoilt(&after));
    figure(trial, &format!("{name}: an edit on three boards"), call(11, &[2], &[1, 4]), spoilt(&all), expected);
    for offset in [0, 7, 12] {
        let expected = Outcome::accepted(0, spoilt(&all));
        figure(trial, &format!("{name}: an edit of no bytes"), call(offset, &[], &[1, 4]), spoilt(&all), expected);
    }
}

/// Boards 0 and 1 out of service, and F(x_2, y_3) not the same by boards 2 and 3.
pub fn refusals(trial: &mut Trial, series: &Series) {
    let points = &series.points;
    let mut area = series.shares.concat();
    area[15] ^= 1;
    let lent = Lent::idle(record_of(points, 0b11100), area, Vec::new());
    let greatest = usize::MAX;
    let cases: [(usize, &[u8], &[usize], u8); 18] = [
        // "offset plus count beyond L", though the list is wrong in all its ways
        (12, &[1], &[9], RANGE),
        (13, &[], &[9], RANGE),
        (9, &[1, 2, 3, 4], &[9], RANGE),
        (0, &[0; 13], &[9], RANGE),
        (greatest, &[], &[9], RANGE),
        (greatest, &[1], &[9], RANGE),
        (greatest, &[1, 2], &[2, 3], RANGE),
        (greatest - 3, &[1, 2, 3, 4], &[2, 3], RANGE),
        (1 << 32, &[1], &[2, 3], RANGE),
        (11, &[1], &[9], COUNT),
        (11, &[1], &[9, 9, 9], COUNT),
        (11, &[1], &[5, 5], NODE),
        (11, &[1], &[0, greatest], NODE),
        (11, &[1], &[0, 0], REPEAT),
        (11, &[1], &[2, 0], DOWN),
        (11, &[1], &[2, 3], DISAGREE),
        // "An edit of no bytes is accepted .. once it has passed all the checks that follow, DISAGREE too."
        (0, &[], &[3, 2], DISAGREE),
        (12, &[], &[2, 3], DISAGREE),
    ];
    for (offset, bytes, boards, number) in cases {
        refused(trial, "an edit that is refused", call(offset, bytes, boards), lent.clone(), number);
    }
    // before a write, and before all that is asked of the lists; no file together with L above 0; an area of another length
    let mut empty = lent.clone();
    empty.record[5..8].fill(0);
    refused(trial, "an edit before a write", call(1, &[1], &[9]), empty.clone(), EMPTY);
    refused(trial, "an edit of no bytes before a write", call(0, &[], &[2, 4]), empty.clone(), EMPTY);
    empty.area.pop();
    refused(trial, "an edit of a short area", call(1, &[1], &[9]), empty.clone(), AREA);
    empty.record[6] = 12;
    refused(trial, "an edit over no record", call(1, &[1], &[9]), empty, SIZE);
}
