//! Careful reads (request A.11 of document 02) as literal figures: n = 5, k = 2, d = 3, r = 2 and F = X²Y with one, two and other wrong bytes; k = 1, where
//! two boards outvote a third; four boards of which one agrees with each other in pairs and belongs to no file with them; and what is refused, each
//! line before those that follow.

use crate::call::refusal::{AREA, COUNT, DISAGREE, DOWN, EMPTY, NODE, REPEAT, SHORT, SIZE};
use crate::call::{Call, Lent, Outcome};
use crate::figures::{figure, record_of, refused, Series, X2Y};
use crate::trial::Trial;

fn call(boards: &[usize]) -> Call {
    Call::Careful { boards: boards.to_vec() }
}

/// A careful read that gives a file and reports a number, into an output that is longer by one byte.
fn reads(trial: &mut Trial, name: &str, boards: &[usize], lent: &Lent, file: &[u8], reported: usize) {
    let lent = Lent { out: vec![0xEE; file.len() + 1], ..lent.clone() };
    let after = Lent { out: [file, &[0xEE]].concat(), ..lent.clone() };
    figure(trial, name, call(boards), lent, Outcome::accepted(reported, after));
}

/// None odd, each board in turn, and two of them.
pub fn odd(trial: &mut Trial, series: &Series) {
    let Series { name, points, shares, .. } = series;
    let all = Lent::idle(record_of(points, 0b11111), shares.concat(), Vec::new());
    let altered = |places: &[usize]| {
        let mut lent = all.clone();
        places.iter().for_each(|&place| lent.area[place] ^= 0x99);
        lent
    };
    for boards in [[0, 1, 2, 3], [4, 3, 2, 1], [2, 0, 4, 1]] {
        reads(trial, &format!("{name}: none is odd"), &boards, &all, &X2Y, 0);
        for place in 0..35 {
            // "the odd board's number or none": the number plus 1, so that board 0 is 1
            let board = place / 7;
            let reported = if boards.contains(&board) { board + 1 } else { 0 };
            reads(trial, &format!("{name}: board {board} is worn"), &boards, &altered(&[place]), &X2Y, reported);
        }
        let two = Lent { out: vec![0xEE; 12], ..altered(&[7 * boards[1], 7 * boards[2] + 6]) };
        refused(trial, &format!("{name}: two boards are worn"), call(&boards), two, DISAGREE);
    }
    // 02 in the place of 01 doubles each share: all boards of the other file, one of them, two, and all but one
    let doubled = |boards: &[usize]| {
        let mut lent = all.clone();
        boards.iter().for_each(|&board| lent.area[7 * board..][..7].iter_mut().for_each(|byte| *byte *= 2));
        lent
    };
    let double: Vec<u8> = X2Y.iter().map(|byte| 2 * byte).collect();
    reads(trial, &format!("{name}: all of another file"), &[3, 2, 1, 4], &doubled(&[1, 2, 3, 4]), &double, 0);
    reads(trial, &format!("{name}: one of another file"), &[3, 2, 1, 4], &doubled(&[2]), &X2Y, 3);
    reads(trial, &format!("{name}: all but one of another file"), &[3, 2, 1, 4], &doubled(&[1, 2, 4]), &double, 4);
    let two = Lent { out: vec![0xEE; 12], ..doubled(&[2, 4]) };
    refused(trial, &format!("{name}: two and two"), call(&[3, 2, 1, 4]), two, DISAGREE);
}

/// A file of 11 bytes has a stripe of which the last byte is padding: of X²Y it is 01.
pub fn padding(trial: &mut Trial, series: &Series) {
    let Series { points, shares, .. } = series;
    let mut record = record_of(points, 0b11111);
    record[6] = 11;
    // boards that hold 00 have their shares of eleven bytes 00
    let held = |boards: &[usize]| {
        let mut lent = Lent::idle(record.clone(), vec![0; 35], vec![0xEE; 11]);
        boards.iter().for_each(|&board| lent.area[7 * board..][..7].copy_from_slice(&shares[board]));
        lent
    };
    reads(trial, "no padding is altered", &[4, 1, 2, 3], &held(&[]), &[0; 11], 0);
    reads(trial, "the padding by one board", &[4, 1, 2, 3], &held(&[2]), &[0; 11], 3);
    refused(trial, "the padding by two boards", call(&[4, 1, 2, 3]), held(&[2, 4]), DISAGREE);
    refused(trial, "the padding by three boards", call(&[4, 1, 2, 3]), held(&[1, 2, 4]), DISAGREE);
    refused(trial, "the padding by all boards", call(&[4, 1, 2, 3]), held(&[1, 2, 3, 4]), DISAGREE);
}

/// Two stripes of X²Y: two boards that are wrong in different ones, where in each stripe three of four agree.
pub fn stripes(trial: &mut Trial, series: &Series) {
    let Series { name, points, shares, .. } = series;
    let mut record = record_of(points, 0b11111);
    (record[4], record[6]) = (2, 24);
    let area: Vec<u8> = shares.iter().flat_map(|share| [*share, *share].concat()).collect();
    let lent = Lent::idle(record, area, vec![0xEE; 24]);
    let altered = |places: [usize; 2]| {
        let mut lent = lent.clone();
        places.iter().for_each(|&place| lent.area[place] ^= 0x99);
        lent
    };
    let file = [X2Y, X2Y].concat();
    reads(trial, &format!("{name}: both stripes of board 1"), &[0, 1, 2, 3], &altered([14, 27]), &file, 2);
    // boards 1 and 2, the first stripe of the one and the second of the other; and both stripes the other way round
    for places in [[14, 28 + 7], [14 + 7, 28], [14, 28], [14 + 13, 28 + 13]] {
        let name = format!("{name}: boards 1 and 2 are worn");
        refused(trial, &name, call(&[0, 1, 2, 3]), altered(places), DISAGREE);
    }
}

/// n = 3, k = d = r = 1 and F = 05 + 03 Y: any bytes of a board are a share. Two of three boards hold theirs.
pub fn one_read(trial: &mut Trial) {
    let record = vec![3, 1, 1, 1, 1, 1, 2, 0b111, 0x02_0100, 0, 0, 0];
    let shares = [[5, 6], [6, 3], [3, 5]];
    let all = Lent::idle(record, shares.concat(), Vec::new());
    reads(trial, "k = 1: none is odd", &[2, 0, 1], &all, &[5, 3], 0);
    for worn in 0..3 {
        let mut lent = all.clone();
        lent.area[2 * worn..][..2].copy_from_slice(&[7, 7]);
        reads(trial, "k = 1: one board is worn", &[2, 0, 1], &lent, &[5, 3], worn + 1);
        lent.area[2 * ((worn + 1) % 3)] ^= 1;
        lent.out = vec![0xEE; 2];
        refused(trial, "k = 1: two boards are worn", call(&[2, 0, 1]), lent, DISAGREE);
    }
    // k + 2 = 3 exceeds n = 2, whatever the list
    let record = vec![2, 1, 1, 1, 1, 1, 2, 0b11, 0x0100, 0, 0, 0];
    let two = Lent::idle(record, vec![5, 6, 6, 5], vec![0xEE; 2]);
    for boards in [&[][..], &[0], &[1, 0], &[0, 1, 1], &[0, 1, 2], &[0, 1, 0, 1]] {
        refused(trial, "k + 2 exceeds n", call(boards), two.clone(), COUNT);
    }
}

/// n = 4, k = 1, d = 2, r = 1, and 00 on all boards but one: 00 03 03 00 on board 1 agrees with board 0 in F(x_0, y_1) and in F(x_1, y_0), and no file gives
/// both. So pairs of boards do not tell whether k + 1 of them hold shares of one file.
pub fn in_pairs(trial: &mut Trial) {
    let record = vec![4, 1, 2, 1, 1, 1, 4, 0b1111, 0x0302_0100, 0, 0, 0];
    let mut area = vec![0; 16];
    area[4..8].copy_from_slice(&[0, 3, 3, 0]);
    let lent = Lent::idle(record, area, vec![0xEE; 4]);
    for boards in [[0, 1, 2], [1, 0, 3], [0, 2, 1], [3, 1, 0]] {
        reads(trial, "boards that agree in pairs", &boards, &lent, &[0; 4], 2);
    }
    let mut two = lent.clone();
    two.area[8..12].fill(1);
    refused(trial, "boards that agree in pairs, and a wrong one", call(&[0, 1, 2]), two, DISAGREE);
}

/// Boards 0 and 1 out of service in turn, and boards 2 and 3 wrong.
pub fn refusals(trial: &mut Trial, series: &Series) {
    let Series { points, shares, .. } = series;
    let mut area = shares.concat();
    area[15] ^= 1;
    area[22] ^= 1;
    let lent = Lent::idle(record_of(points, 0b11110), area, vec![0xEE; 11]);
    let greatest = usize::MAX;
    let cases: [(&[usize], u8); 14] = [
        (&[], COUNT),
        (&[9], COUNT),
        (&[9, 9], COUNT),
        (&[9, 9, 9], COUNT),
        (&[9, 9, 9, 9, 9], COUNT),
        (&[4, 3, 2, 1, 4], COUNT),
        (&[5, 5, 0, 1], NODE),
        (&[1, 1, 0, greatest], NODE),
        (&[1, 256, 0, 1], NODE),
        (&[1, 1, 0, 2], REPEAT),
        (&[0, 0, 1, 2], REPEAT),
        (&[3, 1, 0, 2], DOWN),
        // "SHORT before DISAGREE, as in a read"
        (&[3, 1, 4, 2], SHORT),
        (&[2, 3, 4, 1], SHORT),
    ];
    for (boards, number) in cases {
        refused(trial, "a careful read that is refused", call(boards), lent.clone(), number);
    }
    let room = Lent { out: vec![0xEE; 12], ..lent.clone() };
    refused(trial, "a careful read of two worn boards", call(&[3, 1, 4, 2]), room, DISAGREE);
    let mut empty = lent;
    empty.record[5..8].fill(0);
    refused(trial, "a careful read before a write", call(&[9]), empty.clone(), EMPTY);
    empty.area.pop();
    refused(trial, "a careful read of a short area", call(&[9]), empty.clone(), AREA);
    empty.record[6] = 12;
    refused(trial, "a careful read over no record", call(&[9]), empty, SIZE);
}
