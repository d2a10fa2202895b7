//! Moves of a board (request A.10 of document 02) as literal figures: the five boards of a robot of the first series with F = X²Y, each moved in turn
//! from i + 1 to i, what all of them hold behind each move; a line through any bytes; and what is refused of a move, each line before those that follow.

use crate::call::refusal::{AREA, BUSY, COUNT, DOWN, EMPTY, NODE, REPEAT, SIZE};
use crate::call::{Call, Lent, Outcome};
use crate::figures::{figure, record_of, refused, Series};
use crate::points::filled_up;
use crate::running::{self, Lists};
use crate::trial::Trial;

fn call(board: usize, point: u8, helpers: &[usize], partners: &[usize]) -> Call {
    Call::Move { board, point, helpers: helpers.to_vec(), partners: partners.to_vec() }
}

/// What the five boards hold behind the first four moves: at 0 2 3 4 5, 0 1 3 4 5, 0 1 2 4 5 and 0 1 2 3 5.
const BETWEEN: [[[u8; 7]; 5]; 4] = [
    [
        [0x00, 0x00, 0x00, 0x00, 0x00, 0x00, 0x00],
        [0x08, 0x0C, 0x10, 0x14, 0x00, 0x0A, 0x20],
        [0x0F, 0x14, 0x11, 0x00, 0x0A, 0x30, 0x33],
        [0x40, 0x50, 0x00, 0x20, 0x30, 0x44, 0x00],
        [0x55, 0x00, 0x22, 0x33, 0x44, 0x00, 0x14],
    ],
    [
        [0x00, 0x00, 0x00, 0x00, 0x00, 0x00, 0x00],
        [0x01, 0x03, 0x04, 0x05, 0x00, 0x05, 0x10],
        [0x0F, 0x14, 0x11, 0x00, 0x05, 0x30, 0x33],
        [0x40, 0x50, 0x00, 0x10, 0x30, 0x44, 0x00],
        [0x55, 0x00, 0x11, 0x33, 0x44, 0x00, 0x05],
    ],
    [
        [0x00, 0x00, 0x00, 0x00, 0x00, 0x00, 0x00],
        [0x01, 0x02, 0x04, 0x05, 0x00, 0x04, 0x10],
        [0x08, 0x10, 0x14, 0x00, 0x04, 0x20, 0x22],
        [0x40, 0x50, 0x00, 0x10, 0x20, 0x44, 0x00],
        [0x55, 0x00, 0x11, 0x22, 0x44, 0x00, 0x05],
    ],
    [
        [0x00, 0x00, 0x00, 0x00, 0x00, 0x00, 0x00],
        [0x01, 0x02, 0x03, 0x05, 0x00, 0x04, 0x05],
        [0x08, 0x0C, 0x14, 0x00, 0x04, 0x0A, 0x22],
        [0x0F, 0x11, 0x00, 0x05, 0x0A, 0x33, 0x00],
        [0x55, 0x00, 0x11, 0x22, 0x33, 0x00, 0x05],
    ],
];

/// The boards of a robot of the first series in turn, and any bytes on the one that is moved; then those of the present one back, the last first.
pub fn in_turn(trial: &mut Trial, first: &Series, present: &Series) {
    let mut held: Vec<[[u8; 7]; 5]> = vec![first.shares];
    held.extend(BETWEEN);
    held.push(present.shares);
    let points = |moved: usize| filled_up((0..5).map(|board| if board < moved { board } else { board + 1 }));
    let lent = |moved: usize| Lent::idle(record_of(&points(moved), 0b11111), held[moved].concat(), Vec::new());
    // "S × (2d + r − 1)" bytes, whoever sends
    let senders = |board: usize, turn: usize| {
        let others: Vec<usize> = (1..5).map(|t| (board + t * turn) % 5).collect();
        (others[..3].to_vec(), others[3..].to_vec())
    };
    for board in 0..5 {
        for turn in 1..5 {
            let (helpers, partners) = senders(board, turn);
            let forth = call(board, board as u8, &helpers, &partners);
            let mut before = lent(board);
            before.area[7 * board..][..7].fill(0xEE);
            let name = format!("board {board} from {} to {board}", board + 1);
            figure(trial, &name, forth, before, Outcome::accepted(7, lent(board + 1)));
            let back = call(board, board as u8 + 1, &helpers, &partners);
            let name = format!("board {board} from {board} to {}", board + 1);
            figure(trial, &name, back, lent(board + 1), Outcome::accepted(7, lent(board)));
        }
    }
}

/// n = 3, k = d = r = 1: a board keeps two values of a line. Board 0 holds 05 and 06 at points 00 and 01, the line 05 + 03 Y, which is 0A at 05 and 03
/// at 02. Board 1 moves to 05 by it and gets this line; board 0 keeps its value there; board 2, which keeps nothing of board 1, holds any bytes.
pub fn by_a_line(trial: &mut Trial) {
    let record = |point: u64| vec![3, 1, 1, 1, 2, 1, 2, 0b111, 0x02_0000 | point << 8, 0, 0, 0];
    // room for two stripes, of which the file has one
    let behind = [0x44, 0x55];
    let area = |boards: [[u8; 2]; 3]| boards.iter().flat_map(|held| [*held, behind].concat()).collect::<Vec<u8>>();
    for any in [[0x00, 0x00], [0xEE, 0x77], [0x06, 0x03]] {
        let lent = Lent::idle(record(1), area([[5, 6], any, any]), Vec::new());
        let after = Lent::idle(record(5), area([[5, 0x0A], [0x0A, 3], any]), Vec::new());
        figure(trial, "a move by a line", call(1, 5, &[0], &[]), lent, Outcome::accepted(2, after));
        // board 2 helps instead, and holds 78 at both its points: board 1 gets 78 at both of its own, board 0 keeps its own line
        let lent = Lent::idle(record(1), area([[5, 6], any, [0x78, 0x78]]), Vec::new());
        let after = Lent::idle(record(5), area([[5, 0x0A], [0x78, 0x78], [0x78, 0x78]]), Vec::new());
        figure(trial, "a move by a level line", call(1, 5, &[2], &[]), lent, Outcome::accepted(2, after));
    }
    // of no bytes: the point changes, and nothing is put
    let mut lent = Lent::idle(record(1), area([[1, 2], [3, 4], [5, 6]]), Vec::new());
    lent.record[6] = 0;
    let mut after = lent.clone();
    after.record[8] = 0x02_0500;
    figure(trial, "a move of no bytes", call(1, 5, &[0], &[]), lent, Outcome::accepted(0, after));
}

/// Board, point, helpers, partners, and what it is refused with.
type Refused<'a> = (usize, u8, &'a [usize], &'a [usize], u8);

/// Five boards: what is refused, with all boards in service and with some of them out of it.
pub fn refusals(trial: &mut Trial, series: &Series) {
    let points = &series.points;
    let all = Lent::idle(record_of(points, 0b11111), series.shares.concat(), Vec::new());
    let (own, other, last) = (points[0], points[3], points[4]);
    let greatest = usize::MAX;
    let cases: [Refused; 24] = [
        (9, own, &[1, 2], &[4], COUNT),
        (9, own, &[1, 2, 3, 3], &[4], COUNT),
        (9, own, &[1, 2, 3], &[], COUNT),
        (9, own, &[1, 2, 3], &[4, 4], COUNT),
        (9, own, &[1], &[2, 3, 4], COUNT),
        (0, 9, &[], &[], COUNT),
        (5, own, &[1, 1, 3], &[4], NODE),
        (256, 9, &[1, 2, 3], &[4], NODE),
        (greatest, 9, &[1, 2, 3], &[4], NODE),
        (0, own, &[1, 1, 5], &[4], NODE),
        (0, own, &[1, 1, 3], &[5], NODE),
        (0, 9, &[1, 2, 3], &[32], NODE),
        (0, 9, &[0, 2, 3], &[4], REPEAT),
        (0, 9, &[1, 2, 0], &[4], REPEAT),
        (0, 9, &[1, 2, 3], &[0], REPEAT),
        (0, 9, &[1, 2, 3], &[3], REPEAT),
        (0, 9, &[1, 2, 1], &[4], REPEAT),
        // "A new byte that is some board's point, its own included"
        (0, own, &[1, 2, 3], &[4], REPEAT),
        (0, other, &[1, 2, 3], &[4], REPEAT),
        (0, last, &[1, 2, 3], &[4], REPEAT),
        (3, other, &[1, 2, 0], &[4], REPEAT),
        (4, last, &[1, 2, 3], &[0], REPEAT),
        (4, own, &[1, 2, 3], &[0], REPEAT),
        (4, points[1], &[1, 2, 3], &[0], REPEAT),
    ];
    let some_down = |marks: u64| Lent { record: record_of(points, marks), ..all.clone() };
    for (board, point, helpers, partners, number) in cases {
        let call = call(board, point, helpers, partners);
        refused(trial, "a move that is refused", call.clone(), all.clone(), number);
        refused(trial, "a move that is refused, with a board out of service", call, some_down(0b10110), number);
    }
    // "any board out of service is DOWN": the one that is moved, a helper, a partner, and all
    for marks in [0b11110, 0b11101, 0b10111, 0b01111, 0] {
        refused(trial, "a move with boards out of service", call(0, 9, &[1, 2, 3], &[4]), some_down(marks), DOWN);
    }
    busy(trial, &all);
    let mut empty = all;
    empty.record[5..8].fill(0);
    refused(trial, "a move before a write", call(9, own, &[1], &[]), empty.clone(), EMPTY);
    refused(trial, "a move before a write, by right lists", call(0, 9, &[1, 2, 3], &[4]), empty.clone(), EMPTY);
    empty.area.pop();
    refused(trial, "a move over a short area", call(9, own, &[1], &[]), empty.clone(), AREA);
    empty.record[6] = 12;
    refused(trial, "a move over no record", call(9, own, &[1], &[]), empty, SIZE);
}

/// While board 0 is rebuilt, whatever the lists are; and by words of a repair that no call hands on.
fn busy(trial: &mut Trial, all: &Lent) {
    let lists = Lists { fresh: vec![0], helpers: vec![1, 2, 3], stand_ins: vec![4] };
    let mut lent = Lent { repair: running::words(&lists, 2), ..all.clone() };
    refused(trial, "a move beside a repair of a board in service", call(1, 9, &[0, 2, 3], &[4]), lent.clone(), SIZE);
    lent.record[7] = 0b11110;
    refused(trial, "a move while a repair runs", call(1, 9, &[0, 2, 3], &[4]), lent.clone(), BUSY);
    refused(trial, "a move by wrong lists while a repair runs", call(9, 1, &[0], &[]), lent.clone(), BUSY);
    lent.area.push(0);
    refused(trial, "a move over a long area while a repair runs", call(1, 9, &[0, 2, 3], &[4]), lent, AREA);
}

/// Five boards of which none has the point 00, which the numbers from 5 up keep: it is free. So is each byte that no board has.
pub fn free_bytes(trial: &mut Trial, first: &Series) {
    let lent = Lent::idle(record_of(&first.points, 0b11111), vec![0; 35], Vec::new());
    // a file of zeros: every share is 00, at all points
    for point in [0x00, 0x06, 0x20, 0xFF] {
        let mut after = lent.clone();
        let moved = filled_up([1, 2, usize::from(point), 4, 5]);
        after.record = record_of(&moved, 0b11111);
        figure(
            trial,
            "a byte that is free",
            call(2, point, &[4, 0, 3], &[1]),
            lent.clone(),
            Outcome::accepted(7, after),
        );
    }
}
