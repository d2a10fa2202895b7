//! The figures of document 01, as literal values: all that are not marked M, through the archive and by the coder itself. Those marked M are
//! proved; they are run here too, since they also try the coder. Then the same for robots of the first series, whose figures were worked out by
//! hand, and which points are refused (request A.9 of document 02); and a board rebuilt alone, with a stand-in (request A.3);
//! edits (request A.6); repairs a packet at a time (request A.8); careful reads (request A.11); moves of boards (request A.10); and first bytes of trial
//! files (request A.2).

use crate::call::refusal::{COUNT, DOWN, LONG, NODE, REPEAT, SERVING, SIZE};
use crate::call::{Call, Lent, Outcome};
use crate::code::Sizes;
use crate::field::FIELD;
use crate::points::{filled_up, first_series, standard};
use crate::trial::{Place, Trial};
use crate::{
    board, careful_figures, edit_figures, load, move_figures, prefix_figures, step_figures, store, stream,
    stream_cases, text_figures, texts,
};

pub fn run(trial: &mut Trial) {
    field(trial);
    small(trial);
    for series in [present(), first()] {
        shares(trial, &series);
        rebuilding(trial, &series);
        alone(trial, &series);
        edit_figures::doubled(trial, &series);
        edit_figures::refusals(trial, &series);
        step_figures::by_packets(trial, &series);
        step_figures::meanwhile(trial, &series);
        step_figures::none_running(trial, &series);
        step_figures::made_up(trial, &series);
        careful_figures::odd(trial, &series);
        careful_figures::padding(trial, &series);
        careful_figures::stripes(trial, &series);
        careful_figures::refusals(trial, &series);
        move_figures::refusals(trial, &series);
    }
    move_figures::in_turn(trial, &first(), &present());
    move_figures::by_a_line(trial);
    move_figures::free_bytes(trial, &first());
    careful_figures::one_read(trial);
    careful_figures::in_pairs(trial);
    step_figures::in_order(trial);
    step_figures::altered(trial);
    step_figures::goes_on(trial);
    refused_repairs(trial);
    text(trial);
    text_figures::run(trial);
    prefix_figures::run(trial);
    stream_cases::figures(trial);
    load::figures(trial);
    legal_sizes(trial);
    refused_points(trial);
    eight_words(trial);
    stripes(trial);
    store_lengths(trial);
}

/// What the coder's own model says of any call.
fn model(call: &Call, lent: &Lent) -> Outcome {
    if call.place() < crate::call::SET_UP {
        board::expect(call, lent)
    } else if call.of_store() {
        store::expect(call, lent)
    } else if call.place() < crate::call::TRIAL_FILE {
        texts::expect(call, lent)
    } else {
        stream::expect(call, lent)
    }
}

/// Holds the archive and the coder to a figure.
pub fn figure(trial: &mut Trial, name: &str, call: Call, lent: Lent, expected: Outcome) -> Lent {
    trial.place = Place::Figure(name.to_string());
    trial.check(&call, &lent, &expected);
    if model(&call, &lent) != expected {
        trial.report(&format!("{call}: the coder itself differs from the figure"));
    }
    expected.lent
}

/// A board-level call that writes these bytes, into an output that is longer by one byte.
fn writes(trial: &mut Trial, name: &str, call: Call, bytes: &[u8]) {
    let lent = Lent::output(vec![0xEE; bytes.len() + 1]);
    let after = Lent::output([bytes, &[0xEE]].concat());
    figure(trial, name, call, lent, Outcome::accepted(bytes.len(), after));
}

/// A call that is refused.
pub fn refused(trial: &mut Trial, name: &str, call: Call, lent: Lent, number: u8) {
    let expected = Outcome::refused(number, &lent);
    figure(trial, name, call, lent, expected);
}

/// M1 to M4, of the coder's own tables.
fn field(trial: &mut Trial) {
    trial.place = Place::Figure("M1 to M4, and the field by long division".to_string());
    let products = [(0x80, 0x02, 0x1D), (0x03, 0x03, 0x05), (0x02, 0x8E, 0x01)];
    let right = products.iter().all(|&(a, b, product)| FIELD.product(a, b) == product);
    let zero = (0..=255).all(|a| FIELD.product(0, a) == 0 && FIELD.product(a, 0) == 0);
    if !right || !zero || !FIELD.holds() {
        trial.report("the coder's own field is wrong");
    }
}

/// n = 2, k = d = r = 1.
const SMALL: Sizes = Sizes { n: 2, k: 1, d: 1, r: 1 };

/// n = 5, k = 2, d = 3, r = 2: α = 7, B = 12.
const FIVE: Sizes = Sizes { n: 5, k: 2, d: 3, r: 2 };

/// Eleven bytes 00, then 01: F = X²Y.
pub const X2Y: [u8; 12] = [0, 0, 0, 0, 0, 0, 0, 0, 0, 0, 0, 1];

/// What the five boards of a robot hold of it, and what they send boards 0 and 1.
pub struct Series {
    pub name: &'static str,
    pub points: Vec<u8>,
    pub shares: [[u8; 7]; 5],
    /// of helpers 2, 3, 4 for board 0
    pub packets_0: [[u8; 2]; 3],
    /// of the same for board 1
    pub packets_1: [[u8; 2]; 3],
    /// what board 0 sends board 1
    pub exchanged: u8,
    /// what board 1 sends board 0
    pub exchanged_back: u8,
    /// and what board 0 sends as a helper
    pub packet_0_1: [u8; 2],
}

/// M7 to M12.
fn present() -> Series {
    Series {
        name: "M7 to M12",
        points: standard(5),
        shares: [
            [0x00, 0x00, 0x00, 0x00, 0x00, 0x00, 0x00],
            [0x01, 0x02, 0x03, 0x04, 0x00, 0x04, 0x05],
            [0x08, 0x0C, 0x10, 0x00, 0x04, 0x0A, 0x20],
            [0x0F, 0x14, 0x00, 0x05, 0x0A, 0x30, 0x00],
            [0x40, 0x00, 0x10, 0x20, 0x30, 0x00, 0x04],
        ],
        packets_0: [[0x00, 0x00], [0x00, 0x00], [0x00, 0x00]],
        packets_1: [[0x04, 0x02], [0x05, 0x03], [0x10, 0x04]],
        exchanged: 0x00,
        exchanged_back: 0x00,
        packet_0_1: [0x00, 0x00],
    }
}

/// The same with points 01 to 05.
fn first() -> Series {
    Series {
        name: "the first series",
        points: first_series(5),
        shares: [
            [0x01, 0x02, 0x03, 0x04, 0x05, 0x04, 0x05],
            [0x08, 0x0C, 0x10, 0x14, 0x04, 0x0A, 0x20],
            [0x0F, 0x14, 0x11, 0x05, 0x0A, 0x30, 0x33],
            [0x40, 0x50, 0x10, 0x20, 0x30, 0x44, 0x04],
            [0x55, 0x11, 0x22, 0x33, 0x44, 0x05, 0x14],
        ],
        packets_0: [[0x05, 0x03], [0x10, 0x04], [0x11, 0x05]],
        packets_1: [[0x0A, 0x0C], [0x20, 0x10], [0x22, 0x14]],
        exchanged: 0x04,
        exchanged_back: 0x02,
        packet_0_1: [0x02, 0x04],
    }
}

/// M5 and M6, F = 05 + 03 Y, and the same with points 01 and 02.
fn small(trial: &mut Trial) {
    let share = |points: Vec<u8>, node: usize| Call::Share { sizes: SMALL, points, node, file: vec![5, 3] };
    writes(trial, "M5", share(standard(2), 0), &[5, 6]);
    writes(trial, "M6", share(standard(2), 1), &[6, 5]);
    writes(trial, "M5 in the first series", share(first_series(2), 0), &[6, 3]);
    writes(trial, "M6 in the first series", share(first_series(2), 1), &[3, 6]);
}

/// M7 to M11, and the file back from every two boards, and from no board twice.
fn shares(trial: &mut Trial, series: &Series) {
    let Series { name, points, shares, .. } = series;
    for (node, share) in shares.iter().enumerate() {
        let call = Call::Share { sizes: FIVE, points: points.clone(), node, file: X2Y.to_vec() };
        writes(trial, &format!("{name}: board {node}"), call, share);
    }
    for (a, first) in shares.iter().enumerate() {
        for (b, second) in shares.iter().enumerate().filter(|&(b, _)| b != a) {
            let shares = [*first, *second].concat();
            let call = Call::File { sizes: FIVE, points: points.clone(), length: 12, boards: vec![a, b], shares };
            writes(trial, &format!("{name}: the file from two boards"), call, &X2Y);
        }
    }
    let (boards, twice) = (vec![3, 3], [shares[3], shares[3]].concat());
    let call = Call::File { sizes: FIVE, points: points.clone(), length: 12, boards, shares: twice };
    refused(trial, &format!("{name}: the file from one board twice"), call, Lent::output(vec![0xEE; 12]), REPEAT);
}

/// M12, at board level and in the store.
fn rebuilding(trial: &mut Trial, series: &Series) {
    let Series { name, points, shares, packets_0, packets_1, exchanged, .. } = series;
    let helpers = vec![2, 3, 4];
    for (receiver, packets) in [packets_0, packets_1].into_iter().enumerate() {
        for (&helper, packet) in helpers.iter().zip(packets) {
            let share = shares[helper].to_vec();
            let call = Call::Helper { sizes: FIVE, points: points.clone(), length: 12, helper, receiver, share };
            writes(trial, &format!("{name}: a helper packet"), call, packet);
        }
    }
    let call = Call::Exchange {
        sizes: FIVE,
        points: points.clone(),
        length: 12,
        board: 0,
        helpers: helpers.clone(),
        packets: packets_0.concat(),
        receiver: 1,
    };
    writes(trial, &format!("{name}: the exchange packet of board 0"), call, &[*exchanged]);
    let call = Call::Finished {
        sizes: FIVE,
        points: points.clone(),
        length: 12,
        board: 1,
        helpers,
        packets: packets_1.concat(),
        partners: vec![0],
        partner_packets: vec![*exchanged],
    };
    writes(trial, &format!("{name}: board 1 finished"), call, &shares[1]);
    moved(trial, series);
}

/// The record of FIVE's store of one stripe with X2Y in it.
pub fn record_of(points: &[u8], marks: u64) -> Vec<u64> {
    [&[5, 2, 3, 2, 1, 1, 12, marks][..], &words_of_five(points)].concat()
}

/// Five points in four words, "the lowest byte first".
fn words_of_five(points: &[u8]) -> [u64; 4] {
    let [a, b, c, d, e] = [0, 1, 2, 3, 4].map(|board: usize| u64::from(points[board]));
    [e << 32 | d << 24 | c << 16 | b << 8 | a, 0, 0, 0]
}

/// M12: boards 0 and 1 fresh, helpers 2, 3, 4 for both: 14 bytes moved.
fn moved(trial: &mut Trial, series: &Series) {
    let Series { name, points, shares, .. } = series;
    let mut area = shares.concat();
    area[..14].fill(0xEE);
    let lent = Lent::idle(record_of(points, 0b11100), area, Vec::new());
    let call = Call::Repair { fresh: vec![0, 1], helpers: vec![2, 3, 4, 2, 3, 4], stand_ins: vec![] };
    let after = Lent::idle(record_of(points, 0b11111), shares.concat(), Vec::new());
    figure(trial, &format!("{name}: moved"), call, lent, Outcome::accepted(14, after));
}

/// Board 1 fresh alone, helpers 0, 2, 3, and board 4 stands in: it sends the second byte of its pair. 7 bytes moved.
fn alone(trial: &mut Trial, series: &Series) {
    let Series { name, points, shares, packets_1: [of_2, of_3, of_4], packet_0_1, .. } = series;
    for (helper, packet) in [(0, packet_0_1), (2, of_2), (3, of_3), (4, of_4)] {
        let share = shares[helper].to_vec();
        let call = Call::Helper { sizes: FIVE, points: points.clone(), length: 12, helper, receiver: 1, share };
        writes(trial, &format!("{name}: a helper packet for board 1 alone"), call, packet);
    }
    let call = Call::Finished {
        sizes: FIVE,
        points: points.clone(),
        length: 12,
        board: 1,
        helpers: vec![0, 2, 3],
        packets: [*packet_0_1, *of_2, *of_3].concat(),
        partners: vec![4],
        partner_packets: vec![of_4[1]],
    };
    writes(trial, &format!("{name}: board 1 finished with a stand-in"), call, &shares[1]);
    let mut area = shares.concat();
    area[7..14].fill(0xEE);
    let lent = Lent::idle(record_of(points, 0b11101), area, Vec::new());
    let call = Call::Repair { fresh: vec![1], helpers: vec![0, 2, 3], stand_ins: vec![4] };
    let after = Lent::idle(record_of(points, 0b11111), shares.concat(), Vec::new());
    figure(trial, &format!("{name}: moved for one board"), call, lent, Outcome::accepted(7, after));
}

/// The fresh boards of a repair, its helpers, its stand-ins, and the refusal.
type Refused<'a> = (&'a [usize], &'a [usize], &'a [usize], u8);

/// Boards 0 and 1 out of service: what is refused of a repair's lists, each line before those that follow.
fn refused_repairs(trial: &mut Trial) {
    let Series { points, shares, .. } = present();
    let lent = Lent::idle(record_of(&points, 0b11100), shares.concat(), Vec::new());
    let cases: [Refused; 22] = [
        // "t outside 1 to r is COUNT"
        (&[], &[], &[], COUNT),
        (&[0, 1, 9], &[2, 3, 4, 2, 3, 4, 2, 3, 4], &[], COUNT),
        (&[9], &[2, 3], &[4], COUNT),
        (&[9], &[2, 3, 4, 2], &[4], COUNT),
        (&[9], &[2, 3, 4], &[], COUNT),
        (&[9], &[2, 3, 4], &[2, 2], COUNT),
        // with t = r nobody stands in
        (&[0, 9], &[2, 3, 4, 2, 3, 4], &[2], COUNT),
        (&[5], &[2, 2, 3], &[4], NODE),
        (&[0], &[2, 2, 5], &[4], NODE),
        (&[0], &[2, 2, 3], &[5], NODE),
        // "All boards named for one fresh board are different and none of them is fresh."
        (&[2, 2], &[3, 4, 1, 3, 4, 1], &[], REPEAT),
        (&[2], &[3, 4, 3], &[1], REPEAT),
        (&[2], &[3, 4, 1], &[4], REPEAT),
        (&[2], &[3, 4, 1], &[2], REPEAT),
        (&[2], &[3, 4, 2], &[1], REPEAT),
        (&[0, 2], &[1, 3, 4, 3, 4, 0], &[], REPEAT),
        // "a fresh board that is in service, after 6 and before 9"
        (&[2], &[0, 3, 4], &[1], SERVING),
        (&[2], &[1, 3, 4], &[0], SERVING),
        (&[0, 2], &[1, 3, 4, 1, 3, 4], &[], SERVING),
        (&[2, 0], &[1, 3, 4, 1, 3, 4], &[], SERVING),
        (&[0], &[1, 2, 3], &[4], DOWN),
        (&[0], &[2, 3, 4], &[1], DOWN),
    ];
    for (fresh, helpers, stand_ins, number) in cases {
        let call = Call::Repair { fresh: fresh.to_vec(), helpers: helpers.to_vec(), stand_ins: stand_ins.to_vec() };
        refused(trial, "a repair that is refused", call, lent.clone(), number);
    }
}

/// The whole text that document 01 prints; and texts whose points are not 0 to n − 1 in order.
fn text(trial: &mut Trial) {
    let call = |points: Vec<u8>| Call::Text { sizes: SMALL, points, length: 2, node: 0, share: vec![5, 6] };
    let begin = "n=2\nk=1\nd=1\nr=1\nnode=0\nlength=2\n";
    let due = |line: &str| format!("{begin}{line}data=0506\n").into_bytes();
    writes(trial, "share text", call(filled_up([0, 1])), &due(""));
    let others = [([1, 2], "0102"), ([1, 0], "0100"), ([0, 2], "0002"), ([0xFA, 0xCE], "face")];
    for (points, line) in others {
        writes(trial, "share text with points", call(filled_up(points)), &due(&format!("points={line}\n")));
    }
    let sizes = Sizes { n: 32, k: 1, d: 1, r: 1 };
    let call = Call::Text { sizes, points: first_series(32), length: 0, node: 31, share: vec![] };
    let text = "n=32\nk=1\nd=1\nr=1\nnode=31\nlength=0\n\
                points=0102030405060708090a0b0c0d0e0f101112131415161718191a1b1c1d1e1f20\ndata=\n";
    writes(trial, "share text with 32 points", call, text.as_bytes());
}

/// "n = 32, d + r = n, k = d are legal; n = 33, d + r = n + 1, k = d + 1, r = 0 give SIZE."
fn legal_sizes(trial: &mut Trial) {
    let legal = [(32, 2, 3, 2), (5, 2, 3, 2), (32, 31, 31, 1), (5, 3, 3, 2), (32, 1, 1, 31), (32, 16, 16, 16)];
    for (n, k, d, r) in legal {
        let sizes = Sizes { n, k, d, r };
        set_up(trial, "legal sizes", sizes, 1);
        // byte 0 of the file is the coefficient of 1: each symbol of the stripe is this byte
        for points in [standard(n), first_series(n)] {
            let call = Call::Share { sizes, points, node: n - 1, file: vec![0x2A] };
            writes(trial, "legal sizes", call, &vec![0x2A; 2 * d + r - 1]);
        }
    }
    for (n, k, d, r) in [(33, 2, 3, 2), (5, 2, 4, 2), (5, 2, 3, 3), (5, 4, 3, 2), (5, 2, 3, 0)] {
        let sizes = Sizes { n, k, d, r };
        let points = standard(n.min(32));
        let lent = Lent::idle(vec![9; 12], Vec::new(), Vec::new());
        refused(trial, "sizes not legal", Call::SetUp { sizes, points: points.clone(), capacity: 1 }, lent, SIZE);
        let call = Call::Share { sizes, points, node: 0, file: vec![0x2A] };
        refused(trial, "sizes not legal", call, Lent::output(vec![0xEE; 100]), SIZE);
    }
}

/// "A repeated point, or one other than 00 kept for a number from n up, counts as SIZE." Only the first n must differ; 00 may be a board's point.
fn refused_points(trial: &mut Trial) {
    for points in [[0, 1, 2, 3, 4], [4, 3, 2, 1, 0], [9, 0, 0xFF, 0x80, 1]] {
        let points = filled_up(points);
        let repair = vec![u64::MAX; 71];
        let lent = Lent { record: vec![u64::MAX; 12], repair, ..Lent::default() };
        let record = [&[5, 2, 3, 2, 1, 0, 0, 0][..], &words_of_five(&points)].concat();
        let after = Lent::idle(record, Vec::new(), Vec::new());
        let call = Call::SetUp { sizes: FIVE, points, capacity: 1 };
        figure(trial, "points that are taken", call, lent, Outcome::accepted(0, after));
    }
    let mut wrong: Vec<Vec<u8>> = vec![
        filled_up([]),
        filled_up([1, 2, 3, 4, 1]),
        filled_up([0, 1, 2, 3, 3]),
        filled_up([0, 1, 2, 3, 4, 5]),
        filled_up([0, 1, 2, 3, 4, 0, 1]),
        standard(32),
        first_series(32),
    ];
    let mut last = standard(5);
    last[31] = 1;
    wrong.push(last);
    // of another length than 32
    wrong.extend([0, 5, 31, 33].map(|length| {
        let mut points = standard(5);
        points.resize(length, 0);
        points
    }));
    for points in wrong {
        let lent = Lent::idle(vec![9; 12], Vec::new(), Vec::new());
        let call = Call::SetUp { sizes: FIVE, points: points.clone(), capacity: 1 };
        refused(trial, "points that are refused", call, lent, SIZE);
        // before all else: the file is too long, the board is none of the five, the output is too short
        let call = Call::Share { sizes: FIVE, points, node: 5, file: vec![0x2A; 4096 * 12 + 1] };
        refused(trial, "points that are refused", call, Lent::output(vec![0xEE]), SIZE);
    }
}

/// "A record kept as eight words from before is SIZE and goes on with the words of the standard points behind it."
fn eight_words(trial: &mut Trial) {
    let shares = present().shares;
    let eight = Lent::idle(vec![5, 2, 3, 2, 1, 1, 12, 0b11111], shares.concat(), vec![0xEE; 12]);
    refused(trial, "a record of eight words", Call::Read { boards: vec![4, 1] }, eight.clone(), SIZE);
    let lent = Lent { record: [&eight.record[..], &[0x04_0302_0100, 0, 0, 0]].concat(), ..eight };
    let after = Lent { out: X2Y.to_vec(), ..lent.clone() };
    figure(trial, "and four more", Call::Read { boards: vec![4, 1] }, lent, Outcome::accepted(0, after));
}

/// Sets up a store, and gives what it is then.
fn set_up(trial: &mut Trial, name: &str, sizes: Sizes, capacity: usize) -> Lent {
    let area = vec![0xEE; sizes.n * capacity * (2 * sizes.d + sizes.r - 1)];
    let repair = vec![u64::MAX; 71];
    let lent = Lent { record: vec![u64::MAX; 12], repair, area, ..Lent::default() };
    let Sizes { n, k, d, r } = sizes;
    let numbers = [n as u64, k as u64, d as u64, r as u64, capacity as u64, 0, 0, 0];
    // the points 00 to 1F, those from n up left out
    let all = [0x0706_0504_0302_0100, 0x0F0E_0D0C_0B0A_0908, 0x1716_1514_1312_1110, 0x1F1E_1D1C_1B1A_1918u64];
    let points = [0, 1, 2, 3].map(|q: usize| match n.saturating_sub(8 * q) {
        0 => 0,
        boards if boards < 8 => all[q] & ((1 << (8 * boards)) - 1),
        _ => all[q],
    });
    let after = Lent::idle([numbers.as_slice(), &points].concat(), lent.area.clone(), Vec::new());
    figure(trial, name, Call::SetUp { sizes, points: standard(n), capacity }, lent, Outcome::accepted(0, after))
}

/// "L = B is one stripe, B + 1 two", with α = 7 and B = 12; L = 0 is none; 4,096 × B is the most.
fn stripes(trial: &mut Trial) {
    let zeros = |length: usize| Call::Share { sizes: FIVE, points: standard(5), node: 3, file: vec![0; length] };
    for (length, written) in [(0, 0), (1, 7), (11, 7), (12, 7), (13, 14), (24, 14), (25, 21), (49_152, 28_672)] {
        writes(trial, &format!("stripes of {length} bytes"), zeros(length), &vec![0; written]);
    }
    refused(trial, "4,096 × B and one more", zeros(49_153), Lent::output(vec![0xEE; 40_000]), LONG);
}

/// "L = C × B is written, one more is LONG. After a write, a read of k − 1 boards is COUNT."
fn store_lengths(trial: &mut Trial) {
    let lent = set_up(trial, "a store of two stripes", FIVE, 2);
    refused(trial, "C × B and one more", Call::Write { file: vec![0; 25] }, lent.clone(), LONG);
    let record = vec![5, 2, 3, 2, 2, 1, 24, 0b11111, 0x04_0302_0100, 0, 0, 0];
    let after = Lent::idle(record, vec![0; 70], Vec::new());
    let written = figure(trial, "C × B", Call::Write { file: vec![0; 24] }, lent, Outcome::accepted(0, after));
    let lent = Lent { out: vec![0xEE; 25], ..written };
    refused(trial, "a read of k − 1 boards", Call::Read { boards: vec![4] }, lent.clone(), COUNT);
    let after = Lent { out: [&[0; 24][..], &[0xEE]].concat(), ..lent.clone() };
    figure(trial, "a read of k boards", Call::Read { boards: vec![4, 0] }, lent, Outcome::accepted(0, after));
    set_up(trial, "the greatest capacity", SMALL, 4096);
    for capacity in [0, 4097] {
        let lent = Lent::idle(vec![9; 12], Vec::new(), Vec::new());
        let call = Call::SetUp { sizes: FIVE, points: standard(5), capacity };
        refused(trial, "a capacity out of range", call, lent, SIZE);
    }
}
