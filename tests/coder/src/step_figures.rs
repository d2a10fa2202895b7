//! Repairs a packet at a time (request A.8 of document 02) as literal figures. First M12 and a board rebuilt alone, packet by packet: n = 5, k = 2, d = 3,
//! r = 2 and F = X²Y. Then three of up to four boards, with stand-ins, of a file whose F tells in each byte who sent it to whom; the same with packets
//! altered where they lie; and what is refused, each line before those that follow.

use crate::call::refusal::{AREA, BUSY, COUNT, DOWN, EMPTY, IDLE, LONG, NODE, SIZE};
use crate::call::{Call, Lent, Outcome};
use crate::code::Sizes;
use crate::figures::{figure, record_of, refused, Series};
use crate::points::standard;
use crate::trial::Trial;

fn step(allowance: usize) -> Call {
    Call::Step { allowance }
}

fn start(fresh: &[usize], helpers: &[usize], stand_ins: &[usize]) -> Call {
    Call::Start { fresh: fresh.to_vec(), helpers: helpers.to_vec(), stand_ins: stand_ins.to_vec() }
}

/// 71 words: these first ones, then those of helpers and of stand-ins, each the first of 32.
fn words(begin: [u64; 4], helpers: u64, stand_ins: u64) -> Vec<u64> {
    let mut words = vec![0; 71];
    words[..4].copy_from_slice(&begin);
    (words[7], words[39]) = (helpers, stand_ins);
    words
}

/// A repair of FIVE's boards: its lists, its words with no packet carried, and its packets.
struct Stepped {
    marks: u64,
    start: Call,
    words: Vec<u64>,
    packets: Vec<Vec<u8>>,
}

/// M12: boards 0 and 1 fresh, helpers 2, 3, 4 for both; the same with board 1 first; and board 1 alone, helpers 0, 2, 3, and board 4 stands in.
fn repairs(series: &Series) -> [Stepped; 3] {
    let Series { packets_0, packets_1, exchanged, exchanged_back, packet_0_1, .. } = series;
    let pairs = |packets: [[u8; 2]; 3]| packets.map(|pair| pair.to_vec());
    let [to_0, to_1] = [pairs(*packets_0), pairs(*packets_1)];
    let [of_2, of_3, of_4] = packets_1;
    [
        Stepped {
            marks: 0b11100,
            start: start(&[0, 1], &[2, 3, 4, 2, 3, 4], &[]),
            words: words([1, 2, 0, 0x0100], 0x0403_0204_0302, 0),
            packets: [&to_0[..], &to_1, &[vec![*exchanged_back], vec![*exchanged]]].concat(),
        },
        Stepped {
            marks: 0b11100,
            start: start(&[1, 0], &[2, 3, 4, 2, 3, 4], &[]),
            words: words([1, 2, 0, 0x0001], 0x0403_0204_0302, 0),
            packets: [&to_1[..], &to_0, &[vec![*exchanged], vec![*exchanged_back]]].concat(),
        },
        Stepped {
            marks: 0b11101,
            start: start(&[1], &[0, 2, 3], &[4]),
            words: words([1, 1, 0, 0x01], 0x03_0200, 0x04),
            packets: vec![packet_0_1.to_vec(), of_2.to_vec(), of_3.to_vec(), vec![of_4[1]]],
        },
    ]
}

/// Each repair packet by packet, three at a time, at once, and with none allowed.
pub fn by_packets(trial: &mut Trial, series: &Series) {
    for repair in repairs(series) {
        let total = repair.packets.len();
        for pace in [1, 3, total - 1, total, total + 1, usize::MAX] {
            stepped(trial, series, &repair, pace);
        }
    }
}

fn stepped(trial: &mut Trial, series: &Series, repair: &Stepped, pace: usize) {
    let Series { name, points, shares, .. } = series;
    let Stepped { marks, start, words, packets } = repair;
    let mut area = shares.concat();
    for board in (0..5).filter(|board| marks >> board & 1 == 0) {
        area[7 * board..][..7].fill(0xEE);
    }
    let idle = Lent::idle(record_of(points, *marks), area, Vec::new());
    let started = Lent { repair: words.clone(), ..idle.clone() };
    let lent = figure(trial, &format!("{name}: a start"), start.clone(), idle, Outcome::accepted(0, started));
    // "all other bytes there stay": EE where nothing was carried yet
    let mut lent = Lent { packets: vec![0xEE; packets.concat().len()], ..lent };
    let mut carried = 0;
    while carried < packets.len() {
        let none = Outcome::accepted(0, lent.clone());
        figure(trial, &format!("{name}: a step of 0"), step(0), lent.clone(), none);
        let now = pace.min(packets.len() - carried);
        let mut after = lent.clone();
        let from = packets[..carried].concat().len();
        let bytes = packets[carried..carried + now].concat();
        after.packets[from..][..bytes.len()].copy_from_slice(&bytes);
        carried += now;
        after.repair[2] = carried as u64;
        if carried == packets.len() {
            after.record = record_of(points, 0b11111);
            after.area = shares.concat();
            after.repair = vec![0; 71];
        }
        lent = figure(trial, &format!("{name}: packets"), step(pace), lent, Outcome::accepted(now, after));
    }
    refused(trial, &format!("{name}: a step behind the last"), step(1), lent, IDLE);
}

/// n = 8, k = 1, d = 2, r = 4: α = 7, B = 7, with room for three stripes. The file is two stripes, F = Y + 10 X and F = 10 Y + X: at boards i and j the
/// bytes are ij and ji, digit by digit.
const EIGHT: Sizes = Sizes { n: 8, k: 1, d: 2, r: 4 };
const FILE: [u8; 14] = [0, 1, 0, 0, 0, 0, 0x10, 0, 0x10, 0, 0, 0, 0, 1];

/// Boards 6, 1 and 4 fresh, in this order; helpers 0 and 2, 3 and 5, 7 and 0; stand-ins 3, 2 and 5.
fn three() -> Call {
    start(&[6, 1, 4], &[0, 2, 3, 5, 7, 0], &[3, 2, 5])
}

/// What lies in their packet area, a line for each fresh board: of helpers, of stand-ins, and of the other fresh boards.
const LYING: [u8; 42] = [
    0x06, 0x60, 0x60, 0x06, 0x26, 0x62, 0x62, 0x26, //
    0x31, 0x13, 0x13, 0x31, 0x51, 0x15, 0x15, 0x51, //
    0x74, 0x47, 0x47, 0x74, 0x04, 0x40, 0x40, 0x04, //
    0x63, 0x36, //
    0x12, 0x21, //
    0x45, 0x54, //
    0x61, 0x16, 0x64, 0x46, //
    0x16, 0x61, 0x14, 0x41, //
    0x46, 0x64, 0x41, 0x14, //
];

/// How many bytes each packet has, in the order carried.
const LENGTHS: [usize; 15] = [4, 4, 4, 4, 4, 4, 2, 2, 2, 2, 2, 2, 2, 2, 2];

/// The area with all shares, EE behind them.
fn shares_of_eight() -> Vec<u8> {
    let ij = |i: usize, j: usize| (16 * (i % 8) + j % 8) as u8;
    let mut area = vec![0xEE; 8 * 21];
    for (i, part) in area.chunks_mut(21).enumerate() {
        for t in 0..6 {
            (part[t], part[7 + t]) = (ij(i, i + t), ij(i + t, i));
        }
        (part[6], part[13]) = (ij(i + 1, i), ij(i, i + 1));
    }
    area
}

fn record_of_eight(marks: u64) -> Vec<u64> {
    vec![8, 1, 2, 4, 3, 1, 14, marks, 0x0706_0504_0302_0100, 0, 0, 0]
}

/// Boards 6, 1 and 4 out of service, EE on them, and so many packets carried.
fn three_lent(carried: usize) -> Lent {
    let mut area = shares_of_eight();
    for board in [6, 1, 4] {
        area[21 * board..][..21].fill(0xEE);
    }
    let from: usize = LENGTHS[..carried].iter().sum();
    let packets = [&LYING[..from], &vec![0xEE; 42 - from]].concat();
    let repair = words([1, 3, carried as u64, 0x04_0106], 0x0007_0503_0200, 0x05_0203);
    Lent { repair, packets, ..Lent::idle(record_of_eight(0b1010_1101), area, Vec::new()) }
}

/// With the last packet, boards hold these first stripes, the second stripes being true; the packets lie as these.
fn ended(lent: &Lent, packets: Vec<u8>, shares: &[(usize, [u8; 7])]) -> Lent {
    let mut area = lent.area.clone();
    let truth = shares_of_eight();
    for board in [6, 1, 4] {
        area[21 * board..][..14].copy_from_slice(&truth[21 * board..][..14]);
    }
    for &(board, share) in shares {
        area[21 * board..][..7].copy_from_slice(&share);
    }
    Lent { packets, ..Lent::idle(record_of_eight(0xFF), area, Vec::new()) }
}

/// "helper packets first, then stand-ins' packets, then exchanges, each by fresh board (the receiver) and then by list".
pub fn in_order(trial: &mut Trial) {
    let written = Lent::idle(record_of_eight(0xFF), shares_of_eight(), Vec::new());
    let nothing = Lent::idle(record_of_eight(0), vec![0xEE; 8 * 21], Vec::new());
    let nothing = Lent { record: [&[8, 1, 2, 4, 3, 0, 0, 0][..], &nothing.record[8..]].concat(), ..nothing };
    let write = Call::Write { file: FILE.to_vec() };
    figure(trial, "a file of two digits", write, nothing, Outcome::accepted(0, written));

    let begun = three_lent(0);
    let idle = Lent { repair: vec![0; 71], ..begun.clone() };
    figure(trial, "three boards: a start", three(), idle, Outcome::accepted(0, begun));
    // from each count to each other one
    for carried in 0..15 {
        for now in 0..15 - carried {
            let (lent, after) = (three_lent(carried), three_lent(carried + now));
            figure(trial, "three boards: packets", step(now), lent, Outcome::accepted(now, after));
        }
        let lent = three_lent(carried);
        let after = ended(&lent, LYING.to_vec(), &[]);
        for allowance in [15 - carried, 16 - carried, usize::MAX] {
            let expected = Outcome::accepted(15 - carried, after.clone());
            figure(trial, "three boards: the last", step(allowance), lent.clone(), expected);
        }
    }
}

/// Both first bytes of the helper packets of board 1, of the first stripe, are 08 more: so is its g, at every point. What it sends, and what the shares
/// are: f of board 6 goes through 69 in the place of 61 at 01, and is 10 more at 07, since (7 · 5 · 4 · 3) / (1 · 3 · 2 · 5 · 7) = 02; the other
/// values that boards keep are at points of packets.
pub fn altered(trial: &mut Trial) {
    let of_6 = (6, [0x66, 0x77, 0x60, 0x69, 0x62, 0x63, 0x76]);
    let of_1 = (1, [0x19, 0x12, 0x13, 0x14, 0x15, 0x16, 0x29]);
    let of_4 = (4, [0x44, 0x45, 0x46, 0x47, 0x40, 0x49, 0x54]);
    let more = |packets: &[u8], places: &[usize]| {
        let mut packets = packets.to_vec();
        for &place in places {
            packets[place] ^= 0x08;
        }
        packets
    };
    // once all helper packets lie there, the exchanges are made of them
    let lent = three_lent(6);
    let lent = Lent { packets: more(&lent.packets, &[8, 12]), ..lent };
    let after = ended(&lent, more(&LYING, &[8, 12, 30, 40]), &[of_6, of_1, of_4]);
    figure(trial, "packets altered before exchanges", step(9), lent, Outcome::accepted(9, after));
    // before the last packet, which is what board 1 sends board 4
    let lent = three_lent(14);
    let lent = Lent { packets: more(&lent.packets, &[8, 12]), ..lent };
    let after = ended(&lent, more(&LYING, &[8, 12, 40]), &[of_1, of_4]);
    figure(trial, "packets altered before the last", step(1), lent, Outcome::accepted(1, after));
    // what board 1 sent board 6 itself
    let lent = three_lent(14);
    let lent = Lent { packets: more(&lent.packets, &[30]), ..lent };
    let after = ended(&lent, more(&LYING, &[30]), &[of_6]);
    figure(trial, "an exchange altered", step(1), lent, Outcome::accepted(1, after));
    // boards that have sent all they send: nothing is made of them any more
    let mut lent = three_lent(9);
    for board in [0, 2, 3, 5, 7] {
        lent.area[21 * board..][..21].fill(0x99);
    }
    let after = ended(&lent, LYING.to_vec(), &[]);
    figure(trial, "boards altered behind their packets", step(15), lent, Outcome::accepted(6, after));
    // board 3 holds 00 of the first stripe: it helps board 1 and stands in for board 6
    let mut lent = three_lent(0);
    lent.area[63..70].fill(0);
    let mut after = three_lent(7);
    after.area[63..70].fill(0);
    (after.packets[8], after.packets[9], after.packets[24]) = (0, 0, 0);
    figure(trial, "a board that sends 00", step(7), lent, Outcome::accepted(7, after));
}

/// What goes on while M12's repair runs, and what is refused.
pub fn meanwhile(trial: &mut Trial, series: &Series) {
    let [repair, _, alone] = repairs(series);
    let Series { points, shares, .. } = series;
    let mut words = repair.words.clone();
    words[2] = 3;
    // bytes in entries that no list uses stay
    (words[4], words[8], words[70]) = (0x99, 0x88, 0x77);
    let lent = Lent {
        repair: words,
        packets: vec![0xEE; 14],
        ..Lent::idle(record_of(points, 0b11100), shares.concat(), Vec::new())
    };
    let refused_now = |trial: &mut Trial, call: Call, number: u8| {
        refused(trial, "a call while a repair runs", call, lent.clone(), number);
    };
    let write = |length: usize| Call::Write { file: vec![1; length] };
    refused_now(trial, write(13), LONG);
    refused_now(trial, write(12), BUSY);
    refused_now(trial, write(0), BUSY);
    for (offset, bytes, boards) in [(11, vec![2], vec![4, 2]), (13, vec![], vec![9]), (usize::MAX, vec![1, 2], vec![])]
    {
        refused_now(trial, Call::Edit { offset, bytes, boards }, BUSY);
    }
    let lists: [(&[usize], &[usize], &[usize]); 4] =
        [(&[0, 1], &[2, 3, 4, 2, 3, 4], &[]), (&[], &[], &[]), (&[9], &[9, 9, 9], &[9]), (&[2], &[3, 4, 1], &[0])];
    for (fresh, helpers, stand_ins) in lists {
        refused_now(trial, start(fresh, helpers, stand_ins), BUSY);
        let (fresh, helpers, stand_ins) = (fresh.to_vec(), helpers.to_vec(), stand_ins.to_vec());
        refused_now(trial, Call::Repair { fresh, helpers, stand_ins }, BUSY);
    }
    refused_now(trial, Call::Read { boards: vec![2, 0] }, DOWN);
    refused_now(trial, Call::Read { boards: vec![2] }, COUNT);
    refused_now(trial, Call::Lose { board: 5 }, NODE);
    for length in [0, 13, 15, 28] {
        let lent = Lent { packets: vec![0xEE; length], ..lent.clone() };
        refused(trial, "a step over a packet area of another length", step(1), lent, AREA);
    }
    let short = Lent { area: lent.area[1..].to_vec(), ..lent.clone() };
    for call in [step(1), write(13), start(&[9], &[], &[])] {
        refused(trial, "an area of another length while a repair runs", call, short.clone(), AREA);
    }
    // a read goes on, and a loss of each board that is named ends it
    let read = Lent { out: vec![0xEE; 13], ..lent.clone() };
    let after = Lent { out: vec![0, 0, 0, 0, 0, 0, 0, 0, 0, 0, 0, 1, 0xEE], ..read.clone() };
    figure(trial, "a read while a repair runs", Call::Read { boards: vec![4, 2] }, read, Outcome::accepted(0, after));
    for (board, marks) in [(0, 0b11100), (1, 0b11100), (2, 0b11000), (3, 0b10100), (4, 0b01100)] {
        let after = Lent { record: record_of(points, marks), repair: vec![0; 71], ..lent.clone() };
        let expected = Outcome::accepted(0, after);
        figure(trial, "a loss of a board that is named", Call::Lose { board }, lent.clone(), expected);
    }
    // with board 1 alone, and 4 standing in, all are named but for none: of five boards board 0, 2, 3 help
    let lent = Lent { repair: alone.words, ..Lent::idle(record_of(points, 0b11101), shares.concat(), Vec::new()) };
    for (board, marks) in [(4, 0b01101), (1, 0b11101), (0, 0b11100)] {
        let after = Lent { record: record_of(points, marks), repair: vec![0; 71], ..lent.clone() };
        let expected = Outcome::accepted(0, after);
        figure(trial, "a loss of a board that is named", Call::Lose { board }, lent.clone(), expected);
    }
}

/// A loss of a board that a repair of board 1 of eight does not name, in service or not; then set up in the midst of it.
pub fn goes_on(trial: &mut Trial) {
    let repair = words([1, 1, 2, 0x01], 0x0302, 0x06_0504);
    let lent = Lent { repair, ..Lent::idle(record_of_eight(0b1111_1100), shares_of_eight(), Vec::new()) };
    for (board, marks) in [(7, 0b0111_1100), (0, 0b1111_1100)] {
        let after = Lent { record: record_of_eight(marks), ..lent.clone() };
        let expected = Outcome::accepted(0, after);
        figure(trial, "a loss of another board", Call::Lose { board }, lent.clone(), expected);
    }
    let set_up = |capacity: usize| Call::SetUp { sizes: EIGHT, points: standard(8), capacity };
    let new = vec![8, 1, 2, 4, 3, 0, 0, 0, 0x0706_0504_0302_0100, 0, 0, 0];
    for repair in [lent.repair.clone(), vec![u64::MAX; 71], words([1, 33, 0, 0], 0, 0)] {
        let lent = Lent { repair, ..lent.clone() };
        let after = Lent { record: new.clone(), repair: vec![0; 71], ..lent.clone() };
        figure(trial, "a set-up over a repair", set_up(3), lent.clone(), Outcome::accepted(0, after));
        refused(trial, "a set-up over a repair", set_up(0), lent, SIZE);
    }
    for count in [0, 12, 70, 72] {
        let lent = Lent { repair: vec![0; count], ..lent.clone() };
        refused(trial, "a set-up with another count of words", set_up(3), lent, SIZE);
    }
}

/// "a step with none running", where the packet area's length is not checked and no idle record is examined; EMPTY and AREA come before it.
pub fn none_running(trial: &mut Trial, series: &Series) {
    let Series { points, shares, .. } = series;
    let lent = Lent::idle(record_of(points, 0b11100), shares.concat(), Vec::new());
    let mut others = vec![u64::MAX; 71];
    others[0] = 0;
    let mut empty = lent.clone();
    empty.record[5..8].fill(0);
    for repair in [vec![0; 71], others, words([0, 2, 3, 0x0100], 0x0403_0204_0302, 0)] {
        for (allowance, length) in [(0, 0), (1, 14), (usize::MAX, 3)] {
            let packets = vec![0xEE; length];
            let lent = Lent { repair: repair.clone(), packets: packets.clone(), ..lent.clone() };
            refused(trial, "a step with none running", step(allowance), lent.clone(), IDLE);
            let empty = Lent { repair: repair.clone(), packets, ..empty.clone() };
            refused(trial, "a step before a write", step(allowance), empty.clone(), EMPTY);
            let short = Lent { area: empty.area[1..].to_vec(), ..empty };
            refused(trial, "a step over a short area", step(allowance), short, AREA);
        }
        let lent = Lent { repair, ..empty.clone() };
        refused(trial, "a start before a write", start(&[9], &[], &[]), lent, EMPTY);
    }
}

/// Records that no call hands on: every call but set up is SIZE, before all else.
pub fn made_up(trial: &mut Trial, series: &Series) {
    let Series { points, shares, .. } = series;
    let [repair, _, alone] = repairs(series);
    let both = |place: usize, number: u64| {
        let mut words = repair.words.clone();
        words[place] = number;
        (0b11100, words)
    };
    let one = |place: usize, number: u64| {
        let mut words = alone.words.clone();
        words[place] = number;
        (0b11101, words)
    };
    let mut cases = vec![
        // 8 packets, and 4
        both(2, 8),
        both(2, 9),
        both(2, u64::MAX),
        both(2, 1 << 32),
        one(2, 4),
        // a first word that is neither 0 nor 1
        both(0, 2),
        both(0, 257),
        both(0, u64::MAX),
        // "t outside 1 to r", also where it is right once it is cut, and where 32 boards are all there are
        both(1, 0),
        both(1, 3),
        both(1, 32),
        both(1, 33),
        both(1, 34),
        both(1, 258),
        both(1, (1 << 32) + 2),
        both(1, u64::MAX),
        // boards 255 and 5, board 0 twice, a fresh board among the helpers
        both(3, 0xFF00),
        both(3, 0x0105),
        both(3, 0x0000),
        both(7, 0xFF03_0204_0302),
        both(7, 0x0403_0204_0305),
        both(7, 0x0402_0204_0302),
        both(7, 0x0403_0104_0302),
        one(39, 0xFF),
        one(39, 0x05),
        one(39, 0x03),
        one(39, 0x01),
        // one that runs by two fresh boards where one is named, and the other way round
        both(1, 1),
        one(1, 2),
    ];
    // beside another record: a fresh board in service, a helper or a stand-in out of service
    for marks in [0b11101, 0b11110, 0b11000, 0b01100, 0] {
        cases.push((marks, repair.words.clone()));
    }
    for marks in [0b11111, 0b11100, 0b01101] {
        cases.push((marks, alone.words.clone()));
    }
    for count in [0, 1, 70, 72] {
        cases.push((0b11100, (0..count).map(|place| repair.words.get(place).copied().unwrap_or(0)).collect()));
        cases.push((0b11111, vec![0; count]));
    }
    let calls = [
        Call::Write { file: vec![0; 13] },
        Call::Lose { board: 9 },
        Call::Lose { board: 0 },
        Call::Repair { fresh: vec![], helpers: vec![], stand_ins: vec![] },
        Call::Read { boards: vec![4, 2] },
        Call::Edit { offset: 13, bytes: vec![1], boards: vec![9] },
        start(&[9], &[], &[]),
        step(0),
        step(1),
    ];
    for (marks, repair) in cases {
        for call in &calls {
            let (packets, out) = (vec![0xEE; 14], vec![0xEE; 12]);
            let lent =
                Lent { repair: repair.clone(), packets, ..Lent::idle(record_of(points, marks), shares.concat(), out) };
            refused(trial, "a record of a repair that is none", call.clone(), lent.clone(), SIZE);
        }
    }
    // no file, though a repair runs
    let mut record = record_of(points, 0);
    record[5..7].fill(0);
    let lent =
        Lent { repair: repair.words, packets: vec![0xEE; 14], ..Lent::idle(record, shares.concat(), Vec::new()) };
    refused(trial, "a repair that runs without a file", step(1), lent, SIZE);
}
