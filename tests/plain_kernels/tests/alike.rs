//! The plain coder and the kernels' algorithm give the same bytes, over all sizes of few boards and some of many, at points 0 to n − 1, i + 1 and
//! drawn ones, with true and damaged areas.

use plain::{careful, moves, running, steps, store, Points, Refusal, Sizes};

/// Numbers that differ from call to call.
struct Numbers(u64);

impl Numbers {
    fn below(&mut self, bound: usize) -> usize {
        self.0 = self.0.wrapping_mul(6_364_136_223_846_793_005).wrapping_add(1_442_695_040_888_963_407);
        (self.0 >> 33) as usize % bound
    }

    fn bytes(&mut self, count: usize) -> Vec<u8> {
        (0..count).map(|_| self.below(256) as u8).collect()
    }

    /// Some of the numbers below a bound, each once.
    fn choose(&mut self, numbers: &[usize], count: usize) -> Vec<usize> {
        let mut numbers = numbers.to_vec();
        for i in 0..count {
            let other = i + self.below(numbers.len() - i);
            numbers.swap(i, other);
        }
        numbers.truncate(count);
        numbers
    }
}

/// All legal sizes of up to 7 boards, and drawn ones.
fn all_sizes(numbers: &mut Numbers) -> Vec<Sizes> {
    let mut list = Vec::new();
    for n in 2..=7 {
        for d in 1..n {
            for r in 1..=n - d {
                list.extend((1..=d).map(|k| Sizes { n, k, d, r }));
            }
        }
    }
    for _ in 0..300 {
        let n = 8 + numbers.below(25);
        let d = 1 + numbers.below(n - 1);
        let r = 1 + numbers.below(n - d);
        let k = 1 + numbers.below(d);
        list.push(Sizes { n, k, d, r });
    }
    list
}

/// Points of n boards, 00 from n up: 0 to n − 1, i + 1, or any different ones.
fn points(n: usize, numbers: &mut Numbers) -> Points {
    let drawn: Vec<usize> = match numbers.below(3) {
        0 => (0..n).collect(),
        1 => (1..=n).collect(),
        _ => numbers.choose(&(0..256).collect::<Vec<usize>>(), n),
    };
    let mut points = [0; 32];
    for (point, value) in points.iter_mut().zip(drawn) {
        *point = value as u8;
    }
    points
}

#[test]
fn alike() {
    let mut numbers = Numbers(1);
    let mut refused = 0;
    for sizes in all_sizes(&mut numbers) {
        let stripes = 1 + numbers.below(3);
        let length = (stripes - 1) * sizes.stripe_len() + 1 + numbers.below(sizes.stripe_len());
        for damaged in [false, true, true] {
            refused += usize::from(!one(sizes, stripes, length, damaged, &mut numbers));
        }
    }
    assert!(refused > 100, "DISAGREE is met {refused} times");
}

/// One store of each; whether its file could be read.
fn one(sizes: Sizes, stripes: usize, length: usize, damaged: bool, numbers: &mut Numbers) -> bool {
    let Sizes { n, k, d, r } = sizes;
    let file = numbers.bytes(length);
    let points = points(n, numbers);
    let (mut words, mut repair) = ([0; store::WORDS], [0; running::WORDS]);
    store::set_up(&mut words, &mut repair, sizes, &points, stripes).expect("sizes and points are legal");
    let mut area = vec![0xEE; n * stripes * sizes.share_len()];
    let mut other = area.clone();
    store::write(&mut words, &repair, &mut area, &file).expect("a write is accepted");
    plain_kernels::write(sizes, &points, &file, &mut other);
    assert!(area == other, "a write at n={n} k={k} d={d} r={r}, points {points:?}, {length} bytes");

    let share_len = stripes * sizes.share_len();
    let node = numbers.below(n);
    let mut share = vec![0xEE; share_len];
    plain_kernels::share(sizes, &points, node, &file, &mut share);
    assert!(share == area[node * share_len..][..share_len], "a share at n={n} k={k} d={d} r={r}, {length} bytes");

    if damaged {
        let place = numbers.below(area.len());
        area[place] ^= 1 + numbers.below(255) as u8;
        other = area.clone();
    }
    let boards: Vec<usize> = (0..n).collect();
    let readers = numbers.choose(&boards, k);
    let mut out = vec![0xEE; length];
    let mut other_out = out.clone();
    let given = store::read(&words, &repair, &area, &readers, &mut out).is_ok();
    assert_eq!(given, plain_kernels::read(sizes, &points, &readers, &other, &mut other_out));
    assert!(out == other_out, "a read at n={n} k={k} d={d} r={r}, {length} bytes, boards {readers:?}");

    if k + 2 <= n {
        careful_reads(sizes, &points, (&words, &repair), &area, length, numbers);
    }

    for count in [0, 1, 4, length, 1 + numbers.below(length)] {
        let count = count.min(length);
        let offset = numbers.below(length - count + 1);
        let bytes = numbers.bytes(count);
        let readers = numbers.choose(&boards, k);
        let given = store::edit(&words, &repair, &mut area, offset, &bytes, &readers).is_ok();
        assert_eq!(given, plain_kernels::edit(sizes, &points, length, offset, &bytes, &readers, &mut other));
        assert!(
            area == other,
            "an edit at n={n} k={k} d={d} r={r}, {length} bytes, {count} from {offset} on, boards {readers:?}"
        );
    }

    for fresh_count in [r, 1, 1 + numbers.below(r)] {
        let fresh = numbers.choose(&boards, fresh_count);
        for &board in &fresh {
            store::lose(&mut words, &mut repair, board).expect("a loss is accepted");
        }
        let left: Vec<usize> = boards.iter().copied().filter(|board| !fresh.contains(board)).collect();
        let (mut helpers, mut stand_ins) = (Vec::new(), Vec::new());
        for _ in &fresh {
            let heard = numbers.choose(&left, d + r - fresh_count);
            helpers.extend(&heard[..d]);
            stand_ins.extend(&heard[d..]);
        }
        // the same by steps of any length, over a copy
        let (mut stepped, mut marks, pace) = (area.clone(), words, 1 + numbers.below(9));
        steps::start(&marks, &mut repair, &stepped, &fresh, &helpers, &stand_ins).expect("a start is accepted");
        let mut packets = numbers.bytes(stripes * fresh_count * (2 * d + r - 1));
        let mut carried = 0;
        while running::runs(&repair) {
            let now = steps::step(&mut marks, &mut repair, &mut stepped, &mut packets, pace);
            carried += now.expect("a step is accepted");
        }
        assert_eq!(carried, fresh_count * (d + r - 1));

        let moved = store::repair(&mut words, &repair, &mut area, &fresh, &helpers, &stand_ins);
        let moved = moved.expect("a repair is accepted");
        assert!(
            area == stepped && words == marks,
            "steps at n={n} k={k} d={d} r={r}, {length} bytes, boards {fresh:?}"
        );
        assert_eq!(moved, stripes * fresh_count * (2 * d + r - 1));
        assert_eq!(moved, plain_kernels::repair(sizes, &points, stripes, &fresh, &helpers, &stand_ins, &mut other));
        assert!(
            area == other,
            "a repair at n={n} k={k} d={d} r={r}, {length} bytes, boards {fresh:?} by {helpers:?} and {stand_ins:?}"
        );
    }
    moved(sizes, &points, (&mut words, &repair), &mut area, stripes, numbers);
    given
}

/// Some moves one after another, of any boards to bytes that are free.
fn moved(
    sizes: Sizes,
    points: &Points,
    (words, repair): (&mut [u64], &[u64]),
    area: &mut [u8],
    stripes: usize,
    numbers: &mut Numbers,
) {
    let Sizes { n, k, d, r } = sizes;
    let (mut points, mut other) = (*points, area.to_vec());
    for _ in 0..3 {
        let board = numbers.below(n);
        let others: Vec<usize> = (0..n).filter(|&other| other != board).collect();
        let named = numbers.choose(&others, d + r - 1);
        let (helpers, partners) = named.split_at(d);
        let free: Vec<u8> = (0..=255).filter(|point| !points[..n].contains(point)).collect();
        let point = free[numbers.below(free.len())];
        let sent = moves::move_board(words, repair, area, board, point, helpers, partners).expect("a move is accepted");
        assert_eq!(sent, stripes * (2 * d + r - 1));
        let also = plain_kernels::move_board(sizes, &mut points, stripes, board, point, helpers, partners, &mut other);
        assert_eq!(sent, also);
        assert!(
            area == other,
            "a move at n={n} k={k} d={d} r={r}, board {board} to {point} by {helpers:?} and {partners:?}"
        );
    }
}

/// Careful reads of any k + 2 boards, as the area is, and with one, two and three of them altered, in a byte or in all.
fn careful_reads(
    sizes: Sizes,
    points: &Points,
    (words, repair): (&[u64], &[u64]),
    area: &[u8],
    length: usize,
    numbers: &mut Numbers,
) {
    let Sizes { n, k, d, r } = sizes;
    let boards: Vec<usize> = (0..n).collect();
    let board_len = area.len() / n;
    for wrong in [0, 1, 1, 1, 2, 3] {
        let named = numbers.choose(&boards, k + 2);
        let mut area = area.to_vec();
        for board in numbers.choose(&named, wrong) {
            let bytes = &mut area[board * board_len..][..board_len];
            let place = numbers.below(board_len);
            match numbers.below(3) {
                0 => bytes.copy_from_slice(&numbers.bytes(board_len)),
                _ => bytes[place] ^= 1 + numbers.below(255) as u8,
            }
        }
        let mut out = vec![0xEE; length];
        let mut other_out = out.clone();
        let reported = careful::read(words, repair, &area, &named, &mut out);
        let other = plain_kernels::read_careful(sizes, points, &named, &area, &mut other_out).ok_or(Refusal::Disagree);
        assert_eq!(reported, other, "a careful read at n={n} k={k} d={d} r={r}, {length} bytes, boards {named:?}");
        assert!(out == other_out, "a careful read at n={n} k={k} d={d} r={r}, {length} bytes, boards {named:?}");
    }
}
