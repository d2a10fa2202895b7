//! Every function of the bindings, accepted and refused, on figures of document 01, at present points and at those of the first series.

use zebrankai::{board, Points, Record, Refusal, Sizes, REPAIR_WORDS};

/// n = 5, k = 2, d = 3, r = 2: shares of 7 bytes, stripes of 12.
const FIVE: Sizes = Sizes { n: 5, k: 2, d: 3, r: 2 };

/// Document 01's file: F = X²Y.
const FILE: [u8; 12] = [0, 0, 0, 0, 0, 0, 0, 0, 0, 0, 0, 1];

/// What its boards hold on present robots.
const SHARES: [[u8; 7]; 5] = [
    [0x00, 0x00, 0x00, 0x00, 0x00, 0x00, 0x00],
    [0x01, 0x02, 0x03, 0x04, 0x00, 0x04, 0x05],
    [0x08, 0x0C, 0x10, 0x00, 0x04, 0x0A, 0x20],
    [0x0F, 0x14, 0x00, 0x05, 0x0A, 0x30, 0x00],
    [0x40, 0x00, 0x10, 0x20, 0x30, 0x00, 0x04],
];

/// Packets of helpers 2, 3, 4 for board 1.
const PACKETS: [u8; 6] = [0x04, 0x02, 0x05, 0x03, 0x10, 0x04];

/// What boards hold on robots of the first series, where board i has the point i + 1.
const FIRST_SHARES: [[u8; 7]; 5] = [
    [0x01, 0x02, 0x03, 0x04, 0x05, 0x04, 0x05],
    [0x08, 0x0C, 0x10, 0x14, 0x04, 0x0A, 0x20],
    [0x0F, 0x14, 0x11, 0x05, 0x0A, 0x30, 0x33],
    [0x40, 0x50, 0x10, 0x20, 0x30, 0x44, 0x04],
    [0x55, 0x11, 0x22, 0x33, 0x44, 0x05, 0x14],
];

/// Packets of helpers 2, 3, 4 for board 1 there.
const FIRST_PACKETS: [u8; 6] = [0x0A, 0x0C, 0x20, 0x10, 0x22, 0x14];

/// The points of five boards of present robots.
fn present() -> Points {
    Points::standard(5)
}

/// The points of five boards of robots of the first series.
fn first() -> Points {
    Points::first_series(5)
}

/// Points that begin with these bytes, 00 behind them.
fn points(begin: &[u8]) -> Points {
    let mut bytes = [0; 32];
    bytes[..begin.len()].copy_from_slice(begin);
    Points::from(bytes)
}

/// A store of one stripe with the file in it.
fn written(points: Points) -> (Record, Vec<u8>) {
    let mut area = vec![0xEE; FIVE.area_len(1)];
    let mut record = Record::set_up(FIVE, points, 1).unwrap();
    record.write(&mut area, &FILE).unwrap();
    (record, area)
}

#[test]
fn lengths_follow_from_sizes() {
    assert_eq!((FIVE.share_len(), FIVE.stripe_len()), (7, 12));
    assert_eq!([0, 1, 12, 13].map(|length| FIVE.stripes(length)), [0, 1, 1, 2]);
    assert_eq!((FIVE.helper_packet_len(13), FIVE.exchange_packet_len(13)), (4, 2));
    assert_eq!((FIVE.area_len(3), FIVE.longest(3)), (105, 36));
    assert_eq!([0, 12, 13].map(|length| FIVE.text_room(length)), [200, 214, 228]);
}

#[test]
fn sizes_that_are_not_legal_have_no_lengths() {
    let huge = usize::MAX;
    for (n, k, d, r) in
        [(33, 2, 3, 2), (5, 4, 3, 2), (5, 0, 3, 2), (5, 2, 3, 0), (5, 2, 4, 2), (5, 2, huge, 2), (5, 2, 3, huge)]
    {
        let sizes = Sizes { n, k, d, r };
        assert!(!sizes.is_legal());
        assert_eq!((sizes.share_len(), sizes.stripe_len(), sizes.stripes(12), sizes.area_len(1)), (0, 0, 0, 0));
        assert_eq!(Record::set_up(sizes, Points::standard(n), 1), Err(Refusal::Size));
    }
    assert!(Sizes { n: 32, k: 31, d: 31, r: 1 }.is_legal());
}

#[test]
fn points_are_a_byte_for_each_board() {
    assert_eq!(present(), points(&[0, 1, 2, 3, 4]));
    assert_eq!(first(), points(&[1, 2, 3, 4, 5]));
    assert_eq!([0, 32, 33, usize::MAX].map(|n| Points::standard(n).of_boards(n).len()), [0, 32, 32, 32]);
    assert_eq!(Points::standard(33), Points::standard(32));
    assert_eq!((Points::first_series(usize::MAX).of_board(31), first().of_board(5)), (Some(32), Some(0)));
    assert_eq!((first().of_board(4), first().of_board(32)), (Some(5), None));
    assert_eq!(<[u8; 32]>::from(first()), *first().bytes());
}

#[test]
fn points_that_repeat_or_stand_from_n_up_are_refused() {
    let legal = [present(), first(), points(&[0xFF, 0x00, 0x80, 0x01, 0x2A]), points(&[9, 8, 7, 6])];
    let wrong = [
        points(&[]),
        points(&[1, 2, 3, 4, 1]),
        points(&[0, 1, 2, 3, 3]),
        points(&[0, 1, 2, 3, 4, 5]),
        points(&[0, 1, 2, 3, 4, 1]),
        Points::from(std::array::from_fn(|board| board as u8)),
        Points::from(std::array::from_fn(|board| if board == 31 { 9 } else { Points::standard(5).bytes()[board] })),
    ];
    for points in legal {
        assert!(points.are_legal(5));
        assert_eq!(Record::set_up(FIVE, points, 1).map(|record| record.points()), Ok(points));
        assert_eq!(board::share(FIVE, points, 0, &FILE, &mut [0; 7]), Ok(7));
    }
    // before all else: NODE and SHORT hold too
    let mut out = [0xEE; 6];
    for points in wrong {
        assert!(!points.are_legal(5));
        assert_eq!(Record::set_up(FIVE, points, 1), Err(Refusal::Size));
        assert_eq!(board::share(FIVE, points, 5, &FILE, &mut out), Err(Refusal::Size));
        assert_eq!(board::file(FIVE, points, 12, &[], &[], &mut out), Err(Refusal::Size));
        assert_eq!(board::helper_packet(FIVE, points, 12, 5, 5, &[], &mut out), Err(Refusal::Size));
        assert_eq!(board::exchange_packet(FIVE, points, 12, 5, &[], &[], 5, &mut out), Err(Refusal::Size));
        assert_eq!(board::finished_share(FIVE, points, 12, 5, &[], &[], &[], &[], &mut out), Err(Refusal::Size));
        assert_eq!(board::share_text(FIVE, points, 12, 5, &[], &mut out), Err(Refusal::Size));
    }
    assert_eq!(out, [0xEE; 6]);
}

#[test]
fn every_refusal_has_its_number_name_and_sentence() {
    let numbers: Vec<u8> = Refusal::ALL.iter().map(|refusal| refusal.number()).collect();
    assert_eq!(numbers, (1..=10).chain(12..=17).collect::<Vec<u8>>());
    for &refusal in Refusal::ALL {
        assert_eq!(Refusal::from_number(refusal.number()), Some(refusal));
        assert_eq!(refusal.name(), format!("{refusal:?}").to_uppercase());
        assert!(refusal.sentence().ends_with('.'));
    }
    // 11 is not used
    assert_eq!([0, 11, 18].map(Refusal::from_number), [None, None, None]);
    assert_eq!(Refusal::Node.to_string(), "NODE (5): A board number is n or more.");
    assert_eq!(Refusal::Serving.to_string(), "SERVING (14): A fresh board is in service.");
    assert_eq!(Refusal::Range.to_string(), "RANGE (15): The edit goes beyond the end of the file.");
    assert_eq!(Refusal::Busy.to_string(), "BUSY (16): A repair is running.");
    assert_eq!(Refusal::Idle.to_string(), "IDLE (17): No repair is running.");
}

#[test]
fn a_share_of_a_file() {
    for (points, shares) in [(present(), SHARES), (first(), FIRST_SHARES)] {
        for (node, share) in shares.iter().enumerate() {
            let mut out = [0xEE; 8];
            assert_eq!(board::share(FIVE, points, node, &FILE, &mut out), Ok(7));
            assert_eq!((&out[..7], out[7]), (&share[..], 0xEE));
        }
    }
    let mut out = [0xEE; 7];
    assert_eq!(board::share(FIVE, present(), 5, &FILE, &mut out), Err(Refusal::Node));
    assert_eq!(board::share(FIVE, present(), 0, &FILE, &mut out[..6]), Err(Refusal::Short));
    assert_eq!(board::share(FIVE, present(), 0, &[0; 4096 * 12 + 1], &mut out), Err(Refusal::Long));
    assert_eq!(out, [0xEE; 7]);
}

#[test]
fn a_file_from_shares() {
    let mut out = [0xEE; 12];
    let shares = [FIRST_SHARES[3], FIRST_SHARES[1]].concat();
    assert_eq!(board::file(FIVE, first(), 12, &[3, 1], &shares, &mut out), Ok(12));
    assert_eq!(out, FILE);
    out.fill(0xEE);
    // of the first series' shares no file of present points has these
    assert_eq!(board::file(FIVE, present(), 12, &[3, 1], &shares, &mut out), Err(Refusal::Disagree));
    assert_eq!(out, [0xEE; 12]);
    let shares = [SHARES[3], SHARES[1]].concat();
    assert_eq!(board::file(FIVE, present(), 12, &[3, 1], &shares, &mut out), Ok(12));
    assert_eq!(out, FILE);
    out.fill(0xEE);
    assert_eq!(board::file(FIVE, present(), 11, &[3, 1], &shares, &mut out), Err(Refusal::Disagree));
    assert_eq!(board::file(FIVE, present(), 12, &[3, 3], &shares, &mut out), Err(Refusal::Repeat));
    assert_eq!(board::file(FIVE, present(), 12, &[3], &shares, &mut out), Err(Refusal::Count));
    assert_eq!(board::file(FIVE, present(), 13, &[3, 1], &shares, &mut out), Err(Refusal::Area));
    assert_eq!(out, [0xEE; 12]);
}

#[test]
fn what_boards_send_and_finish() {
    let mut out = [0xEE; 2];
    for (helper, packet) in (2..5).zip(PACKETS.chunks(2)) {
        assert_eq!(board::helper_packet(FIVE, present(), 12, helper, 1, &SHARES[helper], &mut out), Ok(2));
        assert_eq!(out, packet);
    }
    assert_eq!(board::helper_packet(FIVE, present(), 12, 2, 2, &SHARES[2], &mut out), Err(Refusal::Repeat));

    let mut byte = [0xEE];
    assert_eq!(board::exchange_packet(FIVE, present(), 12, 0, &[2, 3, 4], &[0; 6], 1, &mut byte), Ok(1));
    assert_eq!(byte, [0]);
    // g_1(X) = X² at board 0, 00, by the packets for board 1
    assert_eq!(board::exchange_packet(FIVE, present(), 12, 1, &[2, 3, 4], &PACKETS, 0, &mut byte), Ok(1));
    assert_eq!(byte, [0]);
    assert_eq!(board::exchange_packet(FIVE, present(), 12, 1, &[2, 3], &PACKETS, 0, &mut byte), Err(Refusal::Count));

    let mut share = [0xEE; 7];
    assert_eq!(board::finished_share(FIVE, present(), 12, 1, &[2, 3, 4], &PACKETS, &[0], &[0], &mut share), Ok(7));
    assert_eq!(share, SHARES[1]);
    assert_eq!(
        board::finished_share(FIVE, present(), 12, 1, &[2, 3, 4], &PACKETS, &[], &[0], &mut share),
        Err(Refusal::Count)
    );
}

#[test]
fn what_boards_of_the_first_series_send_and_finish() {
    let mut out = [0xEE; 2];
    for (helper, packet) in (2..5).zip(FIRST_PACKETS.chunks(2)) {
        assert_eq!(board::helper_packet(FIVE, first(), 12, helper, 1, &FIRST_SHARES[helper], &mut out), Ok(2));
        assert_eq!(out, packet);
    }
    let mut byte = [0xEE];
    // g_1(X) = 2 X² at board 0, 01, by the packets for board 1
    assert_eq!(board::exchange_packet(FIVE, first(), 12, 1, &[2, 3, 4], &FIRST_PACKETS, 0, &mut byte), Ok(1));
    assert_eq!(byte, [2]);
    // and what board 0 sends it: g_0(X) = X² at 02
    let mut share = [0xEE; 7];
    assert_eq!(board::finished_share(FIVE, first(), 12, 1, &[2, 3, 4], &FIRST_PACKETS, &[0], &[4], &mut share), Ok(7));
    assert_eq!(share, FIRST_SHARES[1]);
}

#[test]
fn a_share_as_text() {
    let small = Sizes { n: 2, k: 1, d: 1, r: 1 };
    let text = b"n=2\nk=1\nd=1\nr=1\nnode=0\nlength=2\ndata=0506\n";
    let mut out = vec![0xEE; text.len()];
    assert_eq!(board::share_text(small, Points::standard(2), 2, 0, &[5, 6], &mut out), Ok(text.len()));
    assert_eq!(out, text);
    assert_eq!(board::share_text(small, Points::standard(2), 2, 0, &[5], &mut out), Err(Refusal::Area));
    // the points have a line just where they are not 0 to n − 1 in order
    assert_eq!(board::share_text(small, points(&[0, 1]), 2, 0, &[5, 6], &mut out), Ok(text.len()));
    assert_eq!(board::share_text(small, Points::first_series(2), 2, 0, &[6, 3], &mut out), Err(Refusal::Short));
    for (points, line) in [(Points::first_series(2), "0102"), (points(&[1, 0]), "0100"), (points(&[0, 0xAF]), "00af")] {
        let text = format!("n=2\nk=1\nd=1\nr=1\nnode=0\nlength=2\npoints={line}\ndata=0603\n");
        let mut out = vec![0xEE; small.text_room(2)];
        assert_eq!(board::share_text(small, points, 2, 0, &[6, 3], &mut out), Ok(text.len()));
        assert_eq!(out[..text.len()], *text.as_bytes());
    }
}

#[test]
fn the_longest_line_of_points_has_room() {
    let sizes = Sizes { n: 32, k: 31, d: 31, r: 1 };
    let length = sizes.longest(4096);
    let share = vec![0; 4096 * sizes.share_len()];
    let mut out = vec![0xEE; sizes.text_room(length)];
    let written = board::share_text(sizes, Points::first_series(32), length, 31, &share, &mut out).unwrap();
    assert!(written <= out.len() && out[written..].iter().all(|&byte| byte == 0xEE));
}

#[test]
fn a_record_says_what_it_holds() {
    let record = Record::set_up(FIVE, present(), 9).unwrap();
    assert_eq!(record.words(), [5, 2, 3, 2, 9, 0, 0, 0, 0x04_03_02_01_00, 0, 0, 0]);
    assert_eq!((record.sizes(), record.points(), record.capacity()), (FIVE, present(), 9));
    assert_eq!((record.has_file(), record.length(), record.in_service(0)), (false, 0, false));
    let (record, area) = written(present());
    assert_eq!(record.words(), [5, 2, 3, 2, 1, 1, 12, 0b11111, 0x04_03_02_01_00, 0, 0, 0]);
    assert_eq!((record.has_file(), record.length()), (true, 12));
    assert_eq!((record.in_service(4), record.in_service(5), record.in_service(64)), (true, false, false));
    assert_eq!(area, SHARES.concat());
    let (record, area) = written(first());
    assert_eq!(record.words(), [5, 2, 3, 2, 1, 1, 12, 0b11111, 0x05_04_03_02_01, 0, 0, 0]);
    assert_eq!((record.points(), area), (first(), FIRST_SHARES.concat()));
}

#[test]
fn no_board_from_n_or_32_up_is_in_service() {
    // made-up words with all 64 marks on
    for (n, boards) in [(0, 0), (5, 5), (32, 32), (33, 32), (64, 32), (u64::MAX, 32)] {
        let record = Record::from_words([n, 2, 3, 2, 1, 1, 12, u64::MAX, 0, 0, 0, 0]);
        let serving: Vec<usize> = (0..130).filter(|&board| record.in_service(board)).collect();
        assert_eq!(serving, (0..boards).collect::<Vec<_>>(), "n = {n}");
        assert!(!record.in_service(1 << 32) && !record.in_service(usize::MAX));
    }
    // one mark, on each of the 64 places
    for place in 0..64 {
        let record = Record::from_words([32, 16, 24, 8, 1, 1, 0, 1 << place, 0, 0, 0, 0]);
        assert!((0..130).all(|board| record.in_service(board) == (board == place && board < 32)), "the mark {place}");
    }
}

#[test]
fn a_clone_goes_with_a_copy_of_the_area() {
    let (mut record, mut area) = written(present());
    let (before, area_before) = (record.clone(), area.clone());
    record.write(&mut area, &[7; 5]).unwrap();
    record.lose(3).unwrap();
    let mut out = [0xEE; 12];
    assert_eq!((before.in_service(3), before.read(&area_before, &[3, 0], &mut out)), (true, Ok(())));
    assert_eq!(out, FILE);
    assert_eq!(record.read(&area, &[3, 0], &mut out), Err(Refusal::Down));
    assert_eq!((record.read(&area, &[4, 0], &mut out), &out[..5]), (Ok(()), &[7; 5][..]));
}

#[test]
fn a_record_keeps_the_points_of_32_boards() {
    let sizes = Sizes { n: 32, k: 1, d: 1, r: 1 };
    let points = Points::from(std::array::from_fn(|board| 0xFF - 3 * board as u8));
    let record = Record::set_up(sizes, points, 1).unwrap();
    assert_eq!(record.points(), points);
    let due = [0xEAED_F0F3_F6F9_FCFF, 0xD2D5_D8DB_DEE1_E4E7, 0xBABD_C0C3_C6C9_CCCF, 0xA2A5_A8AB_AEB1_B4B7];
    assert_eq!(record.words()[8..], due);
}

#[test]
fn a_record_of_eight_words_goes_on_with_standard_points() {
    let (record, area) = written(present());
    let eight: [u64; 8] = record.words()[..8].try_into().unwrap();
    let mut kept = Record::from_eight_words(eight);
    assert_eq!(kept, record);
    let mut out = [0xEE; 12];
    assert_eq!(kept.read(&area, &[4, 0], &mut out), Ok(()));
    assert_eq!((out, kept.lose(2)), (FILE, Ok(())));
    // words that no call hands out stay so
    let mut made_up = Record::from_eight_words([u64::MAX; 8]);
    assert_eq!(made_up.lose(0), Err(Refusal::Size));
}

#[test]
fn a_store_loses_repairs_and_reads() {
    for (points, shares) in [(present(), SHARES), (first(), FIRST_SHARES)] {
        loses_repairs_and_reads(points, shares);
    }
}

fn loses_repairs_and_reads(points: Points, shares: [[u8; 7]; 5]) {
    let (mut record, mut area) = written(points);
    for lost in [0, 1] {
        record.lose(lost).unwrap();
        area[lost * 7..][..7].fill(0xEE);
    }
    let mut out = [0xEE; 13];
    assert_eq!(record.read(&area, &[0, 1], &mut out), Err(Refusal::Down));
    assert_eq!(record.repair(&mut area, &[0, 1], &[2, 3, 4, 2, 3, 0], &[]), Err(Refusal::Repeat));
    assert_eq!(record.words()[7], 0b11100);
    assert_eq!(record.repair(&mut area, &[0, 1], &[2, 3, 4, 4, 2, 3], &[]), Ok(14));
    assert_eq!((record.words()[7], &area), (0b11111, &shares.concat()));
    assert_eq!(record.points(), points);
    assert_eq!(record.read(&area, &[1], &mut out), Err(Refusal::Count));
    assert_eq!(out, [0xEE; 13]);
    assert_eq!(record.read(&area, &[1, 0], &mut out), Ok(()));
    assert_eq!((&out[..12], out[12]), (&FILE[..], 0xEE));
}

#[test]
fn a_single_board_is_rebuilt_with_a_stand_in() {
    for (points, shares) in [(present(), SHARES), (first(), FIRST_SHARES)] {
        let (mut record, mut area) = written(points);
        // each board in turn, from boards that were rebuilt before
        for lost in [1, 0, 4, 3, 2] {
            record.lose(lost).unwrap();
            area[lost * 7..][..7].fill(0xEE);
            let [one, two, three, stand_in] = [1, 2, 3, 4].map(|step| (lost + step) % 5);
            assert_eq!(record.repair(&mut area, &[lost], &[one, two, three], &[stand_in]), Ok(7));
            assert_eq!((record.words()[7], &area), (0b11111, &shares.concat()));
        }
    }
}

#[test]
fn what_a_stand_in_sends_is_half_of_its_helper_packet() {
    let mut sent = [0xEE; 8];
    for (helper, pair) in [0, 2, 3, 4].into_iter().zip(sent.chunks_mut(2)) {
        assert_eq!(board::helper_packet(FIVE, present(), 12, helper, 1, &SHARES[helper], pair), Ok(2));
    }
    assert_eq!(sent, [0x00, 0x00, 0x04, 0x02, 0x05, 0x03, 0x10, 0x04]);
    // boards 0, 2 and 3 help; board 4 stands in with the second byte of its pair
    let (packets, stand_in) = (&sent[..6], &sent[7..]);
    let mut share = [0xEE; 7];
    let finished = board::finished_share(FIVE, present(), 12, 1, &[0, 2, 3], packets, &[4], stand_in, &mut share);
    assert_eq!((finished, share), (Ok(7), SHARES[1]));
}

#[test]
fn one_to_r_boards_are_rebuilt_together() {
    let sizes = Sizes { n: 9, k: 2, d: 3, r: 4 };
    let file: Vec<u8> = (0..3 * sizes.stripe_len() as u8).collect();
    let mut area = vec![0xEE; sizes.area_len(3)];
    let mut record = Record::set_up(sizes, Points::first_series(9), 3).unwrap();
    record.write(&mut area, &file).unwrap();
    let truth = area.clone();
    for t in 1..=4 {
        let fresh: Vec<usize> = (t..2 * t).collect();
        let left: Vec<usize> = (0..9).filter(|board| !fresh.contains(board)).collect();
        let (mut helpers, mut stand_ins) = (Vec::new(), Vec::new());
        for (turn, &lost) in fresh.iter().enumerate() {
            record.lose(lost).unwrap();
            area[lost * 3 * sizes.share_len()..][..3 * sizes.share_len()].fill(0xEE);
            // others for each, so that a helper of one stands in for another
            let from = |place: usize| left[(place + turn) % left.len()];
            helpers.extend((0..3).map(from));
            stand_ins.extend((3..3 + 4 - t).map(from));
        }
        assert_eq!(record.repair(&mut area, &fresh, &helpers, &stand_ins), Ok(3 * t * sizes.share_len()));
        assert_eq!(area, truth);
    }
    let mut out = vec![0xEE; file.len()];
    assert_eq!((record.read(&area, &[7, 4], &mut out), out), (Ok(()), file));
}

#[test]
fn a_repair_is_refused_by_the_first_line_that_holds() {
    let (mut record, mut area) = written(present());
    for lost in [0, 1] {
        record.lose(lost).unwrap();
    }
    let before = (record.clone(), area.clone());
    let mut refusal = |fresh: &[usize], helpers: &[usize], stand_ins: &[usize]| {
        let refused = record.repair(&mut area, fresh, helpers, stand_ins).unwrap_err();
        assert_eq!((&record, &area), (&before.0, &before.1));
        refused
    };
    // before all else in the lists: not 1 to r fresh boards, and not t × d helpers or t × (r − t) stand-ins
    assert_eq!(refusal(&[], &[], &[]), Refusal::Count);
    assert_eq!(refusal(&[0, 1, 9], &[2, 3, 4, 2, 3, 4, 2, 3, 4], &[]), Refusal::Count);
    assert_eq!(refusal(&[9], &[2, 3], &[4]), Refusal::Count);
    assert_eq!(refusal(&[9], &[2, 3, 4], &[]), Refusal::Count);
    assert_eq!(refusal(&[9], &[2, 3, 4], &[2, 2]), Refusal::Count);
    assert_eq!(refusal(&[0, 9], &[2, 3, 4, 2, 3, 4], &[2]), Refusal::Count);
    // then a number of n or more, in any list, though a board is named twice
    assert_eq!(refusal(&[5], &[2, 2, 3], &[4]), Refusal::Node);
    assert_eq!(refusal(&[0], &[2, 2, 5], &[4]), Refusal::Node);
    assert_eq!(refusal(&[0], &[2, 2, 3], &[5]), Refusal::Node);
    // then a board named twice, though a fresh board is in service
    assert_eq!(refusal(&[2, 2], &[3, 4, 1, 3, 4, 1], &[]), Refusal::Repeat);
    assert_eq!(refusal(&[2], &[3, 4, 3], &[1]), Refusal::Repeat);
    assert_eq!(refusal(&[2], &[3, 4, 1], &[4]), Refusal::Repeat);
    assert_eq!(refusal(&[2], &[3, 4, 1], &[2]), Refusal::Repeat);
    assert_eq!(refusal(&[2], &[3, 4, 2], &[1]), Refusal::Repeat);
    // then a fresh board in service, though a helper or a stand-in is out of service
    assert_eq!(refusal(&[2], &[0, 3, 4], &[1]), Refusal::Serving);
    assert_eq!(refusal(&[0, 2], &[1, 3, 4, 1, 3, 4], &[]), Refusal::Serving);
    // then a helper or a stand-in out of service
    assert_eq!(refusal(&[0], &[1, 2, 3], &[4]), Refusal::Down);
    assert_eq!(refusal(&[0], &[2, 3, 4], &[1]), Refusal::Down);
    assert_eq!(record.repair(&mut area, &[0, 1], &[2, 3, 4, 4, 3, 2], &[]), Ok(14));
    assert_eq!(record.repair(&mut area, &[0, 1], &[2, 3, 4, 4, 3, 2], &[]), Err(Refusal::Serving));
}

#[test]
fn an_edit_changes_what_boards_in_service_hold() {
    for (points, shares) in [(present(), SHARES), (first(), FIRST_SHARES)] {
        // F = X²Y, and 01 made 00 is no file but 00: each board gives up just its share
        let (mut record, mut area) = written(points);
        record.lose(0).unwrap();
        area[..7].fill(0xEE);
        // a wrong byte of a board in service stays wrong
        area[2 * 7 + 3] ^= 0x55;
        let before = record.clone();
        assert_eq!(record.edit(&mut area, 11, &[0], &[4, 1]), Ok(()));
        let mut due = [0; 35];
        due[..7].fill(0xEE);
        due[2 * 7 + 3] = 0x55;
        assert_eq!((&record, &area[..]), (&before, &due[..]));
        // the same back, by other boards
        assert_eq!(record.edit(&mut area, 11, &[1], &[3, 4]), Ok(()));
        let mut due = shares.concat();
        due[..7].fill(0xEE);
        due[2 * 7 + 3] ^= 0x55;
        assert_eq!((&record, &area), (&before, &due));
        // with bytes before it that stay as they are
        assert_eq!(record.edit(&mut area, 7, &FILE[7..], &[1, 3]), Ok(()));
        assert_eq!((&record, &area), (&before, &due));
    }
}

#[test]
fn an_edit_leaves_other_stripes() {
    let file: Vec<u8> = (1..=30).collect();
    let mut area = vec![0xEE; FIVE.area_len(4)];
    let mut record = Record::set_up(FIVE, first(), 4).unwrap();
    record.write(&mut area, &file).unwrap();
    let before = area.clone();
    // four bytes over the end of the second stripe of three
    record.edit(&mut area, 22, &[0xA0, 0xA1, 0xA2, 0xA3], &[2, 0]).unwrap();
    let mut edited = file.clone();
    edited[22..26].copy_from_slice(&[0xA0, 0xA1, 0xA2, 0xA3]);
    for (now, before) in area.chunks(4 * 7).zip(before.chunks(4 * 7)) {
        assert_eq!((&now[..7], &now[21..]), (&before[..7], &before[21..]));
        assert!(now[7..14] != before[7..14] && now[14..21] != before[14..21]);
    }
    let mut out = vec![0xEE; 30];
    assert_eq!((record.read(&area, &[4, 3], &mut out), &out), (Ok(()), &edited));
    // what a write of the edited file gives
    let mut anew = before;
    record.clone().write(&mut anew, &edited).unwrap();
    assert_eq!(area, anew);
}

#[test]
fn an_edit_of_no_bytes_passes_all_checks_and_changes_nothing() {
    let (mut record, mut area) = written(present());
    let before = (record.clone(), area.clone());
    for offset in [0, 5, 12] {
        assert_eq!(record.edit(&mut area, offset, &[], &[3, 1]), Ok(()));
    }
    assert_eq!(record.edit(&mut area, 13, &[], &[3, 1]), Err(Refusal::Range));
    assert_eq!(record.edit(&mut area, 12, &[], &[3]), Err(Refusal::Count));
    assert_eq!((&record, &area), (&before.0, &before.1));
    // F(x_3, y_1) by board 3 is no longer that by board 1
    area[3 * 7 + 3] ^= 1;
    let before = area.clone();
    for offset in [0, 12] {
        assert_eq!(record.edit(&mut area, offset, &[], &[3, 1]), Err(Refusal::Disagree));
    }
    assert_eq!((record, area), (written(present()).0, before));
}

#[test]
fn an_edit_is_refused_by_the_first_line_that_holds() {
    let mut area = vec![0xEE; FIVE.area_len(1)];
    let mut record = Record::set_up(FIVE, present(), 1).unwrap();
    // SIZE, AREA, EMPTY, though all behind them hold
    let mut made_up = Record::from_words([5, 2, 3, 2, 1, 0, 1, 0, 0x04_03_02_01_00, 0, 0, 0]);
    assert_eq!(made_up.edit(&mut area[1..], 13, &[1], &[9]), Err(Refusal::Size));
    assert_eq!(record.edit(&mut area[1..], 13, &[1], &[9]), Err(Refusal::Area));
    assert_eq!(record.edit(&mut area, 13, &[1], &[9]), Err(Refusal::Empty));
    record.write(&mut area, &FILE).unwrap();
    record.lose(0).unwrap();
    area[3 * 7 + 3] ^= 1;
    let before = (record.clone(), area.clone());
    let mut refusal = |offset: usize, bytes: &[u8], boards: &[usize]| {
        let refused = record.edit(&mut area, offset, bytes, boards).unwrap_err();
        assert_eq!((&record, &area), (&before.0, &before.1));
        refused
    };
    // RANGE, though the list is wrong in all its ways; the sum of offset and count does not wrap round
    for (offset, count) in
        [(12, 1), (0, 13), (9, 4), (13, 0), (usize::MAX, 0), (usize::MAX, 1), (usize::MAX - 2, 4), (1 << 32, 1)]
    {
        assert_eq!(refusal(offset, &[7; 13][..count], &[9]), Refusal::Range, "offset {offset}, {count} bytes");
        assert_eq!(refusal(offset, &[7; 13][..count], &[3, 1]), Refusal::Range, "offset {offset}, {count} bytes");
    }
    assert_eq!(refusal(11, &[7], &[9]), Refusal::Count);
    assert_eq!(refusal(11, &[7], &[9, 9, 9]), Refusal::Count);
    assert_eq!(refusal(11, &[7], &[9, 9]), Refusal::Node);
    assert_eq!(refusal(11, &[7], &[0, 0]), Refusal::Repeat);
    assert_eq!(refusal(11, &[7], &[3, 0]), Refusal::Down);
    assert_eq!(refusal(11, &[7], &[3, 1]), Refusal::Disagree);
    assert_eq!(record.edit(&mut area, 11, &[7], &[4, 1]), Ok(()));
}

#[test]
fn a_store_refuses_and_stays() {
    let mut area = vec![0xEE; FIVE.area_len(1)];
    let mut record = Record::set_up(FIVE, present(), 1).unwrap();
    let before = record.clone();
    assert_eq!(record.read(&area, &[0, 1], &mut []), Err(Refusal::Empty));
    assert_eq!(record.repair(&mut area, &[], &[], &[]), Err(Refusal::Empty));
    assert_eq!(record.repair(&mut area[1..], &[], &[], &[]), Err(Refusal::Area));
    assert_eq!(record.write(&mut area, &[1; 13]), Err(Refusal::Long));
    assert_eq!(record.write(&mut area[1..], &FILE), Err(Refusal::Area));
    assert_eq!(record.lose(5), Err(Refusal::Node));
    assert_eq!((record, area), (before, vec![0xEE; 35]));
    // a length with no file; a point twice; a point from n up
    let made_up = [
        [5, 2, 3, 2, 1, 0, 1, 0, 0x04_03_02_01_00, 0, 0, 0],
        [5, 2, 3, 2, 1, 0, 0, 0, 0x04_03_02_01_04, 0, 0, 0],
        [5, 2, 3, 2, 1, 0, 0, 0, 0x09_04_03_02_01_00, 0, 0, 0],
        [5, 2, 3, 2, 1, 0, 0, 0, 0x04_03_02_01_00, 0, 0, 1 << 56],
    ];
    for words in made_up {
        let mut record = Record::from_words(words);
        assert_eq!(record.lose(0), Err(Refusal::Size));
        assert_eq!(record.words(), words);
    }
}

#[test]
fn a_careful_read_names_the_odd_board() {
    for points in [present(), first()] {
        let (record, area) = written(points);
        let lists = [[0, 1, 2, 3], [4, 3, 2, 1], [2, 0, 4, 1], [3, 4, 0, 2], [1, 4, 3, 0]];
        for boards in lists {
            let mut out = [0xEE; 13];
            assert_eq!(record.read_careful(&area, &boards, &mut out), Ok(None));
            assert_eq!((&out[..12], out[12]), (&FILE[..], 0xEE));
            // each byte of each board in turn, board 0 too; a board that is not read does not matter
            for place in 0..area.len() {
                let mut worn = area.clone();
                worn[place] ^= 0x80 >> (place % 8);
                let (before, kept) = (record.clone(), worn.clone());
                let odd = Some(place / 7).filter(|board| boards.contains(board));
                let mut out = [0xEE; 13];
                assert_eq!(record.read_careful(&worn, &boards, &mut out), Ok(odd));
                assert_eq!((&out[..12], out[12]), (&FILE[..], 0xEE));
                assert_eq!((&record, worn), (&before, kept));
            }
        }
        // a read of k boards takes most of these bytes for another file's, and two reads among k + 1 never give the same
        let mut accepted = 0;
        for place in 0..7 {
            let mut worn = area.clone();
            worn[place] ^= 1;
            let [with, without] = [[0, 1], [2, 1]].map(|boards| {
                let mut out = [0xEE; 12];
                record.read(&worn, &boards, &mut out).map(|()| out)
            });
            accepted += usize::from(with.is_ok());
            assert_eq!(without, Ok(FILE));
            assert_ne!(with, without);
        }
        assert!(accepted > 3, "{accepted} of 7 are accepted");
    }
}

#[test]
fn a_careful_read_counts_whole_shares() {
    // two stripes, the second with one byte of the file
    let file: Vec<u8> = (1..=13).collect();
    let mut area = vec![0xEE; FIVE.area_len(3)];
    let mut record = Record::set_up(FIVE, first(), 3).unwrap();
    record.write(&mut area, &file).unwrap();
    let boards = [3, 0, 4, 1];
    let careful = |area: &[u8]| {
        let mut out = [0xEE; 14];
        let odd = record.read_careful(area, &boards, &mut out);
        assert_eq!(out[13], 0xEE);
        let due = if odd.is_ok() { file.clone() } else { vec![0xEE; 13] };
        assert_eq!(out[..13], due);
        odd
    };
    // one board wrong in both stripes, and behind its share, which does not count
    let mut worn = area.clone();
    worn[..21].fill(0x5A);
    assert_eq!(careful(&worn), Ok(Some(0)));
    // another board wrong too: in the same stripe, or in another one
    for place in [3 * 21, 3 * 21 + 7] {
        let mut both = area.clone();
        both[0] ^= 1;
        both[place] ^= 1;
        assert_eq!(careful(&both), Err(Refusal::Disagree));
    }
    // a board with its share of another file, and one with that of a file that has a byte in the padding
    for other in [vec![9; 13], [&file[..], &[0, 7]].concat()] {
        let mut others = vec![0; FIVE.area_len(3)];
        Record::set_up(FIVE, first(), 3).unwrap().write(&mut others, &other).unwrap();
        let mut worn = area.clone();
        worn[21..42].copy_from_slice(&others[21..42]);
        assert_eq!(careful(&worn), Ok(Some(1)));
    }
    // all boards with those of such a file: they agree, and it is none of 13 bytes
    let mut padded = vec![0; FIVE.area_len(3)];
    Record::set_up(FIVE, first(), 3).unwrap().write(&mut padded, &[&file[..], &[0, 7]].concat()).unwrap();
    assert_eq!(careful(&padded), Err(Refusal::Disagree));
}

#[test]
fn a_careful_read_is_refused_by_the_first_line_that_holds() {
    let (mut record, mut area) = written(present());
    record.lose(2).unwrap();
    let mut out = [0xEE; 12];
    let mut refusal = |record: &Record, area: &[u8], boards: &[usize], room: usize| {
        let refused = record.read_careful(area, boards, &mut out[..room]).unwrap_err();
        assert_eq!(out, [0xEE; 12]);
        refused
    };
    // boards 0 and 1 disagree with each other and with all others
    area[0] ^= 1;
    area[7] ^= 1;
    let no_record = Record::from_words([9; 12]);
    let empty = Record::set_up(FIVE, present(), 1).unwrap();
    assert_eq!(refusal(&no_record, &area[1..], &[9], 0), Refusal::Size);
    assert_eq!(refusal(&empty, &area[1..], &[9], 0), Refusal::Area);
    assert_eq!(refusal(&empty, &area, &[9], 0), Refusal::Empty);
    for boards in [&[9][..], &[9, 9], &[9, 9, 9], &[9, 9, 9, 9, 9], &[]] {
        assert_eq!(refusal(&record, &area, boards, 0), Refusal::Count);
    }
    assert_eq!(refusal(&record, &area, &[5, 5, 2, 1], 0), Refusal::Node);
    assert_eq!(refusal(&record, &area, &[2, 2, 0, 1], 0), Refusal::Repeat);
    assert_eq!(refusal(&record, &area, &[2, 3, 0, 1], 0), Refusal::Down);
    assert_eq!(refusal(&record, &area, &[4, 3, 0, 1], 11), Refusal::Short);
    assert_eq!(refusal(&record, &area, &[4, 3, 0, 1], 12), Refusal::Disagree);
    // one of the two as it was: the other is named
    area[0] ^= 1;
    assert_eq!((record.read_careful(&area, &[4, 3, 0, 1], &mut out), out), (Ok(Some(1)), FILE));

    // k + 2 above n: COUNT, whatever the list
    for (n, k) in [(2, 1), (3, 2), (4, 3)] {
        let sizes = Sizes { n, k, d: n - 1, r: 1 };
        let mut area = vec![0; sizes.area_len(1)];
        let mut record = Record::set_up(sizes, Points::standard(n), 1).unwrap();
        record.write(&mut area, &[1]).unwrap();
        for count in 0..=k + 3 {
            let boards: Vec<usize> = (0..count).collect();
            assert_eq!(record.read_careful(&area, &boards, &mut [0; 1]), Err(Refusal::Count));
        }
    }
}

#[test]
fn a_careful_read_of_few_boards_and_of_no_bytes() {
    // k = 1: any bytes of one board are the share of some whole stripe, and two others outvote it
    let sizes = Sizes { n: 3, k: 1, d: 2, r: 1 };
    let mut area = vec![0xEE; sizes.area_len(1)];
    let mut record = Record::set_up(sizes, Points::standard(3), 1).unwrap();
    record.write(&mut area, &[0x11, 0x22, 0x33, 0x44]).unwrap();
    for worn in 0..3 {
        let mut area = area.clone();
        area[worn * sizes.share_len()..][..sizes.share_len()].fill(0x77);
        let mut out = [0; 4];
        assert_eq!(record.read_careful(&area, &[2, 0, 1], &mut out), Ok(Some(worn)));
        assert_eq!(out, [0x11, 0x22, 0x33, 0x44]);
    }
    // a file of no bytes: every board holds its share of it
    record.write(&mut area, &[]).unwrap();
    area.fill(0x99);
    assert_eq!(record.read_careful(&area, &[0, 1, 2], &mut []), Ok(None));
    // no board's mark was touched
    assert_eq!(record.words()[7], 0b111);
}

/// Which four boards follow a board of five: three helpers and a partner.
fn senders(board: usize) -> [usize; 4] {
    std::array::from_fn(|t| (board + t + 1) % 5)
}

#[test]
fn boards_of_the_first_series_are_moved_to_the_present_points() {
    let (mut record, mut area) = written(first());
    let mut out = [0xEE; 12];
    for board in 0..5 {
        let others = senders(board);
        // no byte of the moved board is read
        area[7 * board..][..7].fill(0x77);
        assert_eq!(record.move_board(&mut area, board, board as u8, &others[..3], &others[3..]), Ok(7));
        let moved: Vec<u8> = (0..5).map(|other| other + u8::from(usize::from(other) > board)).collect();
        assert_eq!(record.points(), points(&moved));
        for boards in [[board, others[0]], [others[1], others[3]]] {
            assert_eq!((record.read(&area, &boards, &mut out), out), (Ok(()), FILE));
        }
    }
    // M7 to M11, and the record of a fresh write
    assert_eq!(area, SHARES.concat());
    assert_eq!((record.clone(), area.clone()), written(present()));
    // and back, the last board first
    for board in (0..5).rev() {
        let others = senders(board);
        assert_eq!(record.move_board(&mut area, board, board as u8 + 1, &others[1..], &others[..1]), Ok(7));
    }
    assert_eq!((record, area), written(first()));
}

#[test]
fn between_moves_boards_are_lost_rebuilt_and_edited() {
    let (mut record, mut area) = written(first());
    record.move_board(&mut area, 0, 0, &[1, 2, 3], &[4]).unwrap();
    record.edit(&mut area, 11, &[2], &[4, 0]).unwrap();
    record.lose(3).unwrap();
    area[21..28].fill(0xEE);
    let before = (record.clone(), area.clone());
    assert_eq!(record.move_board(&mut area, 1, 1, &[0, 2, 4], &[3]), Err(Refusal::Down));
    assert_eq!((&record, &area), (&before.0, &before.1));
    assert_eq!(record.repair(&mut area, &[3], &[0, 1, 2], &[4]), Ok(7));
    for board in 1..5 {
        let others = senders(board);
        record.move_board(&mut area, board, board as u8, &others[..3], &others[3..]).unwrap();
    }
    let (mut anew, mut there) = written(present());
    anew.write(&mut there, &[0, 0, 0, 0, 0, 0, 0, 0, 0, 0, 0, 2]).unwrap();
    assert_eq!((record, area), (anew, there));
}

#[test]
fn a_move_reaches_the_stripes_of_the_file_alone() {
    let mut area = vec![0xEE; FIVE.area_len(3)];
    let mut record = Record::set_up(FIVE, present(), 3).unwrap();
    record.write(&mut area, &FILE).unwrap();
    assert_eq!(record.move_board(&mut area, 2, 0xFF, &[0, 1, 3], &[4]), Ok(7));
    for board in area.chunks(21) {
        assert_eq!(board[7..], [0xEE; 14]);
    }
    // of no bytes: the point changes, and nothing else
    record.write(&mut area, &[]).unwrap();
    let before = area.clone();
    assert_eq!(record.move_board(&mut area, 2, 0x80, &[0, 1, 3], &[4]), Ok(0));
    assert_eq!((record.points(), area), (points(&[0, 1, 0x80, 3, 4]), before));
}

#[test]
fn a_worn_helper_makes_the_moved_board_wrong_and_a_careful_read_tells() {
    let (mut record, mut area) = written(first());
    // of board 4, which helps, a byte is another one; board 3, which is moved, gets wrong bytes by it
    area[28] ^= 1;
    assert_eq!(record.move_board(&mut area, 3, 9, &[0, 2, 4], &[1]), Ok(7));
    let mut out = [0xEE; 12];
    assert_eq!((record.read_careful(&area, &[0, 1, 2, 4], &mut out), out), (Ok(Some(4)), FILE));
    assert_eq!((record.read_careful(&area, &[0, 1, 2, 3], &mut out), out), (Ok(Some(3)), FILE));
    assert_eq!(record.read_careful(&area, &[0, 1, 3, 4], &mut out), Err(Refusal::Disagree));
}

#[test]
fn a_move_is_refused_by_the_first_line_that_holds() {
    let (mut record, mut area) = written(first());
    let mut refusal = |record: &mut Record, length: usize, board, point, helpers: &[usize], partners: &[usize]| {
        let before = (record.clone(), area.clone());
        let refused = record.move_board(&mut area[..length], board, point, helpers, partners).unwrap_err();
        assert_eq!((&*record, &area), (&before.0, &before.1));
        refused
    };
    let mut no_record = Record::from_words([9; 12]);
    let mut empty = Record::set_up(FIVE, first(), 1).unwrap();
    assert_eq!(refusal(&mut no_record, 34, 9, 1, &[1], &[]), Refusal::Size);
    assert_eq!(refusal(&mut empty, 34, 9, 1, &[1], &[]), Refusal::Area);
    assert_eq!(refusal(&mut empty, 35, 9, 1, &[1], &[]), Refusal::Empty);
    for (helpers, partners) in
        [(&[1, 9][..], &[4][..]), (&[1, 2, 3, 9], &[4]), (&[1, 2, 9], &[]), (&[1, 2, 9], &[4, 4])]
    {
        assert_eq!(refusal(&mut record, 35, 0, 1, helpers, partners), Refusal::Count);
    }
    record.lose(3).unwrap();
    for (board, helpers, partners) in [(5, [1, 1, 2], [4]), (0, [1, 1, 5], [4]), (0, [1, 1, 2], [usize::MAX])] {
        assert_eq!(refusal(&mut record, 35, board, 1, &helpers, &partners), Refusal::Node);
    }
    for (board, helpers, partners) in
        [(0, [0, 1, 2], [4]), (0, [1, 2, 3], [0]), (0, [1, 2, 3], [3]), (0, [1, 2, 1], [4])]
    {
        assert_eq!(refusal(&mut record, 35, board, 9, &helpers, &partners), Refusal::Repeat);
    }
    // the byte of each board, its own too; 00 is kept from 5 up, and is no board's
    for point in 1..=5 {
        assert_eq!(refusal(&mut record, 35, 0, point, &[1, 2, 3], &[4]), Refusal::Repeat);
    }
    for point in [0, 6, 0xFF] {
        assert_eq!(refusal(&mut record, 35, 0, point, &[1, 2, 3], &[4]), Refusal::Down);
        // board 3 is out of service, whoever is named: here itself
        assert_eq!(refusal(&mut record, 35, 3, point, &[1, 2, 0], &[4]), Refusal::Down);
    }
    record.repair(&mut area, &[3], &[0, 1, 2], &[4]).unwrap();
    assert_eq!(record.move_board(&mut area, 0, 0, &[1, 2, 3], &[4]), Ok(7));
}

#[test]
fn a_move_with_no_partners() {
    // r = 1, and d + r = n: every other board helps
    let sizes = Sizes { n: 4, k: 2, d: 3, r: 1 };
    let file = [0x51, 0x52, 0x53, 0x54, 0x55, 0x56, 0x57, 0x58, 0x59];
    let mut area = vec![0; sizes.area_len(1)];
    let mut record = Record::set_up(sizes, Points::first_series(4), 1).unwrap();
    record.write(&mut area, &file).unwrap();
    assert_eq!(record.move_board(&mut area, 0, 0, &[1, 2, 3], &[0]), Err(Refusal::Count));
    for board in 0..4 {
        let helpers: Vec<usize> = (0..4).filter(|&other| other != board).collect();
        assert_eq!(record.move_board(&mut area, board, board as u8, &helpers, &[]), Ok(6));
    }
    let mut anew = vec![0; sizes.area_len(1)];
    let mut present = Record::set_up(sizes, Points::standard(4), 1).unwrap();
    present.write(&mut anew, &file).unwrap();
    assert_eq!((record, area), (present, anew));
}

/// M12's packets for boards 0 and 1, in the order carried: of helpers 2, 3, 4 for each, then what board 1 sends board 0 and board 0 board 1.
const CARRIED: [u8; 14] = [0, 0, 0, 0, 0, 0, 0x04, 0x02, 0x05, 0x03, 0x10, 0x04, 0, 0];
const FIRST_CARRIED: [u8; 14] = [5, 3, 0x10, 4, 0x11, 5, 0x0A, 0x0C, 0x20, 0x10, 0x22, 0x14, 2, 4];

/// Where each of its eight packets begins, and where the last one ends.
const PLACES: [usize; 9] = [0, 2, 4, 6, 8, 10, 12, 13, 14];

/// The words of a repair of boards 0 and 1 with so many packets carried.
fn running(carried: u64) -> [u64; REPAIR_WORDS] {
    let mut words = [0; REPAIR_WORDS];
    words[..4].copy_from_slice(&[1, 2, carried, 0x0100]);
    words[7] = 0x04_03_02_04_03_02;
    words
}

/// Boards 0 and 1 lost and EE on them, and their repair started.
fn started(points: Points) -> (Record, Vec<u8>) {
    let (mut record, mut area) = written(points);
    for lost in [0, 1] {
        record.lose(lost).unwrap();
    }
    area[..14].fill(0xEE);
    record.start(&area, &[0, 1], &[2, 3, 4, 2, 3, 4], &[]).unwrap();
    (record, area)
}

#[test]
fn a_repair_is_carried_a_packet_at_a_time() {
    for (points, shares, due) in [(present(), SHARES, CARRIED), (first(), FIRST_SHARES, FIRST_CARRIED)] {
        for allowance in [1, 2, 3, 7, 8, 9, usize::MAX] {
            let (mut record, mut area) = started(points);
            let (words, before) = (record.words(), area.clone());
            assert_eq!((record.is_repairing(), record.packets_len()), (true, 14));
            let mut packets = vec![0xEE; 14];
            let mut carried = 0;
            while record.is_repairing() {
                assert_eq!((record.words(), record.repair_words(), &area), (words, running(carried as u64), &before));
                assert_eq!(packets[..PLACES[carried]], due[..PLACES[carried]]);
                assert!(packets[PLACES[carried]..].iter().all(|&byte| byte == 0xEE));
                // no packet allowed, and a read in between
                assert_eq!(record.step(&mut area, &mut packets, 0), Ok(0));
                let mut out = [0xEE; 12];
                assert_eq!((record.read(&area, &[4, 2], &mut out), out), (Ok(()), FILE));
                assert_eq!(record.read(&area, &[0, 2], &mut out), Err(Refusal::Down));
                let now = allowance.min(8 - carried);
                assert_eq!(record.step(&mut area, &mut packets, allowance), Ok(now));
                carried += now;
            }
            assert_eq!((carried, &packets[..]), (8, &due[..]));
            assert_eq!((record.words()[7], record.repair_words()), (0b11111, [0; REPAIR_WORDS]));
            assert_eq!((area, record.packets_len()), (shares.concat(), 0));
        }
    }
}

#[test]
fn a_board_is_carried_alone_with_a_stand_in() {
    for (points, shares, due) in [
        (present(), SHARES, [0, 0, 0x04, 0x02, 0x05, 0x03, 0x04]),
        (first(), FIRST_SHARES, [0x02, 0x04, 0x0A, 0x0C, 0x20, 0x10, 0x14]),
    ] {
        let (mut record, mut area) = written(points);
        record.lose(1).unwrap();
        area[7..14].fill(0xEE);
        record.start(&area, &[1], &[0, 2, 3], &[4]).unwrap();
        let mut words = [0; REPAIR_WORDS];
        (words[0], words[1], words[3], words[7], words[39]) = (1, 1, 1, 0x03_02_00, 4);
        assert_eq!((record.repair_words(), record.packets_len()), (words, 7));
        let mut packets = [0xEE; 7];
        assert_eq!(record.step(&mut area, &mut packets, 3), Ok(3));
        assert_eq!((&packets[..6], packets[6]), (&due[..6], 0xEE));
        assert_eq!(record.step(&mut area, &mut packets, 3), Ok(1));
        assert_eq!((packets, area, record.is_repairing()), (due, shares.concat(), false));
    }
}

#[test]
fn a_step_takes_packets_as_they_lie() {
    // board 1's g is 08 more at the points of its three helpers, and so everywhere
    let (mut record, mut area) = started(first());
    let mut packets = vec![0xEE; 14];
    assert_eq!(record.step(&mut area, &mut packets, 6), Ok(6));
    for place in [6, 8, 10] {
        packets[place] ^= 0x08;
    }
    // boards that have sent all they send are altered behind their packets
    area[14..].fill(0x99);
    assert_eq!(record.step(&mut area, &mut packets, 1), Ok(1));
    assert_eq!(packets[12..], [0x02 ^ 0x08, 0xEE]);
    packets[12] = 0x02;
    assert_eq!(record.step(&mut area, &mut packets, 1), Ok(1));
    // board 0 is as it was, by the byte that lies there; of board 1 the values of g are 08 more, and f where it has that of g
    let due = [0x08 ^ 0x08, 0x0C, 0x10, 0x14, 0x04, 0x0A ^ 0x08, 0x20 ^ 0x08];
    assert_eq!((&area[..7], &area[7..14]), (&FIRST_SHARES[0][..], &due[..]));
}

#[test]
fn while_a_repair_runs_reads_and_losses_go_on() {
    let (mut record, mut area) = started(present());
    let mut packets = vec![0xEE; 14];
    assert_eq!(record.step(&mut area, &mut packets, 3), Ok(3));
    let before = (record.clone(), area.clone(), packets.clone());
    // LONG and AREA come before BUSY, and BUSY before all else
    assert_eq!(record.write(&mut area, &[1; 13]), Err(Refusal::Long));
    assert_eq!(record.write(&mut area[1..], &FILE), Err(Refusal::Area));
    assert_eq!(record.write(&mut area, &FILE), Err(Refusal::Busy));
    assert_eq!(record.edit(&mut area, 11, &[2], &[4, 2]), Err(Refusal::Busy));
    assert_eq!(record.edit(&mut area, 13, &[2], &[9]), Err(Refusal::Busy));
    assert_eq!(record.repair(&mut area, &[0, 1], &[2, 3, 4, 2, 3, 4], &[]), Err(Refusal::Busy));
    assert_eq!(record.repair(&mut area, &[], &[], &[]), Err(Refusal::Busy));
    assert_eq!(record.start(&area, &[0, 1], &[2, 3, 4, 2, 3, 4], &[]), Err(Refusal::Busy));
    assert_eq!(record.start(&area, &[9], &[], &[]), Err(Refusal::Busy));
    assert_eq!(record.start(&area[1..], &[9], &[], &[]), Err(Refusal::Area));
    assert_eq!(record.step(&mut area, &mut packets[1..], 1), Err(Refusal::Area));
    assert_eq!(record.step(&mut area[1..], &mut packets, 1), Err(Refusal::Area));
    assert_eq!(record.move_board(&mut area, 2, 9, &[0, 1, 3], &[4]), Err(Refusal::Busy));
    assert_eq!(record.move_board(&mut area, 9, 1, &[], &[]), Err(Refusal::Busy));
    assert_eq!(record.lose(5), Err(Refusal::Node));
    // a careful read, of boards that are in service: only three of five are
    assert_eq!(record.read_careful(&area, &[2, 3, 4, 0], &mut [0; 12]), Err(Refusal::Down));
    assert_eq!((&record, &area, &packets), (&before.0, &before.1, &before.2));
    // a board that is named ends it, in service or not
    for lost in 0..5 {
        let mut record = before.0.clone();
        assert_eq!(record.lose(lost), Ok(()));
        assert_eq!((record.is_repairing(), record.repair_words()), (false, [0; REPAIR_WORDS]));
        assert_eq!(record.words()[7], 0b11100 & !(1 << lost));
        assert_eq!(record.step(&mut area, &mut packets, 1), Err(Refusal::Idle));
    }
    assert_eq!((&area, &packets), (&before.1, &before.2));
    // another one does not: of seven boards 0 and 1 are fresh, 2 to 5 are named
    let sizes = Sizes { n: 7, k: 2, d: 3, r: 2 };
    let mut area = vec![0xEE; sizes.area_len(1)];
    let mut record = Record::set_up(sizes, Points::standard(7), 1).unwrap();
    record.write(&mut area, &[7; 12]).unwrap();
    let truth = area.clone();
    for lost in [0, 1] {
        record.lose(lost).unwrap();
    }
    area[..14].fill(0xEE);
    record.start(&area, &[0, 1], &[2, 3, 4, 3, 4, 5], &[]).unwrap();
    let mut packets = vec![0; record.packets_len()];
    assert_eq!(record.step(&mut area, &mut packets, 5), Ok(5));
    let mut out = [0; 12];
    area[3 * 7] ^= 1;
    assert_eq!((record.read_careful(&area, &[2, 3, 5, 6], &mut out), out), (Ok(Some(3)), [7; 12]));
    area[3 * 7] ^= 1;
    let words = record.repair_words();
    assert_eq!((record.lose(6), record.repair_words()), (Ok(()), words));
    assert_eq!((record.step(&mut area, &mut packets, 5), area), (Ok(3), truth));
    assert_eq!(record.words()[7], 0b0111111);
}

#[test]
fn power_takes_the_repair_and_nothing_else() {
    for carried in 0..8 {
        let (mut record, mut area) = started(first());
        let before = (record.words(), area.clone());
        let mut packets = vec![0; 14];
        record.step(&mut area, &mut packets, carried).unwrap();
        // what was kept is the words and the area
        let mut kept = Record::from_words(record.words());
        record.power_failed();
        assert_eq!((&kept, kept.is_repairing()), (&record, false));
        assert_eq!((kept.words(), &area), (before.0, &before.1));
        let mut out = [0xEE; 12];
        for boards in [[2, 3], [4, 2], [3, 4]] {
            assert_eq!((kept.read(&area, &boards, &mut out), out), (Ok(()), FILE));
        }
        assert_eq!(kept.step(&mut area, &mut packets, 1), Err(Refusal::Idle));
        // inside the last step fresh boards may have been written; they are out of service, and made anew
        area[..10].fill(0x55);
        kept.start(&area, &[0, 1], &[2, 3, 4, 2, 3, 4], &[]).unwrap();
        assert_eq!(kept.step(&mut area, &mut packets, usize::MAX), Ok(8));
        assert_eq!(area, FIRST_SHARES.concat());
    }
}

#[test]
fn a_running_repair_is_kept_as_words_too() {
    let (mut record, mut area) = started(present());
    let mut packets = vec![0; 14];
    record.step(&mut area, &mut packets, 5).unwrap();
    let mut kept = Record::from_words(record.words()).with_repair_words(record.repair_words());
    assert_eq!((&kept, kept.packets_len()), (&record, 14));
    assert_eq!(kept.step(&mut area, &mut packets, 8), Ok(3));
    assert_eq!((area, kept.is_repairing()), (SHARES.concat(), false));
}

#[test]
fn a_repair_that_no_call_hands_out_is_refused() {
    let (record, mut area) = started(present());
    let mut packets = vec![0xEE; 14];
    let words = record.words();
    // all carried; t is 0, 3, 33 or right once it is cut; neither 0 nor 1; boards that are none, named twice, in service
    let made_up =
        [(2, 8), (2, u64::MAX), (1, 0), (1, 3), (1, 33), (1, 258), (1, u64::MAX), (0, 2), (0, 257), (3, 0xFF00)];
    let boards = [(3, 0x0505), (3, 0), (3, 0x0200), (7, 0xFF_03_02_04_03_02), (7, 0x04_03_01_04_03_02)];
    for (place, number) in made_up.into_iter().chain(boards) {
        let mut repair = running(0);
        repair[place] = number;
        let mut record = Record::from_words(words).with_repair_words(repair);
        let before = record.clone();
        let said = format!("word {place} is {number:x}");
        assert_eq!(record.step(&mut area, &mut packets, 1), Err(Refusal::Size), "{said}");
        assert_eq!(record.read(&area, &[4, 2], &mut [0; 12]), Err(Refusal::Size), "{said}");
        assert_eq!(record.lose(0), Err(Refusal::Size), "{said}");
        assert_eq!(record.write(&mut area, &FILE), Err(Refusal::Size), "{said}");
        assert_eq!(record, before);
    }
    // beside words of the store in which a helper is lost, or a fresh board in service
    for marks in [0b11000, 0b11101, 0] {
        let mut words = words;
        words[7] = marks;
        let mut record = Record::from_words(words).with_repair_words(running(0));
        assert_eq!(record.step(&mut area, &mut packets, 1), Err(Refusal::Size));
        // an idle one is not looked at
        record = record.with_repair_words(std::array::from_fn(|place| if place == 0 { 0 } else { u64::MAX }));
        assert_eq!((record.step(&mut area, &mut packets, 1), record.packets_len()), (Err(Refusal::Idle), 0));
        assert_eq!(record.repair_words()[1..], [u64::MAX; 70]);
    }
    assert_eq!(packets, vec![0xEE; 14]);
    // numbers that no area has are cut
    let mut huge = running(0);
    huge[1] = u64::MAX;
    assert_eq!(Record::from_words(words).with_repair_words(huge).packets_len(), usize::MAX);
}

#[test]
fn a_step_before_a_write_and_of_an_empty_file() {
    let mut area = vec![0xEE; FIVE.area_len(1)];
    let mut record = Record::set_up(FIVE, present(), 1).unwrap();
    let before = record.clone();
    assert_eq!(record.step(&mut area, &mut [1, 2, 3], 1), Err(Refusal::Empty));
    assert_eq!(record.start(&area, &[9], &[], &[]), Err(Refusal::Empty));
    assert_eq!(record, before);
    record.write(&mut area, &[]).unwrap();
    assert_eq!(record.step(&mut area, &mut [1, 2, 3], 0), Err(Refusal::Idle));
    record.lose(3).unwrap();
    record.start(&area, &[3], &[0, 1, 2], &[4]).unwrap();
    // four packets of no bytes
    assert_eq!(record.packets_len(), 0);
    for left in [true, true, true, false] {
        assert_eq!((record.step(&mut area, &mut [], 1), record.is_repairing()), (Ok(1), left));
    }
    assert_eq!((record.words()[7], area), (0b11111, vec![0xEE; 35]));
}
