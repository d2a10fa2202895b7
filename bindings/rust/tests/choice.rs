//! Boards chosen by the marks, records as bytes, and lengths, against the archive.

use zebrankai::{board, Points, Record, Refusal, Sizes, RECORD_BYTES, REPAIR_BYTES};

const EIGHT: Sizes = Sizes { n: 8, k: 4, d: 6, r: 2 };

/// All legal sizes with at most n boards.
fn legal(n: usize) -> impl Iterator<Item = Sizes> {
    (2..=n).flat_map(|n| {
        (1..n).flat_map(move |k| (k..n).flat_map(move |d| (1..=n - d).map(move |r| Sizes { n, k, d, r })))
    })
}

/// A store of one stripe with a file in it.
fn written(sizes: Sizes) -> (Record, Vec<u8>, Vec<u8>) {
    let mut area = vec![0xEE; sizes.area_len(1)];
    let file: Vec<u8> = (0..sizes.longest(1)).map(|place| (place * 37 + 11) as u8).collect();
    let mut record = Record::set_up(sizes, Points::standard(sizes.n), 1).unwrap();
    record.write(&mut area, &file).unwrap();
    (record, area, file)
}

#[test]
fn boards_chosen_are_taken() {
    for sizes in legal(7) {
        for lost in 0u32..1 << sizes.n {
            let (mut record, mut area, file) = written(sizes);
            (0..sizes.n).filter(|board| lost >> board & 1 == 1).for_each(|board| record.lose(board).unwrap());
            let on = sizes.n - lost.count_ones() as usize;
            assert_eq!(record.boards_in_service().count(), on);

            let mut read = vec![0; file.len()];
            match record.choose_read() {
                Ok(boards) => {
                    assert!(boards.len() == sizes.k && on >= sizes.k);
                    record.read(&area, &boards, &mut read).unwrap();
                    assert_eq!(read, file);
                }
                Err(refusal) => assert!(refusal == Refusal::Down && on < sizes.k),
            }
            match record.choose_careful() {
                Ok(boards) => {
                    assert!(boards.len() == sizes.k + 2 && on >= sizes.k + 2);
                    assert_eq!(record.read_careful(&area, &boards, &mut read), Ok(None));
                    assert_eq!(read, file);
                }
                Err(Refusal::Count) => assert!(sizes.k + 2 > sizes.n),
                Err(refusal) => assert!(refusal == Refusal::Down && on < sizes.k + 2),
            }
            match record.choose_lost() {
                Ok(lists) => {
                    let (fresh, helpers, stand_ins) = (&lists.fresh, &lists.helpers, &lists.stand_ins);
                    assert_eq!(fresh.len(), sizes.r.min(sizes.n - on));
                    let mut stepped = record.clone();
                    stepped.start(&area, fresh, helpers, stand_ins).unwrap();
                    assert_eq!(stepped.packets_len(), sizes.packets_len(file.len(), fresh.len()));
                    let mut packets = vec![0; stepped.packets_len()];
                    let all = stepped.packets();
                    assert_eq!((stepped.packets_carried(), stepped.packets_left()), (0, all));
                    if all > 1 {
                        assert_eq!(stepped.step(&mut area, &mut packets, 1), Ok(1));
                        assert_eq!((stepped.packets_carried(), stepped.packets_left()), (1, all - 1));
                    }
                    let again = record.clone().with_repair_bytes(&stepped.repair_to_bytes());
                    assert_eq!(again, Ok(stepped.clone()));
                    record.repair(&mut area, fresh, helpers, stand_ins).unwrap();
                    assert_eq!(record.boards_in_service().count(), on + fresh.len());
                    // its fresh boards are in service now
                    assert_eq!(record.clone().with_repair_bytes(&stepped.repair_to_bytes()), Err(Refusal::Size));
                }
                Err(Refusal::Count) => assert_eq!(on, sizes.n),
                Err(refusal) => assert!(refusal == Refusal::Down && on < sizes.d),
            }
            assert_eq!((record.packets(), record.packets_carried(), record.packets_left()), (0, 0, 0));
            assert_eq!(Record::from_bytes(&record.to_bytes()), Ok(record));
        }
    }
}

#[test]
fn fresh_boards_that_no_repair_takes() {
    let (mut record, _, _) = written(EIGHT);
    let chosen = |record: &Record, fresh: &[usize]| record.choose_repair(fresh).map(drop);
    assert_eq!(chosen(&record, &[3]), Err(Refusal::Serving));
    for board in [1, 3, 6] {
        record.lose(board).unwrap();
    }
    assert_eq!(chosen(&record, &[]), Err(Refusal::Count));
    assert_eq!(chosen(&record, &[1, 3, 6]), Err(Refusal::Count));
    assert_eq!(chosen(&record, &[1, 8]), Err(Refusal::Node));
    assert_eq!(chosen(&record, &[3, 3]), Err(Refusal::Repeat));
    assert_eq!(chosen(&record, &[3, 0]), Err(Refusal::Serving));
    // five are in service, and six must help
    assert_eq!(chosen(&record, &[1, 3]), Err(Refusal::Down));
    assert_eq!(record.choose_lost().unwrap_err(), Refusal::Down);
    assert_eq!(*record.choose_read().unwrap(), [0, 2, 4, 5]);
    assert_eq!(record.choose_careful().unwrap_err(), Refusal::Down);
    let empty = Record::set_up(EIGHT, Points::standard(8), 1).unwrap();
    assert_eq!(chosen(&empty, &[1]), Err(Refusal::Empty));
    assert_eq!(empty.choose_read().unwrap_err(), Refusal::Empty);
    let noise = Record::from_words([7; 12]);
    assert!(!noise.is_sound());
    assert_eq!(chosen(&noise, &[1]), Err(Refusal::Size));
    assert_eq!(noise.choose_read().unwrap_err(), Refusal::Size);
}

#[test]
fn a_record_as_bytes() {
    let (record, _, _) = written(EIGHT);
    let bytes = record.to_bytes();
    assert_eq!((bytes.len(), RECORD_BYTES, REPAIR_BYTES), (96, 96, 568));
    // n, k, d, r, capacity, written, length, marks, the lowest byte first; then the points
    for (word, due) in [8u8, 4, 6, 2, 1, 1, 40, 0xFF].into_iter().enumerate() {
        assert_eq!(bytes[8 * word..8 * word + 8], [due, 0, 0, 0, 0, 0, 0, 0]);
    }
    assert_eq!(bytes[64..72], [0, 1, 2, 3, 4, 5, 6, 7]);
    assert_eq!(Record::from_bytes(&bytes).as_ref(), Ok(&record));
    // each byte altered: another record, and taken just where the calls take it
    for place in 0..bytes.len() {
        for bit in 0..8 {
            let mut altered = bytes;
            altered[place] ^= 1 << bit;
            let words = Record::from_words(core::array::from_fn(|word| {
                u64::from_le_bytes(altered[8 * word..8 * word + 8].try_into().unwrap())
            }));
            match Record::from_bytes(&altered) {
                Ok(other) => assert!(other == words && other != record),
                Err(refusal) => assert!(refusal == Refusal::Size && words.clone().lose(0) == Err(Refusal::Size)),
            }
        }
    }
    assert_eq!(Record::from_bytes(&[0; RECORD_BYTES]), Err(Refusal::Size));
}

#[test]
fn lengths_are_what_the_calls_write() {
    for sizes in legal(9) {
        for length in [1, sizes.stripe_len(), sizes.stripe_len() + 1] {
            let points = Points::first_series(sizes.n);
            let mut share = vec![0; sizes.whole_share_len(length)];
            assert_eq!(board::share(sizes, points, 0, &vec![7; length], &mut share), Ok(share.len()));
            let mut packet = vec![0; sizes.helper_packet_len(length)];
            assert_eq!(board::helper_packet(sizes, points, length, 0, 1, &share, &mut packet), Ok(packet.len()));
            let mut text = vec![0; sizes.text_room(length)];
            assert!(board::share_text(sizes, points, length, 0, &share, &mut text).is_ok());
        }
        assert_eq!((sizes.packets_len(1, 0), sizes.packets_len(1, sizes.r + 1)), (0, 0));
    }
    let not = Sizes { n: 8, k: 7, d: 6, r: 2 };
    assert_eq!((not.whole_share_len(1), not.packets_len(1, 1), not.area_len(1)), (0, 0, 0));
}
