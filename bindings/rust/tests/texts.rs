//! Texts read and gathered (request A.1), and how far they make sense (request A.14), on figures of document 01, at present points and at those of the
//! first series.

use zebrankai::{board, Points, Record, Refusal, Sizes};

/// n = 5, k = 2, d = 3, r = 2: shares of 7 bytes, stripes of 12.
const FIVE: Sizes = Sizes { n: 5, k: 2, d: 3, r: 2 };

/// Thirty bytes: three stripes, the last one cut.
fn file() -> Vec<u8> {
    (0..30).map(|byte| byte * 7 + 1).collect()
}

/// The text of a board's share.
fn text(sizes: Sizes, points: Points, node: usize, file: &[u8]) -> Vec<u8> {
    let mut share = vec![0; sizes.stripes(file.len()) * sizes.share_len()];
    board::share(sizes, points, node, file, &mut share).unwrap();
    let mut text = vec![0; sizes.text_room(file.len())];
    let written = board::share_text(sizes, points, file.len(), node, &share, &mut text).unwrap();
    text.truncate(written);
    text
}

#[test]
fn a_text_gives_what_was_written_to_it() {
    for points in [Points::standard(5), Points::first_series(5)] {
        for node in 0..5 {
            let text = text(FIVE, points, node, &file());
            let mut out = vec![0xEE; 22];
            let read = board::read_text(&text, &mut out).unwrap();
            assert_eq!((read.sizes, read.points, read.node, read.length, read.written), (FIVE, points, node, 30, 21));
            let mut share = [0; 21];
            board::share(FIVE, points, node, &file(), &mut share).unwrap();
            assert_eq!((&out[..21], out[21]), (&share[..], 0xEE));
            // half as many bytes as the text has are enough
            assert!(board::read_text(&text, &mut vec![0; text.len() / 2]).is_ok());
        }
    }
}

#[test]
fn texts_follow_the_points_of_a_record() {
    let mut area = vec![0xEE; FIVE.area_len(3)];
    let mut record = Record::set_up(FIVE, Points::first_series(5), 3).unwrap();
    record.write(&mut area, &file()).unwrap();
    // of a board in the store, as it is
    let printed = |record: &Record, area: &[u8], node: usize| {
        let mut text = vec![0; FIVE.text_room(30)];
        let share = &area[21 * node..][..21];
        let written = board::share_text(FIVE, record.points(), 30, node, share, &mut text).unwrap();
        text.truncate(written);
        text
    };
    let mut out = vec![0; 30];
    let before: Vec<Vec<u8>> = (0..5).map(|node| printed(&record, &area, node)).collect();
    for board in 0..5 {
        let others: Vec<usize> = (1..5).map(|t| (board + t) % 5).collect();
        record.move_board(&mut area, board, board as u8, &others[..3], &others[3..]).unwrap();
        let two = [printed(&record, &area, board), printed(&record, &area, others[1])];
        assert_eq!((board::gather(&two.concat(), &mut out), &out), (Ok(30), &file()));
        // with a text from before it does not go together, and those from before still do
        let mixed = [&two[0][..], &before[others[1]]].concat();
        assert_eq!(board::gather(&mixed, &mut out), Err(Refusal::Mixed));
        let old = [&before[board][..], &before[others[1]]].concat();
        assert_eq!((board::gather(&old, &mut out), &out), (Ok(30), &file()));
    }
    for (node, before) in before.iter().enumerate() {
        let now = printed(&record, &area, node);
        assert_eq!(now, text(FIVE, Points::standard(5), node, &file()));
        let has_points = |text: &[u8]| text.windows(7).any(|part| part == b"points=");
        assert_eq!((has_points(before), has_points(&now)), (true, false));
    }
}

#[test]
fn the_longest_text_comes_back() {
    let sizes = Sizes { n: 32, k: 31, d: 31, r: 1 };
    let points = Points::from(std::array::from_fn(|board| 0xFF - board as u8));
    let length = sizes.longest(4096);
    let share: Vec<u8> = (0..4096 * sizes.share_len()).map(|place| (place * 31 >> 3) as u8).collect();
    let mut text = vec![0; sizes.text_room(length)];
    let written = board::share_text(sizes, points, length, 31, &share, &mut text).unwrap();
    let mut out = vec![0; share.len()];
    let read = board::read_text(&text[..written], &mut out).unwrap();
    assert_eq!((read.sizes, read.points, read.node, read.length, read.written), (sizes, points, 31, length, out.len()));
    assert!(out == share);
}

#[test]
fn only_what_share_text_writes_is_a_text() {
    let small = "n=2\nk=1\nd=1\nr=1\nnode=0\nlength=2\ndata=0506\n";
    let mut out = [0xEE; 2];
    let edits = [
        ("n=2", "n=02"),
        ("n=2", "n=33"),
        ("k=1", "k=2"),
        ("node=0", "node=2"),
        ("length=2", "length=8193"),
        ("length=2\n", "length=2\npoints=0001\n"),
        ("length=2\n", "length=2\npoints=0101\n"),
        ("0506", "050a06"),
        ("0506", "0A06"),
        ("0506\n", "0506"),
        ("0506\n", "0506\n\n"),
        ("\n", "\r\n"),
    ];
    for (old, new) in edits {
        assert_eq!(board::read_text(small.replace(old, new).as_bytes(), &mut out), Err(Refusal::Text), "{new:?}");
        assert_eq!(board::gather(small.replace(old, new).as_bytes(), &mut out), Err(Refusal::Text), "{new:?}");
    }
    for end in 0..small.len() {
        assert_eq!(board::read_text(&small.as_bytes()[..end], &mut out), Err(Refusal::Text));
    }
    assert_eq!(board::read_text(small.as_bytes(), &mut out[..1]), Err(Refusal::Short));
    assert_eq!(out, [0xEE; 2]);
}

#[test]
fn k_texts_give_the_file() {
    for points in [Points::standard(5), Points::first_series(5)] {
        let texts: Vec<Vec<u8>> = (0..5).map(|node| text(FIVE, points, node, &file())).collect();
        for (a, one) in texts.iter().enumerate() {
            for (b, other) in texts.iter().enumerate() {
                let mut out = vec![0xEE; 31];
                let given = board::gather(&[&one[..], other].concat(), &mut out);
                if a == b {
                    assert_eq!((given, out), (Err(Refusal::Repeat), vec![0xEE; 31]));
                } else {
                    assert_eq!((given, &out[..30], out[30]), (Ok(30), &file()[..], 0xEE));
                }
            }
        }
    }
    // an empty file is a file
    let empty = [text(FIVE, Points::standard(5), 4, &[]), text(FIVE, Points::standard(5), 0, &[])].concat();
    assert_eq!(board::gather(&empty, &mut []), Ok(0));
}

#[test]
fn other_texts_do_not() {
    let of = |node: usize| text(FIVE, Points::standard(5), node, &file());
    let mut out = vec![0xEE; 30];
    let mut refused = |texts: &[Vec<u8>], refusal: Refusal| {
        assert_eq!(board::gather(&texts.concat(), &mut out), Err(refusal));
        assert_eq!(out, [0xEE; 30]);
    };
    let other_points = text(FIVE, Points::first_series(5), 2, &file());
    let other_length = text(FIVE, Points::standard(5), 2, &file()[..29]);
    let other_sizes = text(Sizes { n: 6, ..FIVE }, Points::standard(6), 2, &file());
    let mut altered = of(2);
    let last = altered.len() - 2;
    altered[last] ^= 1;
    refused(&[], Refusal::Count);
    refused(&[b"x".to_vec()], Refusal::Text);
    refused(&[of(1), of(2), b"\n".to_vec()], Refusal::Text);
    refused(&[of(1), other_sizes.clone(), b"n=".to_vec()], Refusal::Text);
    for other in [other_points, other_length, other_sizes] {
        refused(&[of(1), other.clone()], Refusal::Mixed);
        refused(&[other.clone(), of(1)], Refusal::Mixed);
        // before COUNT
        refused(&[of(1), of(3), other], Refusal::Mixed);
    }
    refused(&[of(1)], Refusal::Count);
    refused(&[of(1), of(2), of(3)], Refusal::Count);
    refused(&[of(1), altered], Refusal::Disagree);
    assert_eq!(board::gather(&[of(1), of(2)].concat(), &mut out[..29]), Err(Refusal::Short));
    assert_eq!(out, [0xEE; 30]);
}

#[test]
fn how_far_a_text_makes_sense() {
    for points in [Points::standard(5), Points::first_series(5)] {
        let text = text(FIVE, points, 3, &file());
        // whole, cut short, with more behind it
        for end in 0..=text.len() {
            assert_eq!(board::text_prefix(&text[..end]), end);
        }
        assert_eq!(board::text_prefix(&[&text[..], &text[..]].concat()), text.len());
        // a byte that no text has there
        for place in 0..text.len() {
            let mut altered = text.clone();
            altered[place] = b' ';
            assert_eq!(board::text_prefix(&altered), place);
        }
    }
    let behind = |digits: &str| format!("n=2\nk=1\nd=1\nr=1\nnode=0\nlength={digits}");
    for (text, sense) in [
        ("".to_string(), ""),
        ("x".to_string(), ""),
        ("n=0".to_string(), "n="),
        ("n=1\n".to_string(), "n=1"),
        ("n=33\n".to_string(), "n=3"),
        ("n=4\nk=4".to_string(), "n=4\nk="),
        ("n=4\nk=3\nd=4".to_string(), "n=4\nk=3\nd="),
        ("n=32\nk=20\nd=32\n".to_string(), "n=32\nk=20\nd=3"),
        ("n=5\nk=2\nd=3\nr=3".to_string(), "n=5\nk=2\nd=3\nr="),
        (behind("8192\n"), &behind("8192\n")),
        (behind("8193\n"), &behind("819")),
        (behind("01\n"), &behind("0")),
        (behind("1\npoints=0001\n"), &behind("1\npoints=000")),
        (behind("1\npoints=0202\n"), &behind("1\npoints=020")),
        (behind("1\npoints=0A\n"), &behind("1\npoints=0")),
        (behind("1\npoints=0002\ndata=0506\n\n"), &behind("1\npoints=0002\ndata=0506\n")),
        (behind("1\ndata=05061\n"), &behind("1\ndata=0506")),
    ] {
        assert_eq!(board::text_prefix(text.as_bytes()), sense.len(), "{text:?}");
    }
}
