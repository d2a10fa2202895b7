//! The coder's own model of the ten calls of the store, over any records and any area: what each answers and leaves, refusals in document
//! 01's order with those of later requests in their places. Start and step stand in `steps`, the careful read in `careful`, the move of a
//! board in `moves`.

use crate::call::refusal::{AREA, BUSY, COUNT, DISAGREE, DOWN, EMPTY, LONG, NODE, RANGE, REPEAT, SERVING, SHORT, SIZE};
use crate::call::{Call, Lent, Outcome};
use crate::code::{self, Sizes, MAX_STRIPES};
use crate::running::{self, Lists, Told};
use crate::{careful, moves, points, steps};

/// The places of a record's words.
pub mod word {
    pub const CAPACITY: usize = 4;
    pub const WRITTEN: usize = 5;
    pub const LENGTH: usize = 6;
    pub const MARKS: usize = 7;
    /// the first of the four with the points
    pub const POINTS: usize = 8;
    pub const COUNT: usize = 12;
}

/// A record that calls return.
pub struct Record {
    pub sizes: Sizes,
    pub points: Vec<u8>,
    capacity: usize,
    pub written: bool,
    pub length: usize,
    pub marks: Vec<bool>,
}

/// The words of a record; the points are 32.
pub fn words(sizes: Sizes, points: &[u8], capacity: usize, file_len: Option<usize>, in_service: &[usize]) -> Vec<u64> {
    let marks = in_service.iter().fold(0, |marks, &board| marks | 1u64 << board);
    let numbers = [sizes.n, sizes.k, sizes.d, sizes.r, capacity].map(|number| number as u64);
    let file = [u64::from(file_len.is_some()), file_len.unwrap_or(0) as u64, marks];
    [&numbers[..], &file, &words_of(points)].concat()
}

/// Words of eight bytes each, "the lowest byte first": the first counts once, the next one 256 times, and so on. Points are four of them.
pub fn words_of(bytes: &[u8]) -> Vec<u64> {
    bytes.chunks(8).map(|eight| eight.iter().rev().fold(0, |word, &byte| word * 256 + u64::from(byte))).collect()
}

/// The bytes that words tell, eight of each.
pub fn bytes_in(words: &[u64]) -> Vec<u8> {
    let eight = |&word: &u64| (0..8).map(move |place| (word / 256u64.pow(place) % 256) as u8);
    words.iter().flat_map(eight).collect()
}

/// The sizes and the points of words that are a record but for the points; none where they are no record anyhow.
pub fn given(words: &[u64]) -> Option<(Sizes, Vec<u8>)> {
    let told = bytes_in(words.get(word::POINTS..word::COUNT)?);
    let record = Record::read_but_points(words)?;
    Some((record.sizes, told))
}

/// "a capacity C of 1 to 4,096 stripes".
pub fn in_range(capacity: usize) -> bool {
    (1..=MAX_STRIPES).contains(&capacity)
}

impl Record {
    /// None where the words are no record that a call returns: SIZE.
    pub fn read(words: &[u64]) -> Option<Record> {
        Record::read_but_points(words).filter(|record| points::legal(record.sizes, &record.points))
    }

    /// The same, but any points are taken.
    fn read_but_points(words: &[u64]) -> Option<Record> {
        let number = |place: usize| usize::try_from(words[place]).ok();
        if words.len() != word::COUNT {
            return None;
        }
        let sizes = Sizes::new(number(0)?, number(1)?, number(2)?, number(3)?);
        let capacity = number(word::CAPACITY)?;
        if !sizes.legal() || !in_range(capacity) {
            return None;
        }
        let length = number(word::LENGTH)?;
        let written = words[word::WRITTEN] == 1;
        let marks: Vec<bool> = (0..64).map(|board| words[word::MARKS] >> board & 1 == 1).collect();
        let no_record = words[word::WRITTEN] > 1
            || length > capacity * sizes.stripe_len()
            || marks[sizes.n..].contains(&true)
            || (!written && (length > 0 || marks.contains(&true)));
        let points = bytes_in(&words[word::POINTS..]);
        (!no_record).then_some(Record { sizes, points, capacity, written, length, marks })
    }

    /// "L and S are those of that file".
    pub fn stripes(&self) -> usize {
        self.sizes.stripes(self.length)
    }

    /// Where the share of a board starts and ends in the area.
    pub fn share(&self, board: usize) -> std::ops::Range<usize> {
        let start = board * self.capacity * self.sizes.share_len();
        start..start + self.stripes() * self.sizes.share_len()
    }

    fn area_len(&self) -> usize {
        self.sizes.n * self.capacity * self.sizes.share_len()
    }

    pub fn some_down(&self, boards: &[usize]) -> bool {
        boards.iter().any(|&board| !self.marks[board])
    }

    pub fn words(&self) -> Vec<u64> {
        let in_service: Vec<usize> = (0..self.sizes.n).filter(|&board| self.marks[board]).collect();
        words(self.sizes, &self.points, self.capacity, self.written.then_some(self.length), &in_service)
    }
}

pub fn has_repeat(list: &[usize]) -> bool {
    (0..list.len()).any(|i| list[i + 1..].contains(&list[i]))
}

/// What a call of the store answers and leaves.
pub fn expect(call: &Call, lent: &Lent) -> Outcome {
    let result = match call {
        Call::SetUp { sizes, points, capacity } => set_up(*sizes, points, *capacity, lent),
        Call::Write { file } => write(file, lent),
        Call::Lose { board } => lose(*board, lent),
        Call::Repair { fresh, helpers, stand_ins } => repair(fresh, helpers, stand_ins, lent),
        Call::Read { boards } => read(boards, lent),
        Call::Edit { offset, bytes, boards } => edit(*offset, bytes, boards, lent),
        Call::Start { fresh, helpers, stand_ins } => steps::start(fresh, helpers, stand_ins, lent),
        Call::Step { allowance } => steps::step(*allowance, lent),
        Call::Careful { boards } => careful::read(boards, lent),
        Call::Move { board, point, helpers, partners } => moves::moved(*board, *point, helpers, partners, lent),
        _ => unreachable!("a board-level call"),
    };
    result.unwrap_or_else(|number| Outcome::refused(number, lent))
}

fn set_up(sizes: Sizes, points: &[u8], capacity: usize, lent: &Lent) -> Result<Outcome, u8> {
    let legal = sizes.legal() && points::legal(sizes, points) && in_range(capacity);
    let counts = (lent.record.len(), lent.repair.len()) == (word::COUNT, running::word::COUNT);
    if !counts || !legal {
        return Err(SIZE);
    }
    let record = words(sizes, points, capacity, None, &[]);
    // "hands it on idle, unexamined"
    Ok(Outcome::accepted(0, Lent { record, repair: running::none(), ..lent.clone() }))
}

/// Both records, the repair's where one runs: 1.
pub fn records(lent: &Lent) -> Result<(Record, Option<Lists>), u8> {
    let record = Record::read(&lent.record).ok_or(SIZE)?;
    match running::read(record.sizes, &lent.repair) {
        Told::Idle => Ok((record, None)),
        Told::Runs { lists, carried } if steps::can_run(&record, &lists, carried) => Ok((record, Some(lists))),
        _ => Err(SIZE),
    }
}

/// Both records and the area's length: 1, then 2.
pub fn opened(lent: &Lent) -> Result<(Record, Option<Lists>), u8> {
    let (record, running) = records(lent)?;
    if lent.area.len() != record.area_len() {
        return Err(AREA);
    }
    Ok((record, running))
}

fn write(file: &[u8], lent: &Lent) -> Result<Outcome, u8> {
    let (mut record, running) = opened(lent)?;
    if file.len() > record.capacity * record.sizes.stripe_len() {
        return Err(LONG);
    }
    if running.is_some() {
        return Err(BUSY);
    }
    record.written = true;
    record.length = file.len();
    let mut after = lent.clone();
    for board in 0..record.sizes.n {
        record.marks[board] = true;
        after.area[record.share(board)].copy_from_slice(&code::share(record.sizes, &record.points, board, file));
    }
    after.record = record.words();
    Ok(Outcome::accepted(0, after))
}

fn lose(board: usize, lent: &Lent) -> Result<Outcome, u8> {
    let (mut record, running) = records(lent)?;
    if board >= record.sizes.n {
        return Err(NODE);
    }
    record.marks[board] = false;
    // "Losing a board named in the repair ends it"
    let ended = running.is_some_and(|lists| lists.name(board));
    let repair = if ended { running::none() } else { lent.repair.clone() };
    Ok(Outcome::accepted(0, Lent { record: record.words(), repair, ..lent.clone() }))
}

/// A fresh board, its helpers, its stand-ins.
pub type Run<'a> = (usize, &'a [usize], &'a [usize]);

/// The boards that a repair names for each fresh board. None where some list is too long or too short.
pub fn runs<'a>(sizes: Sizes, fresh: &[usize], helpers: &'a [usize], stand_ins: &'a [usize]) -> Option<Vec<Run<'a>>> {
    let missing = sizes.r.checked_sub(fresh.len())?;
    let (mut helpers, mut stand_ins, mut list) = (helpers, stand_ins, Vec::new());
    for &board in fresh {
        let (own_helpers, other_helpers) = helpers.split_at_checked(sizes.d)?;
        let (own_stand_ins, other_stand_ins) = stand_ins.split_at_checked(missing)?;
        list.push((board, own_helpers, own_stand_ins));
        (helpers, stand_ins) = (other_helpers, other_stand_ins);
    }
    (!list.is_empty() && helpers.is_empty() && stand_ins.is_empty()).then_some(list)
}

/// What a repair is asked, and so is a start: "16 BUSY, a write, edit, repair or start during a repair, after 8 and before 15".
pub fn check_repair(fresh: &[usize], helpers: &[usize], stand_ins: &[usize], lent: &Lent) -> Result<Record, u8> {
    let (record, running) = opened(lent)?;
    if !record.written {
        return Err(EMPTY);
    }
    if running.is_some() {
        return Err(BUSY);
    }
    check_lists(&record, fresh, helpers, stand_ins)?;
    Ok(record)
}

/// What is asked of a repair's lists: "4, 5, 6, 9", with 14 "after 6 and before 9".
pub fn check_lists(record: &Record, fresh: &[usize], helpers: &[usize], stand_ins: &[usize]) -> Result<(), u8> {
    let runs = runs(record.sizes, fresh, helpers, stand_ins).ok_or(COUNT)?;
    let senders = [helpers, stand_ins].concat();
    if fresh.iter().chain(&senders).any(|&board| board >= record.sizes.n) {
        return Err(NODE);
    }
    let twice = |&(_, helpers, stand_ins): &Run| has_repeat(&[helpers, stand_ins].concat());
    if has_repeat(fresh) || senders.iter().any(|board| fresh.contains(board)) || runs.iter().any(twice) {
        return Err(REPEAT);
    }
    if fresh.iter().any(|&board| record.marks[board]) {
        return Err(SERVING);
    }
    if record.some_down(&senders) {
        return Err(DOWN);
    }
    Ok(())
}

fn repair(fresh: &[usize], helpers: &[usize], stand_ins: &[usize], lent: &Lent) -> Result<Outcome, u8> {
    let mut record = check_repair(fresh, helpers, stand_ins, lent)?;
    let (sizes, points) = (record.sizes, record.points.clone());
    let runs = runs(sizes, fresh, helpers, stand_ins).expect("COUNT does not hold");
    // all from the area before the call
    let held = |board: usize| &lent.area[record.share(board)];
    // the helper packets of each fresh board, one after another
    let heard = |&(board, helpers, _): &Run| -> Vec<u8> {
        helpers.iter().flat_map(|&helper| code::helper_packet(sizes, &points, helper, board, held(helper))).collect()
    };
    let packets: Vec<Vec<u8>> = runs.iter().map(heard).collect();
    let mut after = lent.clone();
    let mut moved = 0;
    for (a, &(board, helpers, stand_ins)) in runs.iter().enumerate() {
        let others = || (0..runs.len()).filter(|&b| b != a);
        // the order of partners does not matter: here the other fresh boards are first
        let partners: Vec<usize> = others().map(|b| fresh[b]).chain(stand_ins.iter().copied()).collect();
        let exchanged = others().flat_map(|b| code::exchange_packet(&points, runs[b].1, &packets[b], board));
        let stood_in = stand_ins.iter().flat_map(|&s| code::stand_in_packet(sizes, &points, s, board, held(s)));
        let sent: Vec<u8> = exchanged.chain(stood_in).collect();
        let share = code::finished_share(sizes, &points, board, helpers, &packets[a], &partners, &sent);
        after.area[record.share(board)].copy_from_slice(&share);
        moved += packets[a].len() + sent.len();
    }
    for &board in fresh {
        record.marks[board] = true;
    }
    after.record = record.words();
    Ok(Outcome::accepted(moved, after))
}

/// What is asked of the boards that are read, so many of them: 4, 5, 6, 9.
pub fn check_readers(record: &Record, count: usize, boards: &[usize]) -> Result<(), u8> {
    if boards.len() != count {
        return Err(COUNT);
    }
    if boards.iter().any(|&board| board >= record.sizes.n) {
        return Err(NODE);
    }
    if has_repeat(boards) {
        return Err(REPEAT);
    }
    if record.some_down(boards) {
        return Err(DOWN);
    }
    Ok(())
}

/// The file of the record's length that these boards hold.
fn file_held(record: &Record, boards: &[usize], lent: &Lent) -> Result<Vec<u8>, u8> {
    let shares: Vec<u8> = boards.iter().flat_map(|&board| lent.area[record.share(board)].to_vec()).collect();
    code::file(record.sizes, &record.points, record.length, boards, &shares).ok_or(DISAGREE)
}

fn read(boards: &[usize], lent: &Lent) -> Result<Outcome, u8> {
    let (record, _) = opened(lent)?;
    if !record.written {
        return Err(EMPTY);
    }
    check_readers(&record, record.sizes.k, boards)?;
    if lent.out.len() < record.length {
        return Err(SHORT);
    }
    let file = file_held(&record, boards, lent)?;
    let mut after = lent.clone();
    after.out[..file.len()].copy_from_slice(&file);
    Ok(Outcome::accepted(0, after))
}

/// "15 RANGE, offset plus count beyond L, after 8; the read's own checks follow, without 7".
fn edit(offset: usize, bytes: &[u8], boards: &[usize], lent: &Lent) -> Result<Outcome, u8> {
    let (record, running) = opened(lent)?;
    if !record.written {
        return Err(EMPTY);
    }
    if running.is_some() {
        return Err(BUSY);
    }
    // over the integers
    if offset as u128 + bytes.len() as u128 > record.length as u128 {
        return Err(RANGE);
    }
    check_readers(&record, record.sizes.k, boards)?;
    let old = file_held(&record, boards, lent)?;
    Ok(Outcome::accepted(0, edited(&old, offset, bytes, lent)))
}

/// What an accepted edit leaves, by the file that the boards read hold: "each board in service receives the exclusive or of its share with the share of
/// old against new bytes". The difference of the two files is a file of the same length, 00 where they are alike, and is encoded whole.
pub fn edited(old: &[u8], offset: usize, bytes: &[u8], lent: &Lent) -> Lent {
    let record = Record::read(&lent.record).expect("the edit is accepted");
    let mut difference = vec![0; old.len()];
    for (place, new) in (offset..).zip(bytes) {
        difference[place] = old[place] ^ new;
    }
    let mut after = lent.clone();
    for board in (0..record.sizes.n).filter(|&board| record.marks[board]) {
        let share = code::share(record.sizes, &record.points, board, &difference);
        for (held, byte) in after.area[record.share(board)].iter_mut().zip(share) {
            *held ^= byte;
        }
    }
    after
}
