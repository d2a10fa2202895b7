//! The six calls of the store that do their work at once, over a record of twelve words, that of a started repair (`running`) and an area. A repair
//! reports the bytes moved, the others 0. A repair a packet at a time stands in `steps`, a careful read in `careful`, a board's move in `moves`.

use crate::board;
use crate::running::{self, Running};
use crate::sizes::{pointed, refuse_if, repeats, Points, Refusal, Sizes, MAX_BOARDS, MAX_STRIPES};
use crate::stripe::{self, neighbours};

/// The words of a record: n, k, d, r, capacity, written, length, marks, and four with the points of eight boards each, the lowest byte first.
pub const WORDS: usize = 12;
const WRITTEN: usize = 5;
const LENGTH: usize = 6;
pub const MARKS: usize = 7;
pub const POINTS: usize = 8;

/// In which of the words of points a board's point stands, and from which bit on.
fn place(board: usize) -> (usize, usize) {
    (board / 8, 8 * (board % 8))
}

fn points_from(words: &[u64]) -> Points {
    std::array::from_fn(|board| {
        let (word, bit) = place(board);
        (words[word] >> bit) as u8
    })
}

pub fn put_points(words: &mut [u64], points: &Points) {
    words.fill(0);
    for (board, &point) in points.iter().enumerate() {
        let (word, bit) = place(board);
        words[word] |= u64::from(point) << bit;
    }
}

/// A record that calls return.
#[derive(Clone, Copy)]
pub struct Record {
    pub sizes: Sizes,
    pub points: Points,
    capacity: usize,
    pub written: bool,
    pub length: usize,
    marks: u32,
}

impl Record {
    /// The record of these words, beside which the words of a repair are such as calls return.
    pub fn from_words(words: &[u64], repair: &[u64]) -> Result<Record, Refusal> {
        let &[n, k, d, r, capacity, written, length, marks, ..] = words else {
            return Err(Refusal::Size);
        };
        refuse_if(words.len() != WORDS, Refusal::Size)?;
        let sizes = Sizes { n: n as usize, k: k as usize, d: d as usize, r: r as usize };
        let points = pointed(sizes, &points_from(&words[POINTS..]))?;
        let capacity = capacity as usize;
        refuse_if(!(1..=MAX_STRIPES).contains(&capacity), Refusal::Size)?;
        let length = length as usize;
        refuse_if(length > capacity * sizes.stripe_len() || marks >> n != 0 || written > 1, Refusal::Size)?;
        refuse_if(written == 0 && (length > 0 || marks != 0), Refusal::Size)?;
        let record = Record { sizes, points, capacity, written: written == 1, length, marks: marks as u32 };
        running::check(&record, repair)?;
        Ok(record)
    }

    /// The record, and an area of the length that it gives.
    pub fn with_area(words: &[u64], repair: &[u64], area: &[u8]) -> Result<Record, Refusal> {
        let record = Record::from_words(words, repair)?;
        refuse_if(area.len() != record.area_len(), Refusal::Area)?;
        Ok(record)
    }

    /// Bytes of the area.
    pub fn area_len(&self) -> usize {
        self.sizes.n * self.board_len()
    }

    /// Stripes of the file.
    pub fn stripes(&self) -> usize {
        self.sizes.stripes(self.length)
    }

    /// Bytes of the area for each board.
    fn board_len(&self) -> usize {
        self.capacity * self.sizes.share_len()
    }

    /// Bytes of a share of the file.
    pub fn share_len(&self) -> usize {
        self.stripes() * self.sizes.share_len()
    }

    pub fn share<'a>(&self, area: &'a [u8], board: usize) -> &'a [u8] {
        &area[board * self.board_len()..][..self.share_len()]
    }

    pub fn share_mut<'a>(&self, area: &'a mut [u8], board: usize) -> &'a mut [u8] {
        &mut area[board * self.board_len()..][..self.share_len()]
    }

    pub fn down(&self, boards: &[usize]) -> bool {
        boards.iter().any(|&b| self.marks >> b & 1 == 0)
    }

    /// What a read and an edit ask of the k boards that they read, and a careful read of its k + 2.
    pub fn check_readers(&self, count: usize, boards: &[usize]) -> Result<(), Refusal> {
        refuse_if(boards.len() != count, Refusal::Count)?;
        refuse_if(boards.iter().any(|&b| b >= self.sizes.n), Refusal::Node)?;
        refuse_if(repeats(boards.iter().copied()), Refusal::Repeat)?;
        refuse_if(self.down(boards), Refusal::Down)
    }

    /// The file that k boards hold, or DISAGREE.
    pub fn file(&self, area: &[u8], boards: &[usize]) -> Result<Vec<u8>, Refusal> {
        let mut shares: [&[u8]; MAX_BOARDS] = [&[]; MAX_BOARDS];
        for (share, &board) in shares.iter_mut().zip(boards) {
            *share = self.share(area, board);
        }
        board::decode(self.sizes, &self.points, self.length, boards, &shares[..self.sizes.k])
    }
}

/// Sets up a store with no file, and no repair beside it.
pub fn set_up(
    words: &mut [u64],
    repair: &mut [u64],
    sizes: Sizes,
    points: &[u8],
    capacity: usize,
) -> Result<usize, Refusal> {
    let points = pointed(sizes, points)?;
    refuse_if(repair.len() != running::WORDS, Refusal::Size)?;
    refuse_if(words.len() != WORDS || !(1..=MAX_STRIPES).contains(&capacity), Refusal::Size)?;
    repair.fill(0);
    let Sizes { n, k, d, r } = sizes;
    words[..POINTS].copy_from_slice(&[n as u64, k as u64, d as u64, r as u64, capacity as u64, 0, 0, 0]);
    put_points(&mut words[POINTS..], &points);
    Ok(0)
}

/// Writes a file.
pub fn write(words: &mut [u64], repair: &[u64], area: &mut [u8], file: &[u8]) -> Result<usize, Refusal> {
    let mut record = Record::with_area(words, repair, area)?;
    let sizes = record.sizes;
    refuse_if(file.len() > record.capacity * sizes.stripe_len(), Refusal::Long)?;
    refuse_if(running::runs(repair), Refusal::Busy)?;
    record.length = file.len();
    let mut near = [[0; MAX_BOARDS]; MAX_BOARDS];
    for (node, near) in near.iter_mut().enumerate() {
        *near = neighbours(sizes, &record.points, node);
    }
    for (s, bytes) in file.chunks(sizes.stripe_len()).enumerate() {
        let grid = stripe::fill(sizes, bytes);
        for (node, near) in near[..sizes.n].iter().enumerate() {
            let start = node * record.board_len() + s * sizes.share_len();
            stripe::encode(sizes, &grid, near, &mut area[start..][..sizes.share_len()]);
        }
    }
    words[WRITTEN] = 1;
    words[LENGTH] = file.len() as u64;
    words[MARKS] = (1 << sizes.n) - 1;
    Ok(0)
}

/// Takes a board out of service; a repair that names it has ended.
pub fn lose(words: &mut [u64], repair: &mut [u64], board: usize) -> Result<usize, Refusal> {
    let record = Record::from_words(words, repair)?;
    refuse_if(board >= record.sizes.n, Refusal::Node)?;
    words[MARKS] &= !(1 << board);
    let running = Running::from_words(record.sizes, repair);
    if running.is_some_and(|running| running.named().all().any(|named| named == board)) {
        repair.fill(0);
    }
    Ok(0)
}

/// What a repair names: t fresh boards, and for each of them in turn d helpers and r − t stand-ins.
#[derive(Clone, Copy)]
pub struct Named<'a> {
    pub fresh: &'a [usize],
    pub helpers: &'a [usize],
    pub stand_ins: &'a [usize],
}

impl<'a> Named<'a> {
    pub fn all(self) -> impl Iterator<Item = usize> + 'a {
        self.fresh.iter().chain(self.helpers).chain(self.stand_ins).copied()
    }

    /// The helpers of the a-th fresh board.
    pub fn helpers_of(self, sizes: Sizes, a: usize) -> &'a [usize] {
        &self.helpers[a * sizes.d..][..sizes.d]
    }

    /// Its stand-ins.
    pub fn stand_ins_of(self, sizes: Sizes, a: usize) -> &'a [usize] {
        let count = sizes.r - self.fresh.len();
        &self.stand_ins[a * count..][..count]
    }
}

/// What a repair and a start are asked, behind AREA.
pub fn check_repair(record: &Record, repair: &[u64], named: Named) -> Result<(), Refusal> {
    refuse_if(!record.written, Refusal::Empty)?;
    refuse_if(running::runs(repair), Refusal::Busy)?;
    check_lists(record, named)
}

/// What is asked of the lists of a repair.
pub fn check_lists(record: &Record, named: Named) -> Result<(), Refusal> {
    let sizes = record.sizes;
    let Sizes { n, d, r, .. } = sizes;
    let Named { fresh, helpers, stand_ins } = named;
    let t = fresh.len();
    refuse_if(t < 1 || t > r, Refusal::Count)?;
    refuse_if(helpers.len() != t * d, Refusal::Count)?;
    refuse_if(stand_ins.len() != t * (r - t), Refusal::Count)?;
    refuse_if(named.all().any(|b| b >= n), Refusal::Node)?;
    let heard = |a: usize| named.helpers_of(sizes, a).iter().chain(named.stand_ins_of(sizes, a));
    let twice = (0..t).any(|a| repeats(fresh.iter().chain(heard(a)).copied()));
    refuse_if(twice, Refusal::Repeat)?;
    refuse_if(fresh.iter().any(|&b| record.marks >> b & 1 == 1), Refusal::Serving)?;
    refuse_if(record.down(helpers) || record.down(stand_ins), Refusal::Down)
}

/// Rebuilds t fresh boards together, each from its own d helpers, its own r − t stand-ins and the other fresh boards.
pub fn repair(
    words: &mut [u64],
    repair: &[u64],
    area: &mut [u8],
    fresh: &[usize],
    helpers: &[usize],
    stand_ins: &[usize],
) -> Result<usize, Refusal> {
    let record = Record::with_area(words, repair, area)?;
    let named = Named { fresh, helpers, stand_ins };
    check_repair(&record, repair, named)?;
    let moved = rebuild(&record, area, named);
    for &board in fresh {
        words[MARKS] |= 1 << board;
    }
    Ok(moved)
}

/// Makes the shares of boards that are rebuilt together: how many bytes they are sent.
pub fn rebuild(record: &Record, area: &mut [u8], named: Named) -> usize {
    let Record { sizes, ref points, .. } = *record;
    let Sizes { d, r, .. } = sizes;
    let fresh = named.fresh;
    let t = fresh.len();
    let stripes = record.stripes();
    let mut packets = vec![0; t * d * 2 * stripes];
    for (a, &board) in fresh.iter().enumerate() {
        for (h, &helper) in named.helpers_of(sizes, a).iter().enumerate() {
            let packet = &mut packets[(a * d + h) * 2 * stripes..][..2 * stripes];
            board::help(sizes, points, helper, board, record.share(area, helper), packet);
        }
    }
    let received = |a: usize| &packets[a * d * 2 * stripes..][..d * 2 * stripes];
    let list = |a: usize| named.helpers_of(sizes, a);
    let gs: Vec<_> = (0..t).map(|a| board::all_g(sizes, points, list(a), received(a), stripes)).collect();
    let mut moved = packets.len();
    for (a, &board) in fresh.iter().enumerate() {
        // what its partners send it: its stand-ins, then the other fresh boards
        let mut partners = named.stand_ins_of(sizes, a).to_vec();
        let mut sent = vec![0; (r - 1) * stripes];
        for (p, &partner) in partners.iter().enumerate() {
            let packet = &mut sent[p * stripes..][..stripes];
            board::stand_in(sizes, points, partner, board, record.share(area, partner), packet);
        }
        for (b, &partner) in fresh.iter().enumerate().filter(|&(b, _)| b != a) {
            let packet = &mut sent[partners.len() * stripes..][..stripes];
            board::exchange(sizes, points, &gs[b], board, packet);
            partners.push(partner);
        }
        let out = record.share_mut(area, board);
        board::finish(sizes, points, board, &gs[a], list(a), received(a), &partners, &sent, out);
        moved += sent.len();
    }
    moved
}

/// Reads the file from k boards.
pub fn read(words: &[u64], repair: &[u64], area: &[u8], boards: &[usize], out: &mut [u8]) -> Result<usize, Refusal> {
    let record = Record::with_area(words, repair, area)?;
    refuse_if(!record.written, Refusal::Empty)?;
    record.check_readers(record.sizes.k, boards)?;
    refuse_if(out.len() < record.length, Refusal::Short)?;
    let file = record.file(area, boards)?;
    out[..file.len()].copy_from_slice(&file);
    Ok(0)
}

/// Puts bytes in the place of others of the file, from an offset on. The old bytes are those that k boards hold; each board in service gets the
/// exclusive or of what it holds with what it would keep of old against new bytes, stripe by stripe as far as the edit reaches.
pub fn edit(
    words: &[u64],
    repair: &[u64],
    area: &mut [u8],
    offset: usize,
    bytes: &[u8],
    boards: &[usize],
) -> Result<usize, Refusal> {
    let record = Record::with_area(words, repair, area)?;
    let beyond = bytes.len() > record.length || offset > record.length - bytes.len();
    refuse_if(!record.written, Refusal::Empty)?;
    refuse_if(running::runs(repair), Refusal::Busy)?;
    refuse_if(beyond, Refusal::Range)?;
    record.check_readers(record.sizes.k, boards)?;
    let old = record.file(area, boards)?;
    if bytes.is_empty() {
        return Ok(0);
    }
    let mut new = old.clone();
    new[offset..][..bytes.len()].copy_from_slice(bytes);
    let sizes = record.sizes;
    let (width, stripe) = (sizes.share_len(), sizes.stripe_len());
    let (first, last) = (offset / stripe, (offset + bytes.len() - 1) / stripe);
    for s in first..=last {
        let part = s * stripe..record.length.min((s + 1) * stripe);
        let change: Vec<u8> = old[part.clone()].iter().zip(&new[part]).map(|(old, new)| old ^ new).collect();
        let grid = stripe::fill(sizes, &change);
        for board in (0..sizes.n).filter(|&board| !record.down(&[board])) {
            let mut kept = [0; 2 * MAX_BOARDS];
            stripe::encode(sizes, &grid, &neighbours(sizes, &record.points, board), &mut kept[..width]);
            let held = &mut record.share_mut(area, board)[s * width..][..width];
            for (byte, change) in held.iter_mut().zip(kept) {
                *byte ^= change;
            }
        }
    }
    Ok(0)
}
