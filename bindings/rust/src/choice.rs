//! What most programs write around the store's calls: boards chosen by the marks, and records as bytes. Plain Rust, not proved.

use crate::{Record, Refusal, Sizes, MAX_BOARDS, RECORD_WORDS, REPAIR_WORDS};
use core::fmt;
use core::ops::Deref;

/// The bytes of a record: its words, eight bytes each, the lowest first.
pub const RECORD_BYTES: usize = 8 * RECORD_WORDS;

/// The bytes of the record of a started repair, likewise.
pub const REPAIR_BYTES: usize = 8 * REPAIR_WORDS;

/// The longest list of helpers or stand-ins that legal sizes need: 16 × 16.
const LIST_ROOM: usize = 256;

/// A list of boards: a slice of their numbers, with room for so many.
#[derive(Clone)]
pub struct Boards<const ROOM: usize = MAX_BOARDS> {
    numbers: [usize; ROOM],
    count: usize,
}

impl<const ROOM: usize> Boards<ROOM> {
    /// The first `ROOM` of these numbers.
    fn of(numbers: impl Iterator<Item = usize>) -> Boards<ROOM> {
        let mut boards = Boards { numbers: [0; ROOM], count: 0 };
        for (place, number) in boards.numbers.iter_mut().zip(numbers) {
            *place = number;
            boards.count += 1;
        }
        boards
    }
}

impl<const ROOM: usize> Deref for Boards<ROOM> {
    type Target = [usize];

    fn deref(&self) -> &[usize] {
        &self.numbers[..self.count]
    }
}

impl<const ROOM: usize> fmt::Debug for Boards<ROOM> {
    fn fmt(&self, to: &mut fmt::Formatter) -> fmt::Result {
        fmt::Debug::fmt(&**self, to)
    }
}

/// The lists of a repair, for [`Record::repair`] and [`Record::start`].
#[derive(Clone, Debug)]
pub struct Lists {
    /// the t fresh boards
    pub fresh: Boards,
    /// d helpers for each of them
    pub helpers: Boards<LIST_ROOM>,
    /// r − t stand-ins for each of them
    pub stand_ins: Boards<LIST_ROOM>,
}

impl Record {
    /// Whether the calls take the record with its repair: they refuse another one with [`Refusal::Size`]. The archive says it. It does not show that
    /// the record belongs to some area, nor that it is the last one.
    #[must_use]
    pub fn is_sound(&self) -> bool {
        // a loss asks SIZE first and then NODE, which holds
        self.clone().lose(usize::MAX) == Err(Refusal::Node)
    }

    /// The boards in service, in order.
    pub fn boards_in_service(&self) -> impl Iterator<Item = usize> + '_ {
        (0..MAX_BOARDS).filter(|&board| self.in_service(board))
    }

    /// The first `count` boards in service of a store with a file.
    fn first_in_service(&self, count: usize) -> Result<Boards, Refusal> {
        if !self.is_sound() {
            return Err(Refusal::Size);
        }
        if !self.has_file() {
            return Err(Refusal::Empty);
        }
        if count > self.sizes().n {
            return Err(Refusal::Count);
        }
        let boards = Boards::of(self.boards_in_service().take(count));
        if boards.len() == count {
            Ok(boards)
        } else {
            Err(Refusal::Down)
        }
    }

    /// The boards for a [`read`](Record::read) or an [`edit`](Record::edit): the first k in service. What they hold is not looked at.
    ///
    /// # Errors
    ///
    /// [`Refusal::Size`] where the record is not [sound](Record::is_sound), [`Refusal::Empty`] where no file was written, [`Refusal::Down`] where fewer
    /// than k boards are in service.
    pub fn choose_read(&self) -> Result<Boards, Refusal> {
        self.first_in_service(self.sizes().k)
    }

    /// The boards for a [careful read](Record::read_careful): the first k + 2 in service. What they hold is not looked at.
    ///
    /// # Errors
    ///
    /// As of [`choose_read`](Record::choose_read), for k + 2 boards; [`Refusal::Count`] where k + 2 is above n.
    pub fn choose_careful(&self) -> Result<Boards, Refusal> {
        self.first_in_service(self.sizes().k.saturating_add(2))
    }

    /// The lists for a repair of these fresh boards: for each of them the first d boards in service as helpers, the next r − t as stand-ins. Whether a
    /// repair is running already is not looked at.
    ///
    /// ```
    /// use zebrankai::{Points, Record, Refusal, Sizes};
    ///
    /// let sizes = Sizes { n: 7, k: 3, d: 4, r: 2 };
    /// let mut area = vec![0; sizes.area_len(8)];
    /// let mut record = Record::set_up(sizes, Points::standard(7), 8)?;
    /// record.write(&mut area, b"aspirin 100 mg: 42 boxes\n")?;
    ///
    /// record.lose(1)?;
    /// let lists = record.choose_repair(&[1])?;
    /// assert_eq!((&*lists.helpers, &*lists.stand_ins), (&[0, 2, 3, 4][..], &[5][..]));
    /// record.repair(&mut area, &lists.fresh, &lists.helpers, &lists.stand_ins)?;
    ///
    /// // three boards lost: one alone has too few others, two together have enough
    /// for board in [0, 3, 6] {
    ///     record.lose(board)?;
    /// }
    /// assert_eq!(record.choose_repair(&[3]).unwrap_err(), Refusal::Down);
    /// let lists = record.choose_lost()?;
    /// assert_eq!(*lists.fresh, [0, 3]);
    /// record.repair(&mut area, &lists.fresh, &lists.helpers, &lists.stand_ins)?;
    /// # Ok::<(), Refusal>(())
    /// ```
    ///
    /// # Errors
    ///
    /// Why [`repair`](Record::repair) takes these fresh boards with no lists at all: [`Refusal::Size`], [`Refusal::Empty`], [`Refusal::Count`],
    /// [`Refusal::Node`], [`Refusal::Repeat`], [`Refusal::Serving`] as it says them, and [`Refusal::Down`] where fewer than d + r − t boards are in service.
    /// More fresh boards, up to r, need fewer others.
    pub fn choose_repair(&self, fresh: &[usize]) -> Result<Lists, Refusal> {
        let Sizes { n, d, r, .. } = self.sizes();
        let t = fresh.len();
        if !self.is_sound() {
            return Err(Refusal::Size);
        }
        if !self.has_file() {
            return Err(Refusal::Empty);
        }
        if t < 1 || t > r {
            return Err(Refusal::Count);
        }
        if fresh.iter().any(|&board| board >= n) {
            return Err(Refusal::Node);
        }
        if (1..t).any(|place| fresh[..place].contains(&fresh[place])) {
            return Err(Refusal::Repeat);
        }
        if fresh.iter().any(|&board| self.in_service(board)) {
            return Err(Refusal::Serving);
        }
        if self.boards_in_service().count() < d + r - t {
            return Err(Refusal::Down);
        }
        Ok(Lists {
            fresh: Boards::of(fresh.iter().copied()),
            helpers: Boards::of(fresh.iter().flat_map(|_| self.boards_in_service().take(d))),
            stand_ins: Boards::of(fresh.iter().flat_map(|_| self.boards_in_service().skip(d).take(r - t))),
        })
    }

    /// The lists for a repair of the boards that are out of service, the first r where there are more: the repair that needs the fewest others.
    ///
    /// # Errors
    ///
    /// As of [`choose_repair`](Record::choose_repair): [`Refusal::Count`] where no board is out of service, [`Refusal::Down`] just where fewer than d are
    /// in service. Then no repair is possible, and where k are, the file can be read and written anew.
    pub fn choose_lost(&self) -> Result<Lists, Refusal> {
        let Sizes { n, r, .. } = self.sizes();
        let lost = (0..n.min(MAX_BOARDS)).filter(|&board| !self.in_service(board));
        self.choose_repair(&Boards::<MAX_BOARDS>::of(lost.take(r)))
    }

    /// The packets of the repair that is running, carried or not, t × (d + r − 1); 0 where none is.
    #[must_use]
    pub fn packets(&self) -> usize {
        let Sizes { d, r, .. } = self.sizes();
        match self.repair_words()[1] as usize {
            t if self.is_repairing() && self.sizes().is_legal() && t <= r => t * (d + r - 1),
            _ => 0,
        }
    }

    /// How many of them were carried; 0 where no repair is running.
    #[must_use]
    pub fn packets_carried(&self) -> usize {
        if self.is_repairing() {
            self.repair_words()[2] as usize
        } else {
            0
        }
    }

    /// How many of them are left; 0 where no repair is running.
    #[must_use]
    pub fn packets_left(&self) -> usize {
        self.packets().saturating_sub(self.packets_carried())
    }

    /// The record as bytes, eight for each of its [`words`](Record::words), the lowest first: what a robot keeps together with the area. They have no
    /// check of their own: where a medium may alter bytes, keep one beside them.
    #[must_use]
    pub fn to_bytes(&self) -> [u8; RECORD_BYTES] {
        bytes_of(&self.words())
    }

    /// The record of bytes that were kept, as after a power failure: no repair is running.
    ///
    /// # Errors
    ///
    /// [`Refusal::Size`] where the words are none that the calls take, as [`is_sound`](Record::is_sound) says.
    pub fn from_bytes(bytes: &[u8; RECORD_BYTES]) -> Result<Record, Refusal> {
        let record = Record::from_words(words_of(bytes));
        if record.is_sound() {
            Ok(record)
        } else {
            Err(Refusal::Size)
        }
    }

    /// The record of the started repair as bytes, likewise: to hand it from one program to the next with the packet area, and never to be used after a
    /// power failure.
    #[must_use]
    pub fn repair_to_bytes(&self) -> [u8; REPAIR_BYTES] {
        bytes_of(&self.repair_words())
    }

    /// The same record with the repair of bytes that were kept beside its own.
    ///
    /// # Errors
    ///
    /// [`Refusal::Size`] where their words are none that the calls take beside this record, as [`is_sound`](Record::is_sound) says.
    pub fn with_repair_bytes(self, bytes: &[u8; REPAIR_BYTES]) -> Result<Record, Refusal> {
        let record = self.with_repair_words(words_of(bytes));
        if record.is_sound() {
            Ok(record)
        } else {
            Err(Refusal::Size)
        }
    }
}

/// Words as eight bytes each, the lowest first.
fn bytes_of<const COUNT: usize>(words: &[u64]) -> [u8; COUNT] {
    let mut bytes = [0; COUNT];
    for (eight, word) in bytes.chunks_exact_mut(8).zip(words) {
        eight.copy_from_slice(&word.to_le_bytes());
    }
    bytes
}

/// The words of such bytes.
fn words_of<const COUNT: usize>(bytes: &[u8]) -> [u64; COUNT] {
    let mut words = [0; COUNT];
    for (word, eight) in words.iter_mut().zip(bytes.chunks_exact(8)) {
        *word = u64::from_le_bytes(eight.try_into().expect("a piece has eight bytes"));
    }
    words
}
