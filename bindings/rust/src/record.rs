//! The store: a record of twelve words with that of a started repair beside it, over an area that the caller lends to each call.

use crate::refusal::result;
use crate::{Points, Refusal, Sizes, MAX_BOARDS};

// The calls of the store, as include/zebrankai.h declares them.
extern "C" {
    fn zbk_set_up(
        record: *mut u64,
        record_words: usize,
        repair: *mut u64,
        repair_words: usize,
        n: usize,
        k: usize,
        d: usize,
        r: usize,
        points: *const u8,
        points_len: usize,
        capacity: usize,
    ) -> u64;
    fn zbk_write(
        record: *mut u64,
        record_words: usize,
        repair: *mut u64,
        repair_words: usize,
        area: *mut u8,
        area_len: usize,
        file: *const u8,
        file_len: usize,
    ) -> u64;
    fn zbk_lose(record: *mut u64, record_words: usize, repair: *mut u64, repair_words: usize, board: usize) -> u64;
    fn zbk_repair(
        record: *mut u64,
        record_words: usize,
        repair: *mut u64,
        repair_words: usize,
        area: *mut u8,
        area_len: usize,
        fresh: *const usize,
        fresh_count: usize,
        helpers: *const usize,
        helpers_count: usize,
        stand_ins: *const usize,
        stand_ins_count: usize,
    ) -> u64;
    fn zbk_read(
        record: *mut u64,
        record_words: usize,
        repair: *mut u64,
        repair_words: usize,
        area: *const u8,
        area_len: usize,
        boards: *const usize,
        boards_count: usize,
        out: *mut u8,
        out_len: usize,
    ) -> u64;
    fn zbk_read_careful(
        record: *mut u64,
        record_words: usize,
        repair: *mut u64,
        repair_words: usize,
        area: *const u8,
        area_len: usize,
        boards: *const usize,
        boards_count: usize,
        out: *mut u8,
        out_len: usize,
    ) -> u64;
    fn zbk_edit(
        record: *mut u64,
        record_words: usize,
        repair: *mut u64,
        repair_words: usize,
        area: *mut u8,
        area_len: usize,
        offset: usize,
        bytes: *const u8,
        bytes_len: usize,
        boards: *const usize,
        boards_count: usize,
    ) -> u64;
    fn zbk_start(
        record: *mut u64,
        record_words: usize,
        repair: *mut u64,
        repair_words: usize,
        area: *const u8,
        area_len: usize,
        fresh: *const usize,
        fresh_count: usize,
        helpers: *const usize,
        helpers_count: usize,
        stand_ins: *const usize,
        stand_ins_count: usize,
    ) -> u64;
    fn zbk_step(
        record: *mut u64,
        record_words: usize,
        repair: *mut u64,
        repair_words: usize,
        area: *mut u8,
        area_len: usize,
        packets: *mut u8,
        packets_len: usize,
        allowance: usize,
    ) -> u64;
    fn zbk_move(
        record: *mut u64,
        record_words: usize,
        repair: *mut u64,
        repair_words: usize,
        area: *mut u8,
        area_len: usize,
        board: usize,
        point: u8,
        helpers: *const usize,
        helpers_count: usize,
        partners: *const usize,
        partners_count: usize,
    ) -> u64;
}

/// The words of a record.
pub const RECORD_WORDS: usize = 12;

/// The words of the record of a started repair.
pub const REPAIR_WORDS: usize = 71;

/// The first of the four words that hold the points, of eight boards each, the lowest byte first.
const POINTS: usize = 8;

/// The record of a store: its sizes, its boards' points, its capacity, whether a file was written and how long it is, and which boards are in service;
/// and beside it that of a repair that was started. It belongs to one area of [`Sizes::area_len`] bytes, in which the boards stand one after another;
/// give each call the area as the last call left it. A record can be kept as its [`words`](Record::words), or as [bytes](Record::to_bytes).
///
/// # Power
///
/// What a robot keeps through a power failure is the [`words`](Record::words) and the area; the [`repair_words`](Record::repair_words) and the packet
/// area are what it may lose. [`Record::from_words`] goes on without a repair.
///
/// - Between two packets, and inside a [`step`](Record::step) that has not carried the last packet of all, the words are those before the
///   [`start`](Record::start) but for the boards lost since, boards in service hold what they held, and any k of them give the file. The repair is
///   started anew.
/// - Inside the step that carries the last packet, and inside [`repair`](Record::repair), only bytes of fresh boards change in the area, and these are out
///   of service by the words that were kept before the call: keep the new ones once the call has come back.
/// - [`write`](Record::write), [`edit`](Record::edit) and [`move_board`](Record::move_board) change boards in service. Where power cuts one, some boards
///   are changed and others not, and no call is promised anything of such an area: a read may give a file that nobody wrote. Keep a second record and
///   area, and use the two in turn.
///
/// # Clones
///
/// A clone goes with a copy of the area: the two are one store, and a record as it was before a call, used with the area as that call left it, is no
/// store that any call handed on. What it then reads or rebuilds may be no file that was written. So a record is moved, and cloned only where that
/// is said; it is never copied on the side:
///
/// ```compile_fail,E0382
/// use zebrankai::{Points, Record, Sizes};
///
/// let sizes = Sizes { n: 5, k: 2, d: 3, r: 2 };
/// let record = Record::set_up(sizes, Points::standard(5), 1).unwrap();
/// let mut moved = record;
/// moved.lose(0).unwrap();
/// println!("{}", record.in_service(0));
/// ```
#[derive(Clone, Debug, PartialEq, Eq, Hash)]
pub struct Record {
    words: [u64; RECORD_WORDS],
    repair: [u64; REPAIR_WORDS],
}

// Safety, for every call below: a slice is handed over as its pointer and its length, so it is valid for as many elements; the pointer of a
// slice is never null; and both records, an area to change, a packet area and an output are each lent to this call alone, so they overlap nothing else.

impl Record {
    /// A new store with no file and no board in service. The record keeps the points of its boards. `capacity` is the number of stripes that each
    /// board has room for, 1 to 4,096.
    ///
    /// # Errors
    ///
    /// [`Refusal::Size`] where sizes, points or capacity are not legal.
    pub fn set_up(sizes: Sizes, points: Points, capacity: usize) -> Result<Record, Refusal> {
        let mut record = Record::from_words([0; RECORD_WORDS]);
        let Sizes { n, k, d, r } = sizes;
        let points = points.bytes();
        let Record { words, repair } = &mut record;
        result(unsafe {
            zbk_set_up(
                words.as_mut_ptr(),
                words.len(),
                repair.as_mut_ptr(),
                repair.len(),
                n,
                k,
                d,
                r,
                points.as_ptr(),
                points.len(),
                capacity,
            )
        })?;
        Ok(record)
    }

    /// A record of words that were kept, as after a power failure: no repair is running. Any words are taken; the calls refuse those that no call hands
    /// out, with [`Refusal::Size`].
    #[must_use]
    pub fn from_words(words: [u64; RECORD_WORDS]) -> Record {
        Record { words, repair: [0; REPAIR_WORDS] }
    }

    /// The same record with the words of a started repair that were kept beside its own. Any words are taken; the calls refuse those of a running repair
    /// that no call hands out beside this record, with [`Refusal::Size`].
    #[must_use]
    pub fn with_repair_words(self, repair: [u64; REPAIR_WORDS]) -> Record {
        Record { repair, ..self }
    }

    /// A record of eight words that were kept before records held points: it goes on with the words of the standard points behind them.
    #[must_use]
    pub fn from_eight_words(words: [u64; 8]) -> Record {
        let points = Points::standard(words[0] as usize);
        let mut all = [0; RECORD_WORDS];
        all[..POINTS].copy_from_slice(&words);
        for (word, bytes) in all[POINTS..].iter_mut().zip(points.bytes().chunks(8)) {
            *word = u64::from_le_bytes(bytes.try_into().expect("a piece has eight bytes"));
        }
        Record::from_words(all)
    }

    /// The words: n, k, d, r, capacity, written (0 or 1), length, marks (bit i for board i), and four words with the points of eight boards each,
    /// the lowest byte first.
    #[must_use]
    pub fn words(&self) -> [u64; RECORD_WORDS] {
        self.words
    }

    /// The words of the started repair: 1 where it is running, else 0; then, as far as one is running, its count of fresh boards, the packets carried, and
    /// the boards as bytes, eight in a word, the lowest first: four words of fresh boards, 32 of helpers, 32 of stand-ins.
    #[must_use]
    pub fn repair_words(&self) -> [u64; REPAIR_WORDS] {
        self.repair
    }

    /// The sizes of the store.
    #[must_use]
    pub fn sizes(&self) -> Sizes {
        let [n, k, d, r, ..] = self.words.map(|word| word as usize);
        Sizes { n, k, d, r }
    }

    /// The points of the boards: those given at set-up, but for boards that were [moved](Record::move_board) since.
    #[must_use]
    pub fn points(&self) -> Points {
        let mut bytes = [0; MAX_BOARDS];
        for (bytes, word) in bytes.chunks_mut(8).zip(&self.words[POINTS..]) {
            bytes.copy_from_slice(&word.to_le_bytes());
        }
        Points::from(bytes)
    }

    /// The stripes that each board has room for.
    #[must_use]
    pub fn capacity(&self) -> usize {
        self.words[4] as usize
    }

    /// Whether a file was written.
    #[must_use]
    pub fn has_file(&self) -> bool {
        self.words[5] == 1
    }

    /// The length of the last file written; 0 where there is none.
    #[must_use]
    pub fn length(&self) -> usize {
        self.words[6] as usize
    }

    /// Whether a board is in service. No board from n up is, nor one from 32 up, whatever words that no call hands out say of it.
    #[must_use]
    pub fn in_service(&self, board: usize) -> bool {
        board < self.sizes().n.min(MAX_BOARDS) && self.words[7] >> board & 1 == 1
    }

    /// Whether a repair is running: started, and not yet stepped to its end.
    #[must_use]
    pub fn is_repairing(&self) -> bool {
        self.repair[0] == 1
    }

    /// Bytes of the packet area of the repair that is running, t × (2d + r − 1) for each stripe; 0 where none is. A number that is too great for
    /// `usize`, as only made-up words have it, is cut to the greatest.
    #[must_use]
    pub fn packets_len(&self) -> usize {
        if !self.is_repairing() {
            return 0;
        }
        let sizes = self.sizes();
        sizes.stripes(self.length()).saturating_mul(self.repair[1] as usize).saturating_mul(sizes.share_len())
    }

    /// What a power failure leaves of a record: the repair that was running is gone, the store is as it was. So it is with
    /// [`Record::from_words`] of the words that were kept.
    pub fn power_failed(&mut self) {
        self.repair = [0; REPAIR_WORDS];
    }

    /// Writes a file: every board gets its share and comes into service.
    ///
    /// # Errors
    ///
    /// [`Refusal::Size`], [`Refusal::Area`], [`Refusal::Long`] or [`Refusal::Busy`], the first that holds; record and area are then as they were.
    pub fn write(&mut self, area: &mut [u8], file: &[u8]) -> Result<(), Refusal> {
        let Record { words, repair } = self;
        result(unsafe {
            zbk_write(
                words.as_mut_ptr(),
                words.len(),
                repair.as_mut_ptr(),
                repair.len(),
                area.as_mut_ptr(),
                area.len(),
                file.as_ptr(),
                file.len(),
            )
        })
        .map(drop)
    }

    /// Takes a board out of service. Where a repair is running that names the board, fresh, helper or stand-in, that repair has ended, and its fresh
    /// boards stay out of service; the loss of another board does not touch it.
    ///
    /// # Errors
    ///
    /// [`Refusal::Size`] or [`Refusal::Node`], the first that holds; the record is then as it was.
    pub fn lose(&mut self, board: usize) -> Result<(), Refusal> {
        let Record { words, repair } = self;
        result(unsafe { zbk_lose(words.as_mut_ptr(), words.len(), repair.as_mut_ptr(), repair.len(), board) }).map(drop)
    }

    /// Rebuilds t fresh boards together, 1 to r of them, each out of service. `helpers` has t × d numbers: the d helpers of the first fresh board,
    /// then those of the second, and so on. `stand_ins` has t × (r − t), in the same order: r − t for each fresh board, none where t is r. A
    /// stand-in sends half of what a helper sends. The helpers and stand-ins of one fresh board are all different, and no fresh board is among
    /// those of any; a helper of one may stand in for another. All fresh boards come into service; answers the bytes moved between boards,
    /// t × (2d + r − 1) for each stripe.
    ///
    /// # Errors
    ///
    /// [`Refusal::Size`], [`Refusal::Area`], [`Refusal::Empty`], [`Refusal::Busy`], [`Refusal::Count`], [`Refusal::Node`], [`Refusal::Repeat`],
    /// [`Refusal::Serving`] or [`Refusal::Down`], the first that holds; record and area are then as they were.
    pub fn repair(
        &mut self,
        area: &mut [u8],
        fresh: &[usize],
        helpers: &[usize],
        stand_ins: &[usize],
    ) -> Result<usize, Refusal> {
        let Record { words, repair } = self;
        result(unsafe {
            zbk_repair(
                words.as_mut_ptr(),
                words.len(),
                repair.as_mut_ptr(),
                repair.len(),
                area.as_mut_ptr(),
                area.len(),
                fresh.as_ptr(),
                fresh.len(),
                helpers.as_ptr(),
                helpers.len(),
                stand_ins.as_ptr(),
                stand_ins.len(),
            )
        })
    }

    /// Reads the file from k boards into the first [`length`](Record::length) bytes of `out`; the rest of `out` stays.
    ///
    /// k boards show that they fit together, not that none is altered: only the values that two of them share are compared, and a wrong byte on one
    /// of them often gives another file, which is accepted. Among k + 1 boards one that is wrong always shows: no file has the shares of them
    /// all, so that two reads of k of them that leave out different boards do not both give the same file. Among k + 2 it is named, and the file is given all the same, by
    /// [`read_careful`](Record::read_careful).
    ///
    /// # Errors
    ///
    /// [`Refusal::Size`], [`Refusal::Area`], [`Refusal::Empty`], [`Refusal::Count`], [`Refusal::Node`], [`Refusal::Repeat`], [`Refusal::Down`],
    /// [`Refusal::Short`] or [`Refusal::Disagree`], the first that holds; `out` is then as it was.
    pub fn read(&self, area: &[u8], boards: &[usize], out: &mut [u8]) -> Result<(), Refusal> {
        // the call is lent a copy, since a read hands on both records as they came
        let Record { mut words, mut repair } = self.clone();
        result(unsafe {
            zbk_read(
                words.as_mut_ptr(),
                words.len(),
                repair.as_mut_ptr(),
                repair.len(),
                area.as_ptr(),
                area.len(),
                boards.as_ptr(),
                boards.len(),
                out.as_mut_ptr(),
                out.len(),
            )
        })
        .map(drop)
    }

    /// Reads the file from k + 2 boards of which one may answer wrong bytes, as a worn board does that is still in service: the file of which at least
    /// k + 1 of them hold their shares goes to the first [`length`](Record::length) bytes of `out`; the rest of `out` stays. Answers the number of the
    /// odd board, the one that does not hold its share, or none where all do.
    ///
    /// [`Refusal::Disagree`] just where there is no such file; there are never two. Shares count whole, all stripes and the padding of the last, so that
    /// two boards that are wrong in different stripes are not mended stripe by stripe. [`Refusal::Count`] also where k + 2 is above n. Nothing but
    /// `out` changes: the odd board keeps its bytes and stays in service; lose it, and rebuild it.
    ///
    /// ```
    /// use zebrankai::{Points, Record, Refusal, Sizes};
    ///
    /// let sizes = Sizes { n: 5, k: 2, d: 3, r: 2 };
    /// let stock = b"saline 0.9 %: 120 bags\n";
    /// let mut area = vec![0; sizes.area_len(4)];
    /// let mut record = Record::set_up(sizes, Points::standard(5), 4)?;
    /// record.write(&mut area, stock)?;
    /// let mut file = vec![0; record.length()];
    /// assert_eq!(record.read_careful(&area, &[4, 0, 2, 1], &mut file)?, None);
    ///
    /// // board 0 is worn: a byte of it is another one
    /// area[6] ^= 1;
    /// record.read(&area, &[0, 1], &mut file)?;
    /// assert_ne!(file, stock);
    /// assert_eq!(record.read_careful(&area, &[4, 0, 2, 1], &mut file)?, Some(0));
    /// assert_eq!(file, stock);
    ///
    /// // it is lost, and rebuilt from others
    /// record.lose(0)?;
    /// record.repair(&mut area, &[0], &[1, 2, 3], &[4])?;
    /// assert_eq!(record.read_careful(&area, &[0, 1, 2, 3], &mut file)?, None);
    /// assert_eq!(file, stock);
    /// # Ok::<(), Refusal>(())
    /// ```
    ///
    /// # Errors
    ///
    /// As of [`read`](Record::read), for k + 2 boards: [`Refusal::Size`], [`Refusal::Area`], [`Refusal::Empty`], [`Refusal::Count`],
    /// [`Refusal::Node`], [`Refusal::Repeat`], [`Refusal::Down`], [`Refusal::Short`] or [`Refusal::Disagree`], the first that holds; `out` is then as
    /// it was.
    pub fn read_careful(&self, area: &[u8], boards: &[usize], out: &mut [u8]) -> Result<Option<usize>, Refusal> {
        // copies, as in a read
        let Record { mut words, mut repair } = self.clone();
        let reported = result(unsafe {
            zbk_read_careful(
                words.as_mut_ptr(),
                words.len(),
                repair.as_mut_ptr(),
                repair.len(),
                area.as_ptr(),
                area.len(),
                boards.as_ptr(),
                boards.len(),
                out.as_mut_ptr(),
                out.len(),
            )
        })?;
        // 0 is none, and 1 board 0
        Ok(reported.checked_sub(1))
    }

    /// Puts `bytes` in the place of as many bytes of the file, from byte `offset` on, without a rewrite: the file that reads give is from then on the
    /// edited one. Its length stays; [`Refusal::Range`] where the edit goes beyond it. The old bytes are those that the k boards in service in `boards`
    /// hold, of which all stripes are looked at, as by a [`read`](Record::read): [`Refusal::Disagree`] where they fit no file.
    ///
    /// Every board in service, read or not, is changed by its share of the difference of old and new bytes, and only in stripes that the edit
    /// reaches. Where the k boards read hold their shares of the file, a board that held its share holds that of the edited file, and one that held
    /// wrong bytes stays wrong. Where one of the k is wrong and it does not show, every board is changed by a wrong difference, and no later read shows
    /// it, careful or not: read carefully first, and edit by boards that agreed. Boards out of service keep their bytes. No bytes at all, at an offset up to the file's length, are accepted and change nothing, where the boards pass the same checks.
    ///
    /// ```
    /// use zebrankai::{Points, Record, Refusal, Sizes};
    ///
    /// let sizes = Sizes { n: 5, k: 2, d: 3, r: 2 };
    /// let mut area = vec![0; sizes.area_len(4)];
    /// let mut record = Record::set_up(sizes, Points::standard(5), 4)?;
    /// // three pack counts of four bytes each
    /// let counts = [42u32, 17, 120];
    /// let file: Vec<u8> = counts.iter().flat_map(|count| count.to_le_bytes()).collect();
    /// record.write(&mut area, &file)?;
    ///
    /// // a carton of 24 is loaded: the second count, by what boards 0 and 3 hold
    /// record.edit(&mut area, 4, &41u32.to_le_bytes(), &[0, 3])?;
    ///
    /// let mut read = vec![0; record.length()];
    /// record.read(&area, &[1, 4], &mut read)?;
    /// assert_eq!(read[..4], file[..4]);
    /// assert_eq!(read[4..8], [41, 0, 0, 0]);
    /// assert_eq!(read[8..], file[8..]);
    /// assert_eq!(record.edit(&mut area, 9, &41u32.to_le_bytes(), &[0, 3]), Err(Refusal::Range));
    /// # Ok::<(), Refusal>(())
    /// ```
    ///
    /// # Errors
    ///
    /// [`Refusal::Size`], [`Refusal::Area`], [`Refusal::Empty`], [`Refusal::Busy`], [`Refusal::Range`], [`Refusal::Count`], [`Refusal::Node`],
    /// [`Refusal::Repeat`], [`Refusal::Down`] or [`Refusal::Disagree`], the first that holds; the area is then as it was.
    pub fn edit(&mut self, area: &mut [u8], offset: usize, bytes: &[u8], boards: &[usize]) -> Result<(), Refusal> {
        let Record { words, repair } = self;
        result(unsafe {
            zbk_edit(
                words.as_mut_ptr(),
                words.len(),
                repair.as_mut_ptr(),
                repair.len(),
                area.as_mut_ptr(),
                area.len(),
                offset,
                bytes.as_ptr(),
                bytes.len(),
                boards.as_ptr(),
                boards.len(),
            )
        })
        .map(drop)
    }

    /// Starts a repair, to be carried a packet at a time while the bus is shared: takes the lists of [`repair`](Record::repair), refuses what that
    /// refuses, and carries nothing. [`step`](Record::step) carries its packets, t × (d + r − 1) in all. Until the last one the fresh boards are out of
    /// service and nothing else changes. Reads go on meanwhile, careful ones too, and losses; a write, an edit, a repair, a start and a move are
    /// [`Refusal::Busy`].
    ///
    /// ```
    /// use zebrankai::{Points, Record, Refusal, Sizes};
    ///
    /// let sizes = Sizes { n: 7, k: 3, d: 4, r: 2 };
    /// let stock = b"aspirin 100 mg: 42 boxes\n";
    /// let mut area = vec![0; sizes.area_len(8)];
    /// let mut record = Record::set_up(sizes, Points::standard(7), 8)?;
    /// record.write(&mut area, stock)?;
    /// record.lose(1)?;
    /// record.lose(4)?;
    ///
    /// record.start(&area, &[1, 4], &[0, 2, 3, 5, 6, 5, 3, 2], &[])?;
    /// let mut packets = vec![0; record.packets_len()];
    /// let mut file = vec![0; record.length()];
    /// let mut carried = 0;
    /// while record.is_repairing() {
    ///     // three packets, then the arm has the bus
    ///     carried += record.step(&mut area, &mut packets, 3)?;
    ///     record.read(&area, &[0, 3, 6], &mut file)?;
    ///     assert_eq!(file, stock);
    /// }
    /// assert_eq!(carried, 2 * (4 + 2 - 1));
    ///
    /// record.read(&area, &[1, 4, 6], &mut file)?;
    /// assert_eq!(file, stock);
    /// assert_eq!(record.step(&mut area, &mut packets, 3), Err(Refusal::Idle));
    /// # Ok::<(), Refusal>(())
    /// ```
    ///
    /// # Errors
    ///
    /// As of [`repair`](Record::repair): [`Refusal::Size`], [`Refusal::Area`], [`Refusal::Empty`], [`Refusal::Busy`], [`Refusal::Count`],
    /// [`Refusal::Node`], [`Refusal::Repeat`], [`Refusal::Serving`] or [`Refusal::Down`], the first that holds; the record is then as it was.
    pub fn start(
        &mut self,
        area: &[u8],
        fresh: &[usize],
        helpers: &[usize],
        stand_ins: &[usize],
    ) -> Result<(), Refusal> {
        let Record { words, repair } = self;
        result(unsafe {
            zbk_start(
                words.as_mut_ptr(),
                words.len(),
                repair.as_mut_ptr(),
                repair.len(),
                area.as_ptr(),
                area.len(),
                fresh.as_ptr(),
                fresh.len(),
                helpers.as_ptr(),
                helpers.len(),
                stand_ins.as_ptr(),
                stand_ins.len(),
            )
        })
        .map(drop)
    }

    /// Carries the next packets of the repair that is running, at most `allowance`, fewer only where fewer are left, and answers how many; 0 is taken,
    /// and moves nothing. [`Refusal::Idle`] where none is running.
    ///
    /// `packets` is the packet area, of [`packets_len`](Record::packets_len) bytes, the same in each step of a repair; what it holds at first does not
    /// matter. In it the packets lie one after another: those of helpers, two bytes for each stripe, then those of stand-ins, then the exchanges, one
    /// byte for each stripe; in each of these by receiver, in the order of `fresh`, and then by its list of senders, which for exchanges is `fresh`
    /// without the receiver. Each packet is written at its place when it is carried, and all other bytes there stay: a helper's and a stand-in's by what
    /// the board holds then, an exchange by its sender's helper packets as they lie there. With the last packet each fresh board gets the share that the
    /// packets lying there make, all come into service, and the repair has ended: with no bytes altered of boards in service and of packets carried, the
    /// store is as [`repair`](Record::repair) would leave it in the place of this step.
    ///
    /// # Errors
    ///
    /// [`Refusal::Size`], [`Refusal::Area`], [`Refusal::Empty`] or [`Refusal::Idle`], the first that holds; record and both areas are then as they
    /// were.
    pub fn step(&mut self, area: &mut [u8], packets: &mut [u8], allowance: usize) -> Result<usize, Refusal> {
        let Record { words, repair } = self;
        result(unsafe {
            zbk_step(
                words.as_mut_ptr(),
                words.len(),
                repair.as_mut_ptr(),
                repair.len(),
                area.as_mut_ptr(),
                area.len(),
                packets.as_mut_ptr(),
                packets.len(),
                allowance,
            )
        })
    }

    /// Moves a board to a new point, with the robot running: reads, edits, losses and repairs go on between moves as ever. All n boards are in service
    /// and stay so. The board is rebuilt at its new point as in a [`repair`](Record::repair) of it alone, from its d helpers and r − 1 partners, which send
    /// what stand-ins send; no byte that it held is read. Every other board works out afresh, from what it holds and without the bus, the values that it
    /// keeps at the moved board's point. A board that held its share of the file holds that at the new points; one that held wrong bytes, not the moved one,
    /// stays wrong, and as a helper or partner it may make the moved one wrong too, as in a repair: move after careful reads that together take in every board
    /// and find none odd. A wrong board that is moved by right helpers and partners is right. Only the stripes of the file change, and of the record the one
    /// point. Answers the bytes moved between boards, 2d + r − 1 for each stripe.
    ///
    /// `helpers` has d numbers, `partners` r − 1, none where r is 1; all are different, and none is the board. [`Refusal::Repeat`] also where the new point
    /// is some board's, its own included; the 00 that a record keeps from n up is no board's. [`Refusal::Down`] where any board is out of service, named or
    /// not: after a loss, repair first. [`Refusal::Busy`] while a repair is running.
    ///
    /// So a robot of the first series gets the present points: moved in turn, board 0 to 0, board 1 to 1, up to board n − 1, each new point is free when its
    /// turn comes, and behind the last move, if each board held its share before it, the boards hold in the stripes of the file what a fresh write puts there.
    /// Nothing is open between two moves: behind a power failure there [`points`](Record::points) tells how far the turn is. Record and area belong together: a
    /// record from before a move with the area behind it is no store. Texts of shares follow the record's points: behind the last move they have no line of
    /// points. A text that was printed before a move stays good with its own line of points, together with texts of the same points: print all that are to be
    /// gathered between the same two moves, else they are [`Refusal::Mixed`].
    ///
    /// ```
    /// use zebrankai::{Points, Record, Refusal, Sizes};
    ///
    /// let sizes = Sizes { n: 5, k: 2, d: 3, r: 2 };
    /// let stock = b"bandages: 7 packs\n";
    /// let mut area = vec![0; sizes.area_len(4)];
    /// let mut record = Record::set_up(sizes, Points::first_series(5), 4)?;
    /// record.write(&mut area, stock)?;
    ///
    /// let mut file = vec![0; record.length()];
    /// for board in 0..5 {
    ///     let others: Vec<usize> = (1..5).map(|t| (board + t) % 5).collect();
    ///     let moved = record.move_board(&mut area, board, board as u8, &others[..3], &others[3..])?;
    ///     assert_eq!(moved, sizes.stripes(stock.len()) * sizes.share_len());
    ///     // the robot goes on
    ///     record.read(&area, &[board, others[2]], &mut file)?;
    ///     assert_eq!(file, stock);
    /// }
    /// assert_eq!(record.points(), Points::standard(5));
    ///
    /// // as written anew at these points
    /// let mut anew = vec![0; sizes.area_len(4)];
    /// let mut present = Record::set_up(sizes, Points::standard(5), 4)?;
    /// present.write(&mut anew, stock)?;
    /// assert_eq!((&record, &area), (&present, &anew));
    ///
    /// assert_eq!(record.move_board(&mut area, 2, 4, &[0, 1, 3], &[4]), Err(Refusal::Repeat));
    /// # Ok::<(), Refusal>(())
    /// ```
    ///
    /// # Errors
    ///
    /// [`Refusal::Size`], [`Refusal::Area`], [`Refusal::Empty`], [`Refusal::Busy`], [`Refusal::Count`], [`Refusal::Node`], [`Refusal::Repeat`] or
    /// [`Refusal::Down`], the first that holds; record and area are then as they were.
    pub fn move_board(
        &mut self,
        area: &mut [u8],
        board: usize,
        point: u8,
        helpers: &[usize],
        partners: &[usize],
    ) -> Result<usize, Refusal> {
        let Record { words, repair } = self;
        result(unsafe {
            zbk_move(
                words.as_mut_ptr(),
                words.len(),
                repair.as_mut_ptr(),
                repair.len(),
                area.as_mut_ptr(),
                area.len(),
                board,
                point,
                helpers.as_ptr(),
                helpers.len(),
                partners.as_ptr(),
                partners.len(),
            )
        })
    }
}
