//! The record of a started repair (request A.8), which stands beside the store's: 71 words.

use crate::sizes::{refuse_if, Refusal, Sizes, MAX_BOARDS};
use crate::store::{check_lists, Named, Record};

/// The words: whether a repair runs, how many boards are fresh, the packets carried; then board numbers as bytes, eight in a word, the lowest first:
/// 32 for the fresh boards, 256 for the helpers, 256 for the stand-ins.
pub const WORDS: usize = 71;
const RUNNING: usize = 0;
const COUNT: usize = 1;
pub const CARRIED: usize = 2;
const FRESH: usize = 3;
const HELPERS: usize = 7;
const STAND_INS: usize = 39;

/// For how many helpers there is room, and for how many stand-ins.
const MAX_SENDERS: usize = 256;

/// A repair that runs: its lists, and how many packets were carried.
pub struct Running {
    pub fresh: Vec<usize>,
    pub helpers: Vec<usize>,
    pub stand_ins: Vec<usize>,
    pub carried: usize,
}

/// Whether a repair runs, by words that `check` takes.
pub fn runs(words: &[u64]) -> bool {
    words[RUNNING] == 1
}

/// SIZE where the words are none that a call returns beside this record of the store. Where no repair runs they are not examined.
pub fn check(record: &Record, words: &[u64]) -> Result<(), Refusal> {
    refuse_if(words.len() != WORDS, Refusal::Size)?;
    refuse_if(words[RUNNING] > 1, Refusal::Size)?;
    let Some(running) = Running::from_words(record.sizes, words) else { return Ok(()) };
    check_lists(record, running.named()).map_err(|_| Refusal::Size)?;
    refuse_if(running.carried >= running.total(record.sizes), Refusal::Size)
}

/// So many bytes of words, from one of them on, as board numbers; as many as there is room for.
fn list(words: &[u64], first: usize, room: usize, count: usize) -> Vec<usize> {
    (0..count.min(room)).map(|place| (words[first + place / 8] >> (8 * (place % 8)) & 0xFF) as usize).collect()
}

/// Board numbers as bytes of words, 00 behind them.
fn put(words: &mut [u64], boards: &[usize]) {
    words.fill(0);
    for (place, &board) in boards.iter().enumerate() {
        words[place / 8] |= (board as u64) << (8 * (place % 8));
    }
}

impl Running {
    /// The repair that words tell; none where none runs.
    pub fn from_words(sizes: Sizes, words: &[u64]) -> Option<Running> {
        if !runs(words) {
            return None;
        }
        let fresh = list(words, FRESH, MAX_BOARDS, words[COUNT] as usize);
        let t = fresh.len();
        let helpers = list(words, HELPERS, MAX_SENDERS, t * sizes.d);
        let stand_ins = list(words, STAND_INS, MAX_SENDERS, t * sizes.r.saturating_sub(t));
        Some(Running { fresh, helpers, stand_ins, carried: words[CARRIED] as usize })
    }

    /// Writes the record of a repair that starts.
    pub fn begin(words: &mut [u64], named: Named) {
        words[RUNNING] = 1;
        words[COUNT] = named.fresh.len() as u64;
        words[CARRIED] = 0;
        put(&mut words[FRESH..HELPERS], named.fresh);
        put(&mut words[HELPERS..STAND_INS], named.helpers);
        put(&mut words[STAND_INS..], named.stand_ins);
    }

    pub fn named(&self) -> Named<'_> {
        Named { fresh: &self.fresh, helpers: &self.helpers, stand_ins: &self.stand_ins }
    }

    /// All its packets: d + r − 1 for each fresh board.
    pub fn total(&self, sizes: Sizes) -> usize {
        self.fresh.len() * (sizes.d + sizes.r - 1)
    }

    /// Bytes of its packet area.
    pub fn packets_len(&self, record: &Record) -> usize {
        record.stripes() * self.fresh.len() * record.sizes.share_len()
    }
}
