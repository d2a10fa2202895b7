//! The record of a started repair (request A.8 of document 02), which every store call is lent beside the store's: 71 words, of which the first says
//! whether a repair runs.

use crate::code::{Sizes, MAX_BOARDS};
use crate::store::{bytes_in, words_of};

/// The places of its words.
pub mod word {
    /// 1 where a repair runs, else 0
    pub const RUNNING: usize = 0;
    /// how many boards are fresh
    pub const FRESH_COUNT: usize = 1;
    /// the packets carried
    pub const CARRIED: usize = 2;
    /// the first word of each list, of board numbers as bytes
    pub const FRESH: usize = 3;
    pub const HELPERS: usize = 7;
    pub const STAND_INS: usize = 39;
    pub const COUNT: usize = 71;
}

/// The lists of a repair.
#[derive(Clone, Debug, PartialEq, Eq)]
pub struct Lists {
    pub fresh: Vec<usize>,
    pub helpers: Vec<usize>,
    pub stand_ins: Vec<usize>,
}

impl Lists {
    /// "a board named in the repair".
    pub fn name(&self, board: usize) -> bool {
        [&self.fresh, &self.helpers, &self.stand_ins].into_iter().any(|list| list.contains(&board))
    }
}

/// What words say.
pub enum Told {
    /// they are no record of a repair
    Nothing,
    /// no repair runs
    Idle,
    /// a repair runs by these lists, of which some packets were carried; whether such a repair can run is not asked
    Runs { lists: Lists, carried: u64 },
}

/// What words say beside a store of these sizes. Entries that the lists do not use are not looked at, nor is anything where none runs.
pub fn read(sizes: Sizes, words: &[u64]) -> Told {
    match words.first() {
        Some(0) if words.len() == word::COUNT => Told::Idle,
        Some(1) if words.len() == word::COUNT => {
            let list = |first: usize, end: usize| bytes_in(&words[first..end]).into_iter().map(usize::from);
            // as many as the count says, and no more than there are
            let count = usize::try_from(words[word::FRESH_COUNT]).unwrap_or(usize::MAX);
            let fresh: Vec<usize> = list(word::FRESH, word::HELPERS).take(count).collect();
            let t = fresh.len();
            let helpers = list(word::HELPERS, word::STAND_INS).take(t * sizes.d).collect();
            let missing = sizes.r.saturating_sub(t);
            let stand_ins = list(word::STAND_INS, word::COUNT).take(t * missing).collect();
            Told::Runs { lists: Lists { fresh, helpers, stand_ins }, carried: words[word::CARRIED] }
        }
        _ => Told::Nothing,
    }
}

/// The words that calls hand on where none runs after a set-up, a loss or a last step.
pub fn none() -> Vec<u64> {
    vec![0; word::COUNT]
}

/// The words of a repair by these lists; 00 in the entries that they do not use.
pub fn words(lists: &Lists, carried: usize) -> Vec<u64> {
    let array = |list: &[usize], room: usize| {
        let mut bytes: Vec<u8> = list.iter().map(|&board| board as u8).collect();
        bytes.resize(room, 0);
        words_of(&bytes)
    };
    let senders = 8 * (word::STAND_INS - word::HELPERS);
    let numbers = vec![1, lists.fresh.len() as u64, carried as u64];
    [numbers, array(&lists.fresh, MAX_BOARDS), array(&lists.helpers, senders), array(&lists.stand_ins, senders)]
        .concat()
}
