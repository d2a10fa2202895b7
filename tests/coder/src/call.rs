//! The twenty calls with their arguments: how each is passed to the archive, what of it may be spoilt, how it is shown. And the memory that they
//! are lent to change.

use crate::code::{self, Sizes};
use crate::running;
use std::fmt;

/// The refusals, by number: document 01's, and those of later requests.
pub mod refusal {
    pub const ACCEPTED: u8 = 0;
    pub const SIZE: u8 = 1;
    pub const AREA: u8 = 2;
    pub const LONG: u8 = 3;
    pub const COUNT: u8 = 4;
    pub const NODE: u8 = 5;
    pub const REPEAT: u8 = 6;
    pub const SHORT: u8 = 7;
    pub const EMPTY: u8 = 8;
    pub const DOWN: u8 = 9;
    pub const DISAGREE: u8 = 10;
    pub const TEXT: u8 = 12;
    pub const MIXED: u8 = 13;
    pub const SERVING: u8 = 14;
    pub const RANGE: u8 = 15;
    pub const BUSY: u8 = 16;
    pub const IDLE: u8 = 17;
    /// One more than the highest number.
    pub const COUNTED: usize = 18;
    /// The number that is not used, and that no call answers.
    pub const UNUSED: u64 = 11;
}

/// A call with all its arguments but those that it may change.
#[derive(Clone, Debug)]
pub enum Call {
    Share {
        sizes: Sizes,
        points: Vec<u8>,
        node: usize,
        file: Vec<u8>,
    },
    File {
        sizes: Sizes,
        points: Vec<u8>,
        length: usize,
        boards: Vec<usize>,
        shares: Vec<u8>,
    },
    Helper {
        sizes: Sizes,
        points: Vec<u8>,
        length: usize,
        helper: usize,
        receiver: usize,
        share: Vec<u8>,
    },
    Exchange {
        sizes: Sizes,
        points: Vec<u8>,
        length: usize,
        board: usize,
        helpers: Vec<usize>,
        packets: Vec<u8>,
        receiver: usize,
    },
    Finished {
        sizes: Sizes,
        points: Vec<u8>,
        length: usize,
        board: usize,
        helpers: Vec<usize>,
        packets: Vec<u8>,
        partners: Vec<usize>,
        partner_packets: Vec<u8>,
    },
    Text {
        sizes: Sizes,
        points: Vec<u8>,
        length: usize,
        node: usize,
        share: Vec<u8>,
    },
    SetUp {
        sizes: Sizes,
        points: Vec<u8>,
        capacity: usize,
    },
    Write {
        file: Vec<u8>,
    },
    Lose {
        board: usize,
    },
    Repair {
        fresh: Vec<usize>,
        helpers: Vec<usize>,
        stand_ins: Vec<usize>,
    },
    Read {
        boards: Vec<usize>,
    },
    Edit {
        offset: usize,
        bytes: Vec<u8>,
        boards: Vec<usize>,
    },
    Start {
        fresh: Vec<usize>,
        helpers: Vec<usize>,
        stand_ins: Vec<usize>,
    },
    Step {
        allowance: usize,
    },
    Careful {
        boards: Vec<usize>,
    },
    Move {
        board: usize,
        point: u8,
        helpers: Vec<usize>,
        partners: Vec<usize>,
    },
    ReadText {
        text: Vec<u8>,
    },
    Gather {
        text: Vec<u8>,
    },
    Prefix {
        text: Vec<u8>,
    },
    TrialFile {
        seed: u32,
    },
}

/// The C names of the calls, in the order of `Call::place`, each with the refusals that it can give.
pub const CALLS: [(&str, &[u8]); 20] = [
    ("zbk_share", &[1, 3, 5, 7]),
    ("zbk_file", &[1, 3, 4, 5, 6, 2, 7, 10]),
    ("zbk_helper_packet", &[1, 3, 5, 6, 2, 7]),
    ("zbk_exchange_packet", &[1, 3, 4, 5, 6, 2, 7]),
    ("zbk_finished_share", &[1, 3, 4, 5, 6, 2, 7]),
    ("zbk_share_text", &[1, 3, 5, 2, 7]),
    ("zbk_set_up", &[1]),
    ("zbk_write", &[1, 2, 3, 16]),
    ("zbk_lose", &[1, 5]),
    ("zbk_repair", &[1, 2, 8, 16, 4, 5, 6, 14, 9]),
    ("zbk_read", &[1, 2, 8, 4, 5, 6, 9, 7, 10]),
    ("zbk_edit", &[1, 2, 8, 16, 15, 4, 5, 6, 9, 10]),
    ("zbk_start", &[1, 2, 8, 16, 4, 5, 6, 14, 9]),
    ("zbk_step", &[1, 2, 8, 17]),
    ("zbk_read_careful", &[1, 2, 8, 4, 5, 6, 9, 7, 10]),
    ("zbk_move", &[1, 2, 8, 16, 4, 5, 6, 9]),
    ("zbk_read_text", &[1, 12, 7]),
    ("zbk_gather", &[12, 13, 4, 6, 7, 10]),
    ("zbk_text_prefix", &[]),
    ("zbk_trial_file", &[]),
];

/// The place in `CALLS` of the first call of the store.
pub const SET_UP: usize = 6;

/// The place in `CALLS` of the first of the three calls that are given texts.
pub const READ_TEXT: usize = 16;

/// The place in `CALLS` of the call that draws a file from a seed.
pub const TRIAL_FILE: usize = 19;

// The archive's names, as include/zebrankai.h declares them (`tests/names`).
macro_rules! asked {
    ($word:ty, $name:ident ($($c:tt)*) ($($rust:tt)*) ($($to_c:tt)*)) => {
        #[allow(clippy::too_many_arguments)]
        fn $name($($rust)*) -> $word {
            extern "C" {
                fn $name($($c)*) -> $word;
            }
            // Safety: each pointer is a slice's, and its number of elements follows.
            unsafe { $name($($to_c)*) }
        }
    };
}

macro_rules! answered {
    ($plain:tt $name:ident $c:tt $rust:tt $to_c:tt $from_c:tt) => {
        asked!(u64, $name $c $rust $to_c);
    };
}

macro_rules! given {
    ($plain:tt $name:ident $c:tt $rust:tt $to_c:tt $from_c:tt) => {
        asked!(u32, $name $c $rust $to_c);
    };
}

names::archive!(answered);
names::state!(given);

impl Call {
    /// The place of the call in `CALLS`.
    pub fn place(&self) -> usize {
        match self {
            Call::Share { .. } => 0,
            Call::File { .. } => 1,
            Call::Helper { .. } => 2,
            Call::Exchange { .. } => 3,
            Call::Finished { .. } => 4,
            Call::Text { .. } => 5,
            Call::SetUp { .. } => SET_UP,
            Call::Write { .. } => 7,
            Call::Lose { .. } => 8,
            Call::Repair { .. } => 9,
            Call::Read { .. } => 10,
            Call::Edit { .. } => 11,
            Call::Start { .. } => 12,
            Call::Step { .. } => 13,
            Call::Careful { .. } => 14,
            Call::Move { .. } => 15,
            Call::ReadText { .. } => READ_TEXT,
            Call::Gather { .. } => READ_TEXT + 1,
            Call::Prefix { .. } => READ_TEXT + 2,
            Call::TrialFile { .. } => TRIAL_FILE,
        }
    }

    /// Whether it is a call of the store, which is lent both records.
    pub fn of_store(&self) -> bool {
        (SET_UP..READ_TEXT).contains(&self.place())
    }

    /// Makes the call, over what it is lent; the archive's answer. The state that a trial file's call gives stands where others report a value.
    pub fn ask(
        &self,
        record: &mut [u64],
        repair: &mut [u64],
        area: &mut [u8],
        packets: &mut [u8],
        out: &mut [u8],
    ) -> u64 {
        match self {
            Call::Share { sizes, points, node, file } => zbk_share(*sizes, points, *node, file, out),
            Call::File { sizes, points, length, boards, shares } => {
                zbk_file(*sizes, points, *length, boards, shares, out)
            }
            Call::Helper { sizes, points, length, helper, receiver, share } => {
                zbk_helper_packet(*sizes, points, *length, *helper, *receiver, share, out)
            }
            Call::Exchange { sizes, points, length, board, helpers, packets, receiver } => {
                zbk_exchange_packet(*sizes, points, *length, *board, helpers, packets, *receiver, out)
            }
            Call::Finished { sizes, points, length, board, helpers, packets, partners, partner_packets } => {
                zbk_finished_share(*sizes, points, *length, *board, helpers, packets, partners, partner_packets, out)
            }
            Call::Text { sizes, points, length, node, share } => {
                zbk_share_text(*sizes, points, *length, *node, share, out)
            }
            Call::SetUp { sizes, points, capacity } => zbk_set_up(record, repair, *sizes, points, *capacity),
            Call::Write { file } => zbk_write(record, repair, area, file),
            Call::Lose { board } => zbk_lose(record, repair, *board),
            Call::Repair { fresh, helpers, stand_ins } => zbk_repair(record, repair, area, fresh, helpers, stand_ins),
            Call::Read { boards } => zbk_read(record, repair, area, boards, out),
            Call::Edit { offset, bytes, boards } => zbk_edit(record, repair, area, *offset, bytes, boards),
            Call::Start { fresh, helpers, stand_ins } => zbk_start(record, repair, area, fresh, helpers, stand_ins),
            Call::Step { allowance } => zbk_step(record, repair, area, packets, *allowance),
            Call::Careful { boards } => zbk_read_careful(record, repair, area, boards, out),
            Call::Move { board, point, helpers, partners } => {
                zbk_move(record, repair, area, *board, *point, helpers, partners)
            }
            Call::ReadText { text } => zbk_read_text(text, record, area, out),
            Call::Gather { text } => zbk_gather(text, out),
            Call::Prefix { text } => zbk_text_prefix(text),
            Call::TrialFile { seed } => u64::from(zbk_trial_file(*seed, out)) << 8,
        }
    }

    /// The sizes and the points that the call is given; none of those that take them from the record.
    pub fn given(&self) -> Option<(Sizes, &[u8])> {
        match self {
            Call::Share { sizes, points, .. }
            | Call::File { sizes, points, .. }
            | Call::Helper { sizes, points, .. }
            | Call::Exchange { sizes, points, .. }
            | Call::Finished { sizes, points, .. }
            | Call::Text { sizes, points, .. }
            | Call::SetUp { sizes, points, .. } => Some((*sizes, points)),
            _ => None,
        }
    }

    /// The arguments, for whoever spoils them.
    pub fn parts(&mut self) -> Parts<'_> {
        let none = Parts::default();
        match self {
            Call::Share { sizes, points, node, file } => {
                Parts { sizes: Some(sizes), points: Some(points), numbers: vec![node], slices: vec![file], ..none }
            }
            Call::File { sizes, points, length, boards, shares } => Parts {
                sizes: Some(sizes),
                points: Some(points),
                length: Some(length),
                lists: vec![boards],
                slices: vec![shares],
                ..none
            },
            Call::Helper { sizes, points, length, helper, receiver, share } => Parts {
                sizes: Some(sizes),
                points: Some(points),
                length: Some(length),
                numbers: vec![helper, receiver],
                slices: vec![share],
                ..none
            },
            Call::Exchange { sizes, points, length, board, helpers, packets, receiver } => Parts {
                sizes: Some(sizes),
                points: Some(points),
                length: Some(length),
                numbers: vec![board, receiver],
                lists: vec![helpers],
                slices: vec![packets],
                ..none
            },
            Call::Finished { sizes, points, length, board, helpers, packets, partners, partner_packets } => Parts {
                sizes: Some(sizes),
                points: Some(points),
                length: Some(length),
                numbers: vec![board],
                lists: vec![helpers, partners],
                slices: vec![packets, partner_packets],
                ..none
            },
            Call::Text { sizes, points, length, node, share } => Parts {
                sizes: Some(sizes),
                points: Some(points),
                length: Some(length),
                numbers: vec![node],
                slices: vec![share],
                ..none
            },
            Call::SetUp { sizes, points, capacity } => {
                Parts { sizes: Some(sizes), points: Some(points), capacity: Some(capacity), ..none }
            }
            Call::Write { file } => Parts { slices: vec![file], ..none },
            Call::Lose { board } => Parts { numbers: vec![board], ..none },
            Call::Repair { fresh, helpers, stand_ins } | Call::Start { fresh, helpers, stand_ins } => {
                Parts { lists: vec![fresh, helpers, stand_ins], ..none }
            }
            Call::Read { boards } | Call::Careful { boards } => Parts { lists: vec![boards], ..none },
            Call::Edit { offset, bytes, boards } => {
                Parts { offset: Some(offset), lists: vec![boards], slices: vec![bytes], ..none }
            }
            Call::Step { allowance } => Parts { allowance: Some(allowance), ..none },
            Call::Move { board, point, helpers, partners } => {
                Parts { point: Some(point), numbers: vec![board], lists: vec![helpers, partners], ..none }
            }
            Call::ReadText { text } | Call::Gather { text } | Call::Prefix { text } => {
                Parts { slices: vec![text], ..none }
            }
            // every seed and every output is taken
            Call::TrialFile { .. } => none,
        }
    }
}

/// The arguments of a call, by what they are.
#[derive(Default)]
pub struct Parts<'a> {
    pub sizes: Option<&'a mut Sizes>,
    pub points: Option<&'a mut Vec<u8>>,
    pub length: Option<&'a mut usize>,
    pub capacity: Option<&'a mut usize>,
    pub offset: Option<&'a mut usize>,
    pub allowance: Option<&'a mut usize>,
    pub point: Option<&'a mut u8>,
    pub numbers: Vec<&'a mut usize>,
    pub lists: Vec<&'a mut Vec<usize>>,
    pub slices: Vec<&'a mut Vec<u8>>,
}

impl Parts<'_> {
    /// Every board that the call names.
    pub fn named(&self) -> Vec<usize> {
        let mut boards: Vec<usize> = self.numbers.iter().map(|number| **number).collect();
        for list in &self.lists {
            boards.extend(list.iter());
        }
        boards
    }
}

/// The memory that a call is lent to change. What a call does not take is empty. A reading of a text is lent the words of the head as the record, and
/// the points to write as the area.
#[derive(Clone, Debug, Default, PartialEq, Eq)]
pub struct Lent {
    pub record: Vec<u64>,
    /// the record of a started repair, beside the store's
    pub repair: Vec<u64>,
    pub area: Vec<u8>,
    /// the packet area of a step
    pub packets: Vec<u8>,
    pub out: Vec<u8>,
}

impl Lent {
    pub fn output(out: Vec<u8>) -> Lent {
        Lent { out, ..Lent::default() }
    }

    /// What a call of the store is lent where no repair runs.
    pub fn idle(record: Vec<u64>, area: Vec<u8>, out: Vec<u8>) -> Lent {
        Lent { record, repair: vec![0; running::word::COUNT], area, packets: Vec::new(), out }
    }
}

/// All that a call answers and leaves.
#[derive(Clone, Debug, PartialEq, Eq)]
pub struct Outcome {
    pub answer: u64,
    pub lent: Lent,
}

impl Outcome {
    /// The call was refused: the number, and everything as it came.
    pub fn refused(number: u8, lent: &Lent) -> Outcome {
        Outcome { answer: u64::from(number), lent: lent.clone() }
    }

    /// The call was accepted and reports a value.
    pub fn accepted(value: usize, lent: Lent) -> Outcome {
        Outcome { answer: (value as u64) << 8, lent }
    }
}

/// A text, cut where it is long.
fn shown(text: &[u8]) -> String {
    let begin = String::from_utf8_lossy(&text[..text.len().min(400)]).into_owned();
    if text.len() > 400 {
        format!("{begin}.. {} bytes", text.len())
    } else {
        begin
    }
}

/// The call in short form: slices of bytes by their length; lists, numbers and points whole; texts up to 400 bytes.
impl fmt::Display for Call {
    fn fmt(&self, to: &mut fmt::Formatter) -> fmt::Result {
        write!(to, "{}", CALLS[self.place()].0)?;
        let given = |s: &Sizes, points: &[u8]| {
            format!("n={} k={} d={} r={}, points={}", s.n, s.k, s.d, s.r, code::pairs(points))
        };
        match self {
            Call::Share { sizes, points, node, file } => {
                write!(to, "({}, node={node}, file[{}]", given(sizes, points), file.len())
            }
            Call::File { sizes, points, length, boards, shares } => {
                write!(to, "({}, length={length}, boards={boards:?}, shares[{}]", given(sizes, points), shares.len())
            }
            Call::Helper { sizes, points, length, helper, receiver, share } => write!(
                to,
                "({}, length={length}, helper={helper}, receiver={receiver}, share[{}]",
                given(sizes, points),
                share.len()
            ),
            Call::Exchange { sizes, points, length, board, helpers, packets, receiver } => write!(
                to,
                "({}, length={length}, board={board}, helpers={helpers:?}, packets[{}], receiver={receiver}",
                given(sizes, points),
                packets.len()
            ),
            Call::Finished { sizes, points, length, board, helpers, packets, partners, partner_packets } => write!(
                to,
                "({}, length={length}, board={board}, helpers={helpers:?}, packets[{}], partners={partners:?}, \
                 partner_packets[{}]",
                given(sizes, points),
                packets.len(),
                partner_packets.len()
            ),
            Call::Text { sizes, points, length, node, share } => {
                write!(to, "({}, length={length}, node={node}, share[{}]", given(sizes, points), share.len())
            }
            Call::SetUp { sizes, points, capacity } => write!(to, "({}, capacity={capacity}", given(sizes, points)),
            Call::Write { file } => write!(to, "(file[{}]", file.len()),
            Call::Lose { board } => write!(to, "(board={board}"),
            Call::Repair { fresh, helpers, stand_ins } | Call::Start { fresh, helpers, stand_ins } => {
                write!(to, "(fresh={fresh:?}, helpers={helpers:?}, stand_ins={stand_ins:?}")
            }
            Call::Read { boards } | Call::Careful { boards } => write!(to, "(boards={boards:?}"),
            Call::Edit { offset, bytes, boards } => {
                write!(to, "(offset={offset}, bytes[{}], boards={boards:?}", bytes.len())
            }
            Call::Step { allowance } => write!(to, "(allowance={allowance}"),
            Call::Move { board, point, helpers, partners } => {
                write!(to, "(board={board}, point={point:02x}, helpers={helpers:?}, partners={partners:?}")
            }
            Call::ReadText { text } | Call::Gather { text } | Call::Prefix { text } => {
                write!(to, "(text={:?}", shown(text))
            }
            Call::TrialFile { seed } => write!(to, "(seed={seed}"),
        }?;
        write!(to, ")")
    }
}
