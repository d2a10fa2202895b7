//! The refusals, and what an answer of the archive says.

use core::error::Error;
use core::fmt;

/// Why a call was refused. Where several hold, the first is given: of the store in the order 1, 2, 3, 8, 16, 17, 15, 4, 5, 6, 14, 9, 7, 10, at
/// board level in the order 12, 1, 3, 13, 4, 5, 6, 2, 7, 10. 11 is not used: no call answers it.
///
/// Its words, [`name`](Refusal::name), [`sentence`](Refusal::sentence), [`who`](Refusal::who) and [`remedy`](Refusal::remedy), are those of
/// docs/REFUSALS.md.
///
/// Later calls bring further refusals, so a `match` on it needs an arm for the others:
///
/// ```compile_fail,E0004
/// use zebrankai::Refusal;
///
/// fn remedy(refusal: Refusal) -> &'static str {
///     use Refusal::*;
///     match refusal {
///         Down | Serving => "another board",
///         Busy | Idle => "another time",
///         Size | Area | Long | Count | Node | Repeat | Short | Empty | Disagree | Text | Mixed | Range => "ask the installer",
///     }
/// }
/// ```
#[derive(Clone, Copy, Debug, PartialEq, Eq, Hash)]
#[non_exhaustive]
#[repr(u8)]
pub enum Refusal {
    /// The sizes are not legal, the capacity is out of range, the record is one that no call hands out, the points repeat, or one from n up is
    /// not 00; or a repair is running by words that no call hands out beside this record.
    Size = 1,
    /// A lent area, share or packet slice, or the packet area of a repair that is running, has another length than the sizes give.
    Area = 2,
    /// The file is too long.
    Long = 3,
    /// A list has the wrong number of boards, or k + 2 is above n in a careful read, or there are not 1 to r fresh boards, or the texts to gather are
    /// not k.
    Count = 4,
    /// A board number is n or more.
    Node = 5,
    /// A board is named twice, or the new point of a move is some board's.
    Repeat = 6,
    /// The output is too short.
    Short = 7,
    /// No file was written yet.
    Empty = 8,
    /// A named board is out of service, or any board, for a move.
    Down = 9,
    /// The shares belong to no file of this length; of a careful read, no k + 1 of them belong to one. It is no guard against altered bytes: k
    /// boards show that they fit together, not that none is altered ([`Record::read`](crate::Record::read)).
    Disagree = 10,
    /// The text is none that [`share_text`](crate::board::share_text) writes.
    Text = 12,
    /// The texts differ in sizes, points or length.
    Mixed = 13,
    /// A fresh board is in service.
    Serving = 14,
    /// The edit goes beyond the end of the file.
    Range = 15,
    /// A repair is running.
    Busy = 16,
    /// No repair is running.
    Idle = 17,
}

impl Refusal {
    /// All refusals, in the order of their numbers.
    pub const ALL: &'static [Refusal] = &[
        Refusal::Size,
        Refusal::Area,
        Refusal::Long,
        Refusal::Count,
        Refusal::Node,
        Refusal::Repeat,
        Refusal::Short,
        Refusal::Empty,
        Refusal::Down,
        Refusal::Disagree,
        Refusal::Text,
        Refusal::Mixed,
        Refusal::Serving,
        Refusal::Range,
        Refusal::Busy,
        Refusal::Idle,
    ];

    /// The refusal with a number; none where no refusal has it.
    #[must_use]
    pub fn from_number(number: u8) -> Option<Refusal> {
        Refusal::ALL.iter().copied().find(|refusal| refusal.number() == number)
    }

    /// The refusal with a name, in capital or small letters; none where no refusal has it.
    ///
    /// ```
    /// use zebrankai::Refusal;
    ///
    /// assert_eq!(Refusal::from_name("disagree"), Some(Refusal::Disagree));
    /// assert_eq!(Refusal::from_name("POINTS"), None);
    /// ```
    #[must_use]
    pub fn from_name(name: &str) -> Option<Refusal> {
        Refusal::ALL.iter().copied().find(|refusal| refusal.name().eq_ignore_ascii_case(name))
    }

    /// The refusal's number.
    #[must_use]
    pub const fn number(self) -> u8 {
        self as u8
    }
}

/// Name, number and [`sentence`](Refusal::sentence): what it means. Who acts is [`who`](Refusal::who), what to do [`remedy`](Refusal::remedy).
impl fmt::Display for Refusal {
    fn fmt(&self, to: &mut fmt::Formatter) -> fmt::Result {
        write!(to, "{} ({}): {}", self.name(), self.number(), self.sentence())
    }
}

impl Error for Refusal {}

/// What an answer of the archive says: the refusal's number is in its low eight bits, what an accepted call reports above them.
pub(crate) fn result(answer: u64) -> Result<usize, Refusal> {
    match (answer & 255) as u8 {
        0 => Ok((answer >> 8) as usize),
        number => Err(Refusal::from_number(number).expect("the archive answers with these numbers only")),
    }
}
