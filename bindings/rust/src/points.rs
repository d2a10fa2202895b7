//! The points at which boards' shares are worked out.

use crate::MAX_BOARDS;

/// A point for each board, at which its share is worked out. Of 32 bytes the first n are the boards', all different, and the rest 00. The calls
/// refuse others with [`Refusal::Size`](crate::Refusal::Size). All boards of a file have shares at the same points; those of a store change by
/// [`Record::move_board`](crate::Record::move_board) alone.
///
/// ```
/// use zebrankai::Points;
///
/// assert_eq!(Points::standard(3).of_boards(3), [0, 1, 2]);
/// assert_eq!(Points::first_series(3).of_boards(3), [1, 2, 3]);
///
/// let mut bytes = [0; 32];
/// bytes[..3].copy_from_slice(&[0x2A, 0x00, 0xFF]);
/// let points = Points::from(bytes);
/// assert_eq!((points.of_board(2), points.of_board(3), points.of_board(32)), (Some(0xFF), Some(0x00), None));
/// ```
#[derive(Clone, Copy, Debug, PartialEq, Eq, Hash)]
pub struct Points([u8; MAX_BOARDS]);

impl Points {
    /// The points of present robots: i for board i, 00 from n up. An n above 32 is taken as 32.
    #[must_use]
    pub fn standard(n: usize) -> Points {
        Points::with(n, |board| board as u8)
    }

    /// The points of robots of the first series: i + 1 for board i, 00 from n up. An n above 32 is taken as 32.
    #[must_use]
    pub fn first_series(n: usize) -> Points {
        Points::with(n, |board| board as u8 + 1)
    }

    fn with(n: usize, point: impl Fn(usize) -> u8) -> Points {
        Points(core::array::from_fn(|board| if board < n { point(board) } else { 0 }))
    }

    /// All 32 bytes.
    #[must_use]
    pub fn bytes(&self) -> &[u8; MAX_BOARDS] {
        &self.0
    }

    /// The points of the first n boards, of all 32 where n is above 32.
    #[must_use]
    pub fn of_boards(&self, n: usize) -> &[u8] {
        &self.0[..n.min(MAX_BOARDS)]
    }

    /// The point of a board, or what is kept in its place from n up; none from 32 up.
    #[must_use]
    pub fn of_board(&self, board: usize) -> Option<u8> {
        self.0.get(board).copied()
    }

    /// Whether the calls accept these points for n boards, where they accept n: the first n are all different, the rest are 00.
    #[must_use]
    pub fn are_legal(&self, n: usize) -> bool {
        let (of_boards, rest) = self.0.split_at(n.min(MAX_BOARDS));
        let different = (1..of_boards.len()).all(|board| !of_boards[..board].contains(&of_boards[board]));
        different && rest.iter().all(|&byte| byte == 0)
    }
}

impl From<[u8; MAX_BOARDS]> for Points {
    fn from(bytes: [u8; MAX_BOARDS]) -> Points {
        Points(bytes)
    }
}

impl From<Points> for [u8; MAX_BOARDS] {
    fn from(points: Points) -> [u8; MAX_BOARDS] {
        points.0
    }
}
