//! Sizes, points, refusals, and the checks on lists that both levels share.

/// n boards, k read, d helpers, up to r fresh boards.
#[derive(Clone, Copy)]
pub struct Sizes {
    pub n: usize,
    pub k: usize,
    pub d: usize,
    pub r: usize,
}

/// The refusals, with their numbers; 11 is not used.
#[derive(Clone, Copy, Debug, PartialEq, Eq)]
#[repr(u8)]
pub enum Refusal {
    Size = 1,
    Area = 2,
    Long = 3,
    Count = 4,
    Node = 5,
    Repeat = 6,
    Short = 7,
    Empty = 8,
    Down = 9,
    Disagree = 10,
    Text = 12,
    Mixed = 13,
    Serving = 14,
    Range = 15,
    Busy = 16,
    Idle = 17,
}

pub const MAX_BOARDS: usize = 32;
pub const MAX_STRIPES: usize = 4096;

impl Sizes {
    pub fn legal(self) -> bool {
        let Sizes { n, k, d, r } = self;
        n <= MAX_BOARDS && d < n && r <= n - d && r >= 1 && k >= 1 && k <= d
    }

    /// Bytes of a share for each stripe.
    pub fn share_len(self) -> usize {
        2 * self.d + self.r - 1
    }

    /// Bytes of the file that a stripe carries.
    pub fn stripe_len(self) -> usize {
        self.k * (2 * self.d + self.r - self.k)
    }

    pub fn stripes(self, length: usize) -> usize {
        length.div_ceil(self.stripe_len())
    }
}

/// A point for each of 32 boards, for both variables; 00 from n up.
pub type Points = [u8; MAX_BOARDS];

/// The points of legal sizes: 32 bytes, the first n all different, the others 00.
pub fn pointed(sizes: Sizes, points: &[u8]) -> Result<Points, Refusal> {
    let points = Points::try_from(points).map_err(|_| Refusal::Size)?;
    refuse_if(!sizes.legal(), Refusal::Size)?;
    let (of_boards, rest) = points.split_at(sizes.n);
    let twice = (1..sizes.n).any(|i| of_boards[..i].contains(&of_boards[i]));
    refuse_if(twice || rest.iter().any(|&point| point != 0), Refusal::Size)?;
    Ok(points)
}

/// Refuses where the condition holds.
pub fn refuse_if(condition: bool, refusal: Refusal) -> Result<(), Refusal> {
    if condition {
        Err(refusal)
    } else {
        Ok(())
    }
}

/// Whether some board stands twice in a list; the numbers are below 32.
pub fn repeats(boards: impl IntoIterator<Item = usize>) -> bool {
    let mut seen = 0u32;
    for board in boards {
        if seen >> board & 1 == 1 {
            return true;
        }
        seen |= 1 << board;
    }
    false
}
