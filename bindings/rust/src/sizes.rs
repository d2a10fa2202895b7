//! The sizes of the code, and the lengths that follow from them.

/// The most boards.
pub const MAX_BOARDS: usize = 32;

/// The most stripes of a file, and the greatest capacity of a store.
pub const MAX_STRIPES: usize = 4096;

/// n boards, numbered 0 to n − 1; k read; d helpers; at most r fresh boards. Legal: 1 ≤ k ≤ d, r ≥ 1, d + r ≤ n ≤ 32. The calls refuse
/// sizes that are not legal; the lengths here are then 0.
#[derive(Clone, Copy, Debug, PartialEq, Eq, Hash)]
pub struct Sizes {
    /// boards
    pub n: usize,
    /// boards that give the file back
    pub k: usize,
    /// helpers of each fresh board
    pub d: usize,
    /// the most boards rebuilt together; stand-ins make up for fewer
    pub r: usize,
}

impl Sizes {
    /// Whether the calls accept these sizes.
    #[must_use]
    pub fn is_legal(self) -> bool {
        let Sizes { n, k, d, r } = self;
        n <= MAX_BOARDS && d < n && r <= n - d && 1 <= r && 1 <= k && k <= d
    }

    /// Bytes of a share for each stripe: 2d + r − 1.
    #[must_use]
    pub fn share_len(self) -> usize {
        if self.is_legal() {
            2 * self.d + self.r - 1
        } else {
            0
        }
    }

    /// Bytes of the file that a stripe carries: k(2d + r − k).
    #[must_use]
    pub fn stripe_len(self) -> usize {
        if self.is_legal() {
            self.k * (2 * self.d + self.r - self.k)
        } else {
            0
        }
    }

    /// The stripes of a file of `length` bytes: the least number that holds them.
    #[must_use]
    pub fn stripes(self, length: usize) -> usize {
        match self.stripe_len() {
            0 => 0,
            stripe_len => length.div_ceil(stripe_len),
        }
    }

    /// Bytes of a board's share of a file of `length` bytes, all stripes: what [`share`](crate::board::share) writes.
    #[must_use]
    pub fn whole_share_len(self, length: usize) -> usize {
        self.stripes(length).saturating_mul(self.share_len())
    }

    /// Bytes of the packet area of a started repair of t fresh boards; 0 where t is not 1 to r.
    #[must_use]
    pub fn packets_len(self, length: usize, t: usize) -> usize {
        if (1..=self.r).contains(&t) {
            self.whole_share_len(length).saturating_mul(t)
        } else {
            0
        }
    }

    /// The longest file of `stripes` stripes; a number that is too great for `usize` is cut to the greatest.
    #[must_use]
    pub fn longest(self, stripes: usize) -> usize {
        stripes.saturating_mul(self.stripe_len())
    }

    /// Bytes of a helper packet for a file of `length` bytes: two for each stripe.
    #[must_use]
    pub fn helper_packet_len(self, length: usize) -> usize {
        self.stripes(length).saturating_mul(2)
    }

    /// Bytes of an exchange packet for a file of `length` bytes, and of what a stand-in sends: one for each stripe.
    #[must_use]
    pub fn exchange_packet_len(self, length: usize) -> usize {
        self.stripes(length)
    }

    /// Bytes of the area of a store with room for `capacity` stripes on each board; a number that is too great for `usize` is cut to the
    /// greatest.
    #[must_use]
    pub fn area_len(self, capacity: usize) -> usize {
        self.n.saturating_mul(capacity).saturating_mul(self.share_len())
    }

    /// Bytes that are enough for the text of a share of a file of `length` bytes, at any points: two for each byte of the share, and at most 200
    /// for the rest.
    #[must_use]
    pub fn text_room(self, length: usize) -> usize {
        self.stripes(length).saturating_mul(2 * self.share_len()).saturating_add(200)
    }
}
