//! The calls of single boards. They keep no record: each is given the sizes, the points and the file's length. Each writes to the first bytes of
//! `out` and answers how many; the rest of `out` stays. Lists of shares and packets are one slice, the pieces one after another in the order of
//! their list of boards. The three calls that read texts are given these alone; [`text_prefix`] writes nothing.

use crate::refusal::result;
use crate::{Points, Refusal, Sizes};

pub use crate::text::{gather, read_text, text_prefix, TextRead};

// The calls of single boards, as include/zebrankai.h declares them.
extern "C" {
    fn zbk_share(
        n: usize,
        k: usize,
        d: usize,
        r: usize,
        points: *const u8,
        points_len: usize,
        node: usize,
        file: *const u8,
        file_len: usize,
        out: *mut u8,
        out_len: usize,
    ) -> u64;
    fn zbk_file(
        n: usize,
        k: usize,
        d: usize,
        r: usize,
        points: *const u8,
        points_len: usize,
        length: usize,
        boards: *const usize,
        boards_count: usize,
        shares: *const u8,
        shares_len: usize,
        out: *mut u8,
        out_len: usize,
    ) -> u64;
    fn zbk_helper_packet(
        n: usize,
        k: usize,
        d: usize,
        r: usize,
        points: *const u8,
        points_len: usize,
        length: usize,
        helper: usize,
        receiver: usize,
        share: *const u8,
        share_len: usize,
        out: *mut u8,
        out_len: usize,
    ) -> u64;
    fn zbk_exchange_packet(
        n: usize,
        k: usize,
        d: usize,
        r: usize,
        points: *const u8,
        points_len: usize,
        length: usize,
        board: usize,
        helpers: *const usize,
        helpers_count: usize,
        packets: *const u8,
        packets_len: usize,
        receiver: usize,
        out: *mut u8,
        out_len: usize,
    ) -> u64;
    fn zbk_finished_share(
        n: usize,
        k: usize,
        d: usize,
        r: usize,
        points: *const u8,
        points_len: usize,
        length: usize,
        board: usize,
        helpers: *const usize,
        helpers_count: usize,
        packets: *const u8,
        packets_len: usize,
        partners: *const usize,
        partners_count: usize,
        partner_packets: *const u8,
        partner_packets_len: usize,
        out: *mut u8,
        out_len: usize,
    ) -> u64;
    fn zbk_share_text(
        n: usize,
        k: usize,
        d: usize,
        r: usize,
        points: *const u8,
        points_len: usize,
        length: usize,
        node: usize,
        share: *const u8,
        share_len: usize,
        out: *mut u8,
        out_len: usize,
    ) -> u64;
}

// Safety, for every call below: a slice is handed over as its pointer and its length, so it is valid for as many elements; the pointer of a
// slice is never null; and `out` is lent to this call alone, so it overlaps nothing else.

/// The share of board `node` of a file.
///
/// # Errors
///
/// [`Refusal::Size`], [`Refusal::Long`], [`Refusal::Node`] or [`Refusal::Short`], the first that holds; `out` is then as it was.
pub fn share(sizes: Sizes, points: Points, node: usize, file: &[u8], out: &mut [u8]) -> Result<usize, Refusal> {
    let Sizes { n, k, d, r } = sizes;
    let points = points.bytes();
    result(unsafe {
        zbk_share(
            n,
            k,
            d,
            r,
            points.as_ptr(),
            points.len(),
            node,
            file.as_ptr(),
            file.len(),
            out.as_mut_ptr(),
            out.len(),
        )
    })
}

/// The file of `length` bytes that k boards' shares give; refused with [`Refusal::Disagree`] where no file of that length has them.
///
/// # Errors
///
/// [`Refusal::Size`], [`Refusal::Long`], [`Refusal::Count`], [`Refusal::Node`], [`Refusal::Repeat`], [`Refusal::Area`], [`Refusal::Short`] or
/// [`Refusal::Disagree`], the first that holds; `out` is then as it was.
pub fn file(
    sizes: Sizes,
    points: Points,
    length: usize,
    boards: &[usize],
    shares: &[u8],
    out: &mut [u8],
) -> Result<usize, Refusal> {
    let Sizes { n, k, d, r } = sizes;
    let points = points.bytes();
    result(unsafe {
        zbk_file(
            n,
            k,
            d,
            r,
            points.as_ptr(),
            points.len(),
            length,
            boards.as_ptr(),
            boards.len(),
            shares.as_ptr(),
            shares.len(),
            out.as_mut_ptr(),
            out.len(),
        )
    })
}

/// What `helper` sends to the fresh board `receiver`, from its own share.
///
/// # Errors
///
/// [`Refusal::Size`], [`Refusal::Long`], [`Refusal::Node`], [`Refusal::Repeat`], [`Refusal::Area`] or [`Refusal::Short`], the first that holds;
/// `out` is then as it was.
pub fn helper_packet(
    sizes: Sizes,
    points: Points,
    length: usize,
    helper: usize,
    receiver: usize,
    share: &[u8],
    out: &mut [u8],
) -> Result<usize, Refusal> {
    let Sizes { n, k, d, r } = sizes;
    let points = points.bytes();
    result(unsafe {
        zbk_helper_packet(
            n,
            k,
            d,
            r,
            points.as_ptr(),
            points.len(),
            length,
            helper,
            receiver,
            share.as_ptr(),
            share.len(),
            out.as_mut_ptr(),
            out.len(),
        )
    })
}

/// What the fresh board `board` sends to the fresh board `receiver`, from the packets of its d helpers.
///
/// # Errors
///
/// [`Refusal::Size`], [`Refusal::Long`], [`Refusal::Count`], [`Refusal::Node`], [`Refusal::Repeat`], [`Refusal::Area`] or [`Refusal::Short`], the
/// first that holds; `out` is then as it was.
#[allow(clippy::too_many_arguments)]
pub fn exchange_packet(
    sizes: Sizes,
    points: Points,
    length: usize,
    board: usize,
    helpers: &[usize],
    packets: &[u8],
    receiver: usize,
    out: &mut [u8],
) -> Result<usize, Refusal> {
    let Sizes { n, k, d, r } = sizes;
    let points = points.bytes();
    result(unsafe {
        zbk_exchange_packet(
            n,
            k,
            d,
            r,
            points.as_ptr(),
            points.len(),
            length,
            board,
            helpers.as_ptr(),
            helpers.len(),
            packets.as_ptr(),
            packets.len(),
            receiver,
            out.as_mut_ptr(),
            out.len(),
        )
    })
}

/// The share of the fresh board `board`, from the packets of its d helpers and of its r − 1 partners. A partner is another fresh board, which sends
/// its exchange packet, or a stand-in, which sends the second byte of each pair of its helper packet.
///
/// # Errors
///
/// [`Refusal::Size`], [`Refusal::Long`], [`Refusal::Count`], [`Refusal::Node`], [`Refusal::Repeat`], [`Refusal::Area`] or [`Refusal::Short`], the
/// first that holds; `out` is then as it was.
#[allow(clippy::too_many_arguments)]
pub fn finished_share(
    sizes: Sizes,
    points: Points,
    length: usize,
    board: usize,
    helpers: &[usize],
    packets: &[u8],
    partners: &[usize],
    partner_packets: &[u8],
    out: &mut [u8],
) -> Result<usize, Refusal> {
    let Sizes { n, k, d, r } = sizes;
    let points = points.bytes();
    result(unsafe {
        zbk_finished_share(
            n,
            k,
            d,
            r,
            points.as_ptr(),
            points.len(),
            length,
            board,
            helpers.as_ptr(),
            helpers.len(),
            packets.as_ptr(),
            packets.len(),
            partners.as_ptr(),
            partners.len(),
            partner_packets.as_ptr(),
            partner_packets.len(),
            out.as_mut_ptr(),
            out.len(),
        )
    })
}

/// A share as text: seven lines, the sizes, the board, the length and the share in hexadecimal, and before the share a line with the points of the
/// n boards where they are not 0 to n − 1 in order. [`Sizes::text_room`] bytes are enough.
///
/// # Errors
///
/// [`Refusal::Size`], [`Refusal::Long`], [`Refusal::Node`], [`Refusal::Area`] or [`Refusal::Short`], the first that holds; `out` is then as it was.
pub fn share_text(
    sizes: Sizes,
    points: Points,
    length: usize,
    node: usize,
    share: &[u8],
    out: &mut [u8],
) -> Result<usize, Refusal> {
    let Sizes { n, k, d, r } = sizes;
    let points = points.bytes();
    result(unsafe {
        zbk_share_text(
            n,
            k,
            d,
            r,
            points.as_ptr(),
            points.len(),
            length,
            node,
            share.as_ptr(),
            share.len(),
            out.as_mut_ptr(),
            out.len(),
        )
    })
}
