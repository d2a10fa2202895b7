//! Shares from texts: the calls that take back what [`share_text`](crate::board::share_text) writes, and the one that says how far a text makes sense.

use crate::refusal::result;
use crate::{Points, Refusal, Sizes, MAX_BOARDS};

/// The words of a text's head: n, k, d, r, board, length.
const HEAD_WORDS: usize = 6;

// As include/zebrankai.h declares them.
extern "C" {
    fn zbk_read_text(
        text: *const u8,
        text_len: usize,
        head: *mut u64,
        head_words: usize,
        points: *mut u8,
        points_len: usize,
        out: *mut u8,
        out_len: usize,
    ) -> u64;
    fn zbk_gather(text: *const u8, text_len: usize, out: *mut u8, out_len: usize) -> u64;
    fn zbk_text_prefix(text: *const u8, text_len: usize) -> u64;
}

/// What a text says of its share, and how many bytes the share has.
#[derive(Clone, Copy, Debug, PartialEq, Eq, Hash)]
pub struct TextRead {
    /// the sizes of the code
    pub sizes: Sizes,
    /// the points of the boards, whether a line of the text has them or not
    pub points: Points,
    /// the board whose share it is
    pub node: usize,
    /// the file's length
    pub length: usize,
    /// the bytes of the share, which are the first of the output
    pub written: usize,
}

/// Reads one text: its share goes to the first bytes of `out`, and the rest of `out` stays. Half as many bytes as the text has are always enough.
/// Only the bytes that [`share_text`](crate::board::share_text) can write are a text, all of them and nothing behind; any other are
/// [`Refusal::Text`], no bytes too.
///
/// ```
/// use zebrankai::{board, Points, Refusal, Sizes};
///
/// let text = b"n=2\nk=1\nd=1\nr=1\nnode=0\nlength=2\ndata=0506\n";
/// let mut share = [0; 2];
/// let read = board::read_text(text, &mut share)?;
/// assert_eq!((read.sizes, read.points), (Sizes { n: 2, k: 1, d: 1, r: 1 }, Points::standard(2)));
/// assert_eq!((read.node, read.length, read.written, share), (0, 2, 2, [5, 6]));
/// # Ok::<(), Refusal>(())
/// ```
///
/// # Errors
///
/// [`Refusal::Text`] where the bytes are no text, then [`Refusal::Short`]; `out` is then as it was.
pub fn read_text(text: &[u8], out: &mut [u8]) -> Result<TextRead, Refusal> {
    let mut head = [0; HEAD_WORDS];
    let mut points = [0; MAX_BOARDS];
    let written = result(unsafe {
        zbk_read_text(
            text.as_ptr(),
            text.len(),
            head.as_mut_ptr(),
            head.len(),
            points.as_mut_ptr(),
            points.len(),
            out.as_mut_ptr(),
            out.len(),
        )
    })?;
    let [n, k, d, r, node, length] = head.map(|word| word as usize);
    Ok(TextRead { sizes: Sizes { n, k, d, r }, points: Points::from(points), node, length, written })
}

/// The file of k texts that stand one after another in `text`, in any order and with nothing between them; answers its length. Half as many bytes
/// as the texts have are always enough for `out`.
///
/// # Errors
///
/// The first that holds: [`Refusal::Text`] where some bytes are no text, [`Refusal::Mixed`] where two texts differ in sizes, points or length,
/// [`Refusal::Count`] where they are not k, as where there is no text at all, [`Refusal::Repeat`], [`Refusal::Short`], [`Refusal::Disagree`]; `out` is then
/// as it was.
pub fn gather(text: &[u8], out: &mut [u8]) -> Result<usize, Refusal> {
    result(unsafe { zbk_gather(text.as_ptr(), text.len(), out.as_mut_ptr(), out.len()) })
}

/// How far a text makes sense: the length of its longest beginning that also begins some text that [`share_text`](crate::board::share_text) writes,
/// with a line of points or without. The byte behind that beginning, if there is one, is the first that no such text has there. It refuses nothing: a text that
/// [`read_text`] takes gives its whole length, and so does one that is merely cut short; no bytes give 0.
///
/// ```
/// use zebrankai::board;
///
/// // n is at most 32
/// assert_eq!(board::text_prefix(b"n=33\nk=1\n"), 3);
/// // k is below n
/// assert_eq!(board::text_prefix(b"n=5\nk=5\n"), 6);
/// // cut short
/// assert_eq!(board::text_prefix(b"n=5\nk=2\nd="), 10);
/// ```
#[must_use]
pub fn text_prefix(text: &[u8]) -> usize {
    result(unsafe { zbk_text_prefix(text.as_ptr(), text.len()) }).expect("the archive refuses no text here")
}
