//! A stock store for picking robots, proved: a file is spread over n shelf boards so that any k of them give it back, and up to r fresh boards are
//! rebuilt together, each from d helpers, the other fresh boards, and stand-ins for as many as there are less than r (arXiv 1207.0879, section IV).
//! This crate is a thin safe layer over the archive `libzebrankai.a`, whose calls end on all input and are proved to give what their definitions
//! say.
//!
//! [`Record`] is the store: set up, write, lose, repair, read, edit over an area that the caller lends, a careful read of k + 2 boards of which one may
//! be worn, by [`Record::read_careful`], and a repair a packet at a time, by [`Record::start`] and [`Record::step`]. The functions of [`board`] are the
//! calls that single boards make, with no record. Each board has a point, at which its share is worked out: [`Points::standard`] on present robots,
//! [`Points::first_series`] on robots of the first series; the record keeps them, and [`Record::move_board`] carries a robot from these to those while it
//! runs. [`Record::choose_read`] and [`Record::choose_lost`] choose boards by the marks, [`Record::to_bytes`] keeps the record. Every call answers with
//! its result or with one [`Refusal`], and after a refusal nothing has changed: no word of the record, no byte
//! of a lent buffer. [`trial_file`] draws the same file from one number everywhere, and refuses nothing.
//!
//! ```
//! use zebrankai::{Points, Record, Refusal, Sizes};
//!
//! let sizes = Sizes { n: 7, k: 3, d: 4, r: 2 };
//! let stock = b"aspirin 100 mg: 42 boxes\n";
//!
//! let mut area = vec![0; sizes.area_len(8)];
//! let mut record = Record::set_up(sizes, Points::standard(sizes.n), 8)?;
//! record.write(&mut area, stock)?;
//!
//! record.lose(1)?;
//! record.lose(4)?;
//! let mut file = vec![0; record.length()];
//! assert_eq!(record.read(&area, &[4, 1, 6], &mut file), Err(Refusal::Down));
//!
//! // four helpers for board 1, then four for board 4
//! let moved = record.repair(&mut area, &[1, 4], &[0, 2, 3, 5, 6, 5, 3, 2], &[])?;
//! assert_eq!(moved, sizes.stripes(stock.len()) * 2 * sizes.share_len());
//!
//! // one board alone: four helpers, and board 4 stands in for a second fresh board
//! record.lose(6)?;
//! let moved = record.repair(&mut area, &[6], &[0, 1, 2, 3], &[4])?;
//! assert_eq!(moved, sizes.stripes(stock.len()) * sizes.share_len());
//!
//! record.read(&area, &[4, 1, 6], &mut file)?;
//! assert_eq!(file, stock);
//! # Ok::<(), Refusal>(())
//! ```
//!
//! The crate needs no standard library and no heap; the lengths, what a record says, the boards that it chooses and the words of refusals are worked out
//! in this crate, and are not proved.
//!
//! The archive is linked by `build.rs`: `target/staticlib/libzebrankai.a` of this repository, which `sh tests/prove_archive.sh` makes, or the
//! file that the environment variable `ZBK_ARCHIVE` names.
#![no_std]
#![warn(missing_docs)]

pub mod board;
mod choice;
mod points;
mod record;
mod refusal;
mod sizes;
mod text;
mod trial;
mod words;

pub use choice::{Boards, Lists, RECORD_BYTES, REPAIR_BYTES};
pub use points::Points;
pub use record::{Record, RECORD_WORDS, REPAIR_WORDS};
pub use refusal::Refusal;
pub use sizes::{Sizes, MAX_BOARDS, MAX_STRIPES};
pub use trial::trial_file;
