//! Some stripes of texts of one file: a file is looked at part by part, or stripe by stripe, since each stripe stands for itself. The archive
//! works each out.

use crate::texts::{Read, Text};
use zebrankai::{board, Record, Refusal, Sizes};

/// Texts that are alike.
pub type Texts<'a> = [(&'a Text, &'a Read)];

/// Stripes one after another, and how many bytes of the file they carry.
#[derive(Clone, Copy)]
pub struct Part {
    pub first: usize,
    pub count: usize,
    length: usize,
}

/// The parts of a file, of so many stripes each; one at least, also of a file of no bytes.
pub fn parts(sizes: Sizes, length: usize, most: usize) -> impl Iterator<Item = Part> {
    let stripes = sizes.stripes(length);
    (0..stripes.max(1)).step_by(most).map(move |first| {
        let count = most.min(stripes - first);
        let before = first * sizes.stripe_len();
        Part { first, count, length: (count * sizes.stripe_len()).min(length - before) }
    })
}

impl Part {
    /// Its stripes one by one.
    pub fn stripes(self, sizes: Sizes) -> impl Iterator<Item = Part> {
        let one = move |part: Part| Part { first: self.first + part.first, ..part };
        parts(sizes, self.length, 1).map(one)
    }

    /// What a text has of it.
    fn share(self, read: &Read) -> &[u8] {
        let len = read.sizes.share_len();
        &read.share[self.first * len..(self.first + self.count) * len]
    }

    /// The file's bytes that k texts of different boards give.
    pub fn file(self, texts: &Texts) -> Result<Vec<u8>, Refusal> {
        let Read { sizes, points, .. } = *texts[0].1;
        let nodes: Vec<usize> = texts.iter().map(|(_, read)| read.node).collect();
        let shares: Vec<u8> = texts.iter().flat_map(|(_, read)| self.share(read).iter().copied()).collect();
        let mut file = vec![0; self.length];
        board::file(sizes, points, self.length, &nodes, &shares, &mut file)?;
        Ok(file)
    }

    /// The file's bytes that k + 2 texts give, by the archive's careful read of a store in which their boards are in service and hold their
    /// shares; and the odd board.
    pub fn careful(self, texts: &Texts) -> Result<(Vec<u8>, Option<usize>), Refusal> {
        let Read { sizes, points, .. } = *texts[0].1;
        // a store has room for a stripe at least, also for a file of no bytes
        let capacity = self.count.max(1);
        let mut area = vec![0; sizes.area_len(capacity)];
        let mut words = Record::set_up(sizes, points, capacity)?.words();
        // a file of this length was written, and of its boards those are in service that have a text
        (words[5], words[6]) = (1, self.length as u64);
        for (_, read) in texts {
            words[7] |= 1 << read.node;
            let share = self.share(read);
            area[read.node * capacity * sizes.share_len()..][..share.len()].copy_from_slice(share);
        }
        let named: Vec<usize> = texts.iter().map(|(_, read)| read.node).collect();
        let mut file = vec![0; self.length];
        let odd = Record::from_words(words).read_careful(&area, &named, &mut file)?;
        Ok((file, odd))
    }

    /// Whether a text has its board's share of a file's bytes.
    pub fn holds(self, read: &Read, file: &[u8]) -> Result<bool, Refusal> {
        let mut share = vec![0; self.share(read).len()];
        board::share(read.sizes, read.points, read.node, file, &mut share)?;
        Ok(share == self.share(read))
    }
}
