//! Rows of bytes over the field: sums of their multiples, and sums of products.

use plain::field::{add_multiple, multiply};

/// Rows of one width, which is not 0.
#[derive(Clone)]
pub struct Rows {
    width: usize,
    bytes: Vec<u8>,
}

impl Rows {
    /// So many rows of 00.
    pub fn new(count: usize, width: usize) -> Rows {
        Rows { width, bytes: vec![0; count * width] }
    }

    pub fn row(&self, i: usize) -> &[u8] {
        &self.bytes[i * self.width..][..self.width]
    }

    pub fn row_mut(&mut self, i: usize) -> &mut [u8] {
        &mut self.bytes[i * self.width..][..self.width]
    }

    pub fn iter(&self) -> impl DoubleEndedIterator<Item = &[u8]> + Clone {
        self.bytes.chunks_exact(self.width)
    }

    /// Byte j of each row.
    pub fn column(&self, j: usize) -> impl Iterator<Item = u8> + '_ {
        self.iter().map(move |row| row[j])
    }

    /// Sets a row to these bytes.
    pub fn set_row(&mut self, i: usize, bytes: impl Iterator<Item = u8>) {
        for (byte, new) in self.row_mut(i).iter_mut().zip(bytes) {
            *byte = new;
        }
    }

    /// A row more.
    pub fn push(&mut self, row: impl Iterator<Item = u8>) {
        self.bytes.extend(row.take(self.width));
        assert_eq!(self.bytes.len() % self.width, 0, "the row is too short");
    }
}

/// Adds each factor times its row.
pub fn add_multiples<'a>(sum: &mut [u8], factors: impl Iterator<Item = u8>, rows: impl Iterator<Item = &'a [u8]>) {
    for (factor, row) in factors.zip(rows) {
        add_multiple(sum, factor, row);
    }
}

/// The sum of the products of the bytes of two rows.
pub fn dot(a: &[u8], b: &[u8]) -> u8 {
    a.iter().zip(b).fold(0, |sum, (&a, &b)| sum ^ multiply(a, b))
}
