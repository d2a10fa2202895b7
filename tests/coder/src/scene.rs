//! A file at points, and what the boards keep of it: each share is made once, when it is first asked for.

use crate::code::{self, Sizes};
use std::cell::OnceCell;

pub struct Scene {
    pub sizes: Sizes,
    pub points: Vec<u8>,
    pub file: Vec<u8>,
    shares: Vec<OnceCell<Vec<u8>>>,
}

impl Scene {
    pub fn new(sizes: Sizes, points: Vec<u8>, file: Vec<u8>) -> Scene {
        Scene { sizes, points, file, shares: vec![OnceCell::new(); sizes.n] }
    }

    pub fn length(&self) -> usize {
        self.file.len()
    }

    pub fn stripes(&self) -> usize {
        self.sizes.stripes(self.length())
    }

    pub fn share(&self, board: usize) -> &[u8] {
        self.shares[board].get_or_init(|| code::share(self.sizes, &self.points, board, &self.file))
    }
}
