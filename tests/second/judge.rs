//! Check and find in a module, written from the rules in docs/ alone and in the plainest way.

use crate::addresses::{hash, Layout};
use crate::cells::{self, Cell, Record, Words, CELL};
use crate::trailers::{Trailer, TRAILER};
use std::collections::HashSet;

/// What check says: 0 or a decline's number, and the cell that it names.
#[derive(Clone, Copy, Debug, PartialEq)]
pub struct Verdict {
    pub number: u64,
    pub cell: Option<u64>,
}

/// A module whose trailer is lawful.
pub struct Table {
    pub trailer: Trailer,
    layout: Layout,
    /// What the used cells say, in their order.
    used: Vec<Cell>,
}

impl Table {
    /// The table of a module, if its trailer is lawful.
    pub fn open(module: &[u8]) -> Option<Table> {
        let trailer = Trailer::read(module)?;
        let first = module.len() - TRAILER - CELL * trailer.cells as usize;
        let used = module[first..]
            .chunks(CELL)
            .take(trailer.size.cells() as usize)
            .map(|bytes| cells::read(trailer.kind, bytes))
            .collect();
        Some(Table { trailer, layout: Layout::new(trailer.size), used })
    }

    /// The positions of a key's choices, in their order.
    fn own_buckets(&self, words: Words) -> Vec<u64> {
        self.layout.positions(hash(self.trailer.family, words))
    }

    pub fn check(&self) -> Verdict {
        let mut seen = HashSet::new();
        for (cell, said) in (0..).zip(&self.used) {
            let number = match said {
                Cell::Empty => 0,
                Cell::Unlawful => 15,
                Cell::Holds(record) => {
                    let earlier = !seen.insert(record.words);
                    let bucket = cell / self.trailer.size.b;
                    if !self.own_buckets(record.words).contains(&bucket) {
                        16
                    } else if earlier {
                        17
                    } else {
                        0
                    }
                }
            };
            if number != 0 {
                return Verdict { number, cell: Some(cell) };
            }
        }
        // no cell is faulty, so every record was seen once
        let number = if seen.len() as u64 == self.trailer.count { 0 } else { 18 };
        Verdict { number, cell: None }
    }

    /// The cell in which a key is found, and its record.
    pub fn find(&self, words: Words) -> Option<(u64, Record)> {
        for bucket in self.own_buckets(words) {
            for cell in bucket * self.trailer.size.b..(bucket + 1) * self.trailer.size.b {
                match self.used[cell as usize] {
                    Cell::Holds(record) if record.words == words => return Some((cell, record)),
                    _ => {}
                }
            }
        }
        None
    }
}
