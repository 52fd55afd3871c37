//! The table over its cells: make, find, erase and insert, written from the rules in docs/ alone and in the plainest way.

use crate::addresses::{hash, Layout, Size};
use crate::cells::{Record, Words};
use std::collections::{HashSet, VecDeque};
use std::ops::Range;

/// Cells as a store shows them.
pub type Cells = Vec<Option<Record>>;

pub struct Table {
    pub size: Size,
    family: u64,
    layout: Layout,
    /// The store's cells, the used ones and those past them.
    pub cells: Cells,
}

impl Table {
    /// A new table over these cells, or the decline's number.
    pub fn make(mut cells: Cells, size: Size, family: u64) -> Result<Table, u64> {
        if !size.settings_in_range() {
            return Err(1);
        }
        if (cells.len() as u64) < size.cells() {
            return Err(2);
        }
        cells[..size.cells() as usize].fill(None);
        Ok(Table { size, family, layout: Layout::new(size), cells })
    }

    /// The positions of a key's choices, in their order.
    pub fn own_buckets(&self, words: Words) -> Vec<usize> {
        let word = hash(self.family, words);
        self.layout.positions(word).into_iter().map(|position| position as usize).collect()
    }

    pub fn cells_of(&self, bucket: usize) -> Range<usize> {
        let b = self.size.b as usize;
        bucket * b..(bucket + 1) * b
    }

    pub fn bucket_of(&self, cell: usize) -> usize {
        cell / self.size.b as usize
    }

    pub fn used(&self) -> &[Option<Record>] {
        &self.cells[..self.size.cells() as usize]
    }

    /// The records, in the order of their cells.
    pub fn records(&self) -> impl Iterator<Item = Record> + '_ {
        self.used().iter().filter_map(|cell| *cell)
    }

    /// The cell of a stored key, wherever it lies.
    pub fn cell_of(&self, words: Words) -> Option<usize> {
        self.used().iter().position(|cell| cell.is_some_and(|record| record.words == words))
    }

    pub fn find(&self, words: Words) -> Option<Record> {
        self.records().find(|record| record.words == words)
    }

    /// Gives the erased record, or the decline's number.
    pub fn erase(&mut self, words: Words) -> Result<Record, u64> {
        let cell = self.cell_of(words).ok_or(7_u64)?;
        self.cells[cell].take().ok_or(7)
    }

    fn empty_cells(&self, bucket: usize) -> Vec<usize> {
        self.cells_of(bucket).filter(|cell| self.cells[*cell].is_none()).collect()
    }

    pub fn lowest_empty_cell(&self, bucket: usize) -> Option<usize> {
        self.empty_cells(bucket).first().copied()
    }

    /// The cell that a new record takes where one of its own buckets has an empty one: of the bucket with most of them, the
    /// one of the lowest choice on a tie.
    pub fn room(&self, words: Words) -> Option<usize> {
        let mut most = Vec::new();
        for bucket in self.own_buckets(words) {
            let empty = self.empty_cells(bucket);
            if empty.len() > most.len() {
                most = empty;
            }
        }
        most.first().copied()
    }

    /// Gives the number of records that changed bucket, or the decline's number. The working spaces have these lengths.
    pub fn insert(&mut self, record: Record, spaces: (u64, u64)) -> Result<u64, u64> {
        if spaces.0.min(spaces.1) < self.size.buckets() {
            return Err(5);
        }
        if self.cell_of(record.words).is_some() {
            return Err(6);
        }
        let path = match self.room(record.words) {
            Some(cell) => vec![cell],
            None => self.path(record.words).ok_or(8_u64)?,
        };
        let mut carried = Some(record);
        for cell in &path {
            std::mem::swap(&mut carried, &mut self.cells[*cell]);
        }
        Ok(path.len() as u64 - 1)
    }

    /// The cells of a shortest path from a new key's own buckets to an empty cell, which comes last.
    fn path(&self, words: Words) -> Option<Vec<usize>> {
        let mut reached = HashSet::new();
        // buckets to look at, each with the cells that are left on the way there
        let mut ahead: VecDeque<(usize, Vec<usize>)> =
            self.own_buckets(words).into_iter().map(|bucket| (bucket, Vec::new())).collect();
        while let Some((bucket, left)) = ahead.pop_front() {
            if !reached.insert(bucket) {
                continue;
            }
            let with = |cell: usize| [&left[..], &[cell]].concat();
            if let Some(cell) = self.lowest_empty_cell(bucket) {
                return Some(with(cell));
            }
            for cell in self.cells_of(bucket) {
                let displaced = self.cells[cell].expect("the bucket is full");
                for next in self.own_buckets(displaced.words) {
                    if !reached.contains(&next) {
                        ahead.push_back((next, with(cell)));
                    }
                }
            }
        }
        None
    }
}
