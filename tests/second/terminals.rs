//! A terminal that answers the lines of tablerun with the second implementation's own table.

use crate::addresses::Size;
use crate::cells::Record;
use crate::lines::{self, Line};
use crate::tables::{Cells, Table};

#[derive(Default)]
pub struct Terminal {
    pub table: Option<Table>,
    /// The lengths of the working spaces.
    spaces: (u64, u64),
}

impl Terminal {
    pub fn answer(&mut self, line: &[u8]) -> String {
        self.lawful_answer(line).unwrap_or_else(|| "? 19".to_string())
    }

    /// The answer to a line that can be read, if it is a make or there is a table to ask.
    fn lawful_answer(&mut self, line: &[u8]) -> Option<String> {
        let answer = match (lines::read(line)?, self.table.as_mut()) {
            (Line::Make { cells, size, family }, _) => self.make(cells, size, family),
            (_, None) => return None,
            (Line::Spaces(first, second), _) => {
                self.spaces = (first, second);
                "u 0".to_string()
            }
            (Line::Insert(record), _) if !(1..=9).contains(&record.numbers.1) => "i 4".to_string(),
            (Line::Insert(record), Some(table)) => match table.insert(record, self.spaces) {
                Ok(moves) => format!("i 0 {moves}"),
                Err(decline) => format!("i {decline}"),
            },
            (Line::Find(words), Some(table)) => match table.find(words) {
                Some(record) => format!("f 0 {} {}", record.numbers.0, record.numbers.1),
                None => "f -".to_string(),
            },
            (Line::Erase(words), Some(table)) => match table.erase(words) {
                Ok(record) => format!("e 0 {} {}", record.numbers.0, record.numbers.1),
                Err(decline) => format!("e {decline}"),
            },
            (Line::Count, Some(table)) => format!("n {}", table.records().count()),
            (Line::Cells, Some(table)) => cells_text(&table.cells),
        };
        Some(answer)
    }

    /// Makes a table over a new store. Where that is declined there is none.
    fn make(&mut self, cells: u64, size: Size, family: u64) -> String {
        match Table::make(new_cells(cells), size, family) {
            Ok(table) => {
                let buckets = size.buckets();
                *self = Terminal { table: Some(table), spaces: (buckets, buckets) };
                format!("m 0 {buckets}")
            }
            Err(decline) => {
                self.table = None;
                format!("m {decline}")
            }
        }
    }
}

/// The cells of a new store: each holds a record that tells which cell it is.
fn new_cells(cells: u64) -> Cells {
    (0..cells).map(|cell| Some(Record { words: (0, 0xf000_0000_0000_0000 + cell), numbers: (cell, 1) })).collect()
}

/// Cells as the answer to `c` shows them.
pub fn cells_text(cells: &[Option<Record>]) -> String {
    let mut text = "c".to_string();
    for cell in cells {
        match cell {
            Some(record) => {
                let (grower, grain) = record.numbers;
                text.push_str(&format!(" {:x}:{grower}:{grain}", record.words.1));
            }
            None => text.push_str(" -"),
        }
    }
    text
}

/// The cells that an answer to `c` shows, if it is written just so.
pub fn read_cells(text: &str) -> Option<Cells> {
    let cells: Cells = text.split(' ').skip(1).map(read_cell).collect::<Option<_>>()?;
    (cells_text(&cells) == text).then_some(cells)
}

fn read_cell(text: &str) -> Option<Option<Record>> {
    if text == "-" {
        return Some(None);
    }
    let mut parts = text.split(':');
    let tag = u64::from_str_radix(parts.next()?, 16).ok()?;
    let numbers = (parts.next()?.parse().ok()?, parts.next()?.parse().ok()?);
    Some(Some(Record { words: (0, tag), numbers }))
}
