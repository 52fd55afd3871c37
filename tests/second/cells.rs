//! The bytes of cells, read and written by the rules in docs/ alone.

use crate::addresses::{number, plate_words};

/// The two words of a key.
pub type Words = (u64, u64);

/// A record of either kind: its key words, then tare and day, or grower and grain code.
#[derive(Clone, Copy, Debug, PartialEq)]
pub struct Record {
    pub words: Words,
    pub numbers: (u64, u64),
}

/// What the bytes of a cell say.
#[derive(Clone, Copy, Debug, PartialEq)]
pub enum Cell {
    Empty,
    Holds(Record),
    Unlawful,
}

pub const CELL: usize = 32;

/// What the 32 bytes of a cell say in a table of this kind.
pub fn read(kind: u64, bytes: &[u8]) -> Cell {
    if bytes.iter().all(|b| *b == 0) {
        return Cell::Empty;
    }
    if bytes[0] != 1 || u64::from(bytes[1]) != kind {
        return Cell::Unlawful;
    }
    let record = if kind == 1 { tare_record(bytes) } else { tag_record(bytes) };
    record.map_or(Cell::Unlawful, Cell::Holds)
}

fn tare_record(bytes: &[u8]) -> Option<Record> {
    let words = padded_plate_words(&bytes[2..14])?;
    let (tare, day) = (number(&bytes[14..18]), number(&bytes[18..20]));
    let lawful = (1..=100_000).contains(&tare) && bytes[20..].iter().all(|b| *b == 0);
    lawful.then_some(Record { words, numbers: (tare, day) })
}

fn tag_record(bytes: &[u8]) -> Option<Record> {
    let (tag, grower, grain) = (number(&bytes[2..10]), number(&bytes[10..14]), u64::from(bytes[14]));
    let lawful = (1..=9).contains(&grain) && bytes[15..].iter().all(|b| *b == 0);
    lawful.then_some(Record { words: (0, tag), numbers: (grower, grain) })
}

/// The words of a plate padded with blanks, if it is one: without the blanks at its end it must be a plate as typed.
fn padded_plate_words(padded: &[u8]) -> Option<Words> {
    let mut text = padded;
    while let [before @ .., b' '] = text {
        text = before;
    }
    plate_words(text)
}

/// The bytes of a cell with this record.
pub fn write(kind: u64, record: Record) -> [u8; CELL] {
    let mut cell = [0; CELL];
    cell[0] = 1;
    cell[1] = kind as u8;
    let (first, second) = record.words;
    if kind == 1 {
        cell[2..10].copy_from_slice(&first.to_be_bytes());
        cell[10..14].copy_from_slice(&(second as u32).to_be_bytes());
        cell[14..18].copy_from_slice(&(record.numbers.0 as u32).to_be_bytes());
        cell[18..20].copy_from_slice(&(record.numbers.1 as u16).to_be_bytes());
    } else {
        cell[2..10].copy_from_slice(&second.to_be_bytes());
        cell[10..14].copy_from_slice(&(record.numbers.0 as u32).to_be_bytes());
        cell[14] = record.numbers.1 as u8;
    }
    cell
}

/// The words that stand where a key's bytes belong, whether or not the cell is lawful.
pub fn words_at(kind: u64, cell: &[u8]) -> Words {
    if kind == 1 {
        (number(&cell[2..10]), number(&cell[10..14]))
    } else {
        (0, number(&cell[2..10]))
    }
}
