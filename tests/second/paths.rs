//! Paths of displaced records, seen in the cells before and after an insert.

use crate::cells::Record;
use crate::tables::Table;
use std::collections::HashSet;

/// Tells what is wrong unless the cells afterwards come from those of the table before by one path of so many displaced
/// records: the new record lies where the first one lay, each of them where the next one lay, and the last one in the cell
/// that was the lowest empty one of its bucket.
pub fn check(before: &Table, record: Record, moves: u64, after: &[Option<Record>]) -> Result<(), String> {
    let mut wanted = before.cells.clone();
    let mut visited = HashSet::new();
    let mut carried = record;
    for displaced in 0..=moves {
        let tag = carried.words.1;
        let cell = after.iter().position(|cell| *cell == Some(carried)).ok_or(format!("{tag:x} is gone"))?;
        let bucket = before.bucket_of(cell);
        if !before.own_buckets(carried.words).contains(&bucket) {
            return Err(format!("{tag:x} lies outside its own buckets, in cell {cell}"));
        }
        if !visited.insert(bucket) {
            return Err(format!("the path comes to bucket {bucket} twice"));
        }
        wanted[cell] = Some(carried);
        match before.cells[cell] {
            Some(next) if displaced < moves => carried = next,
            None if displaced == moves => {
                let lowest = before.lowest_empty_cell(bucket);
                if lowest != Some(cell) {
                    return Err(format!("{tag:x} took cell {cell}, not the lowest empty one, {lowest:?}"));
                }
            }
            _ => return Err(format!("the path ends after {displaced} moves or goes on after {moves}")),
        }
    }
    match differing(after, &wanted) {
        Some(cell) => Err(format!("cell {cell} changed too")),
        None => Ok(()),
    }
}

/// Tells what is wrong unless these cells hold the records of the table, each in one of its own buckets, and are past
/// the used ones as the table's are.
pub fn check_placing(table: &Table, shown: &[Option<Record>]) -> Result<(), String> {
    let used = table.used().len();
    if shown.len() != table.cells.len() || shown[used..] != table.cells[used..] {
        return Err("the cells past the used ones changed".to_string());
    }
    let mut wanted: HashSet<_> = table.records().map(|record| (record.words, record.numbers)).collect();
    for (cell, record) in shown[..used].iter().enumerate().filter_map(|(cell, held)| Some((cell, (*held)?))) {
        let tag = record.words.1;
        if !wanted.remove(&(record.words, record.numbers)) {
            return Err(format!("{tag:x} in cell {cell} is not stored, or it stands twice"));
        }
        if !table.own_buckets(record.words).contains(&table.bucket_of(cell)) {
            return Err(format!("{tag:x} lies outside its own buckets, in cell {cell}"));
        }
    }
    match wanted.into_iter().next() {
        Some((words, _)) => Err(format!("{:x} is gone", words.1)),
        None => Ok(()),
    }
}

/// The first cell in which two lists of cells differ.
pub fn differing(some: &[Option<Record>], others: &[Option<Record>]) -> Option<usize> {
    (0..some.len().max(others.len())).find(|cell| some.get(*cell) != others.get(*cell))
}
