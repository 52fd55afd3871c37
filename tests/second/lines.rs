//! The lines that tablerun reads.

use crate::addresses::Size;
use crate::cells::{Record, Words};
use crate::report::tag_words;

/// What a line asks for. The settings of a table and a record's grain code may be outside their ranges.
pub enum Line {
    Make { cells: u64, size: Size, family: u64 },
    Spaces(u64, u64),
    Insert(Record),
    Find(Words),
    Erase(Words),
    Count,
    Cells,
}

/// Cells of a store, and numbers of a working space, at most.
pub const MOST: u64 = 200_000;

/// What a line asks for, if it can be read.
pub fn read(line: &[u8]) -> Option<Line> {
    let text = std::str::from_utf8(line).ok()?;
    let fields: Vec<&str> = text.split(' ').collect();
    match fields[..] {
        ["m", "p" | "b" | "j" | "w", cells, t, b, h, x0, d, family] => {
            let x0 = number(x0)?;
            let size = Size { t: number(t)?, b: number(b)?, h: number(h)?, x0, d: number(d)?, x: x0, j: 0 };
            let family = number(family).filter(|family| (1..=2).contains(family))?;
            Some(Line::Make { cells: length(cells)?, size, family })
        }
        ["u", first, second] => Some(Line::Spaces(length(first)?, length(second)?)),
        ["i", tag, grower, grain] => {
            let words = tag_words(tag.as_bytes())?;
            Some(Line::Insert(Record { words, numbers: (number(grower)?, number(grain)?) }))
        }
        ["f", tag] => Some(Line::Find(tag_words(tag.as_bytes())?)),
        ["e", tag] => Some(Line::Erase(tag_words(tag.as_bytes())?)),
        ["n"] => Some(Line::Count),
        ["c"] => Some(Line::Cells),
        _ => None,
    }
}

/// 1 to 10 decimal digits of a 32-bit number.
fn number(text: &str) -> Option<u64> {
    let lawful = (1..=10).contains(&text.len()) && text.bytes().all(|byte| byte.is_ascii_digit());
    text.parse().ok().filter(|number| lawful && *number <= u64::from(u32::MAX))
}

fn length(text: &str) -> Option<u64> {
    number(text).filter(|length| *length <= MOST)
}
