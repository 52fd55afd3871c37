//! The trailer of a module, read and written by the rules in docs/ alone.

use crate::addresses::{number, Size};
use crate::cells::CELL;

pub const TRAILER: usize = 32;
pub const LONGEST: usize = 1 << 31;

/// What a lawful trailer says.
#[derive(Clone, Copy, Debug)]
pub struct Trailer {
    pub kind: u64,
    pub family: u64,
    pub size: Size,
    /// The count of records.
    pub count: u64,
    /// The module's cells, the used ones and those past them.
    pub cells: u64,
}

impl Trailer {
    /// The trailer of a module, if it is lawful.
    pub fn read(module: &[u8]) -> Option<Trailer> {
        if module.len() < TRAILER || module.len() > LONGEST {
            return None;
        }
        let (before, trailer) = module.split_at(module.len() - TRAILER);
        let distance = number(&trailer[0..4]);
        let kind = number(&trailer[4..5]);
        let family = number(&trailer[5..6]);
        let size = Size {
            t: number(&trailer[6..7]),
            b: number(&trailer[7..8]),
            h: number(&trailer[8..9]),
            x0: number(&trailer[9..10]),
            x: number(&trailer[10..11]),
            d: number(&trailer[11..12]),
            j: number(&trailer[12..14]),
        };
        let count = number(&trailer[14..18]);
        if !(1..=2).contains(&kind) || !(1..=2).contains(&family) {
            return None;
        }
        if !size.settings_in_range() || !size.is_size() {
            return None;
        }
        let cell = CELL as u64;
        if distance % cell != 0 || distance < cell * size.cells() || distance > before.len() as u64 {
            return None;
        }
        if trailer[18..].iter().any(|b| *b != 0) {
            return None;
        }
        Some(Trailer { kind, family, size, count, cells: distance / cell })
    }

    /// The bytes of a trailer with these numbers, lawful or not.
    pub fn write(&self) -> [u8; TRAILER] {
        let mut bytes = [0; TRAILER];
        let size = self.size;
        bytes[0..4].copy_from_slice(&((CELL as u64 * self.cells) as u32).to_be_bytes());
        let numbers = [self.kind, self.family, size.t, size.b, size.h, size.x0, size.x, size.d];
        for (byte, number) in bytes[4..12].iter_mut().zip(numbers) {
            *byte = number as u8;
        }
        bytes[12..14].copy_from_slice(&(size.j as u16).to_be_bytes());
        bytes[14..18].copy_from_slice(&(self.count as u32).to_be_bytes());
        bytes
    }
}
