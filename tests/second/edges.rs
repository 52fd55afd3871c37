//! Modules at the edges of the trailer's rules: empty tables, lawful or with one rule just broken, and the longest modules.

use crate::addresses::Size;
use crate::cells::CELL;
use crate::trailers::{Trailer, LONGEST, TRAILER};

/// Empty modules on both sides of each edge. Each has the cells that its numbers ask for, so that one rule alone decides.
pub fn modules() -> Vec<Vec<u8>> {
    let base = Size { t: 2, b: 2, h: 3, x0: 1, d: 50, x: 1, j: 1 };
    let sizes = [
        base,
        Size { t: 0, j: 0, ..base },
        Size { t: 6, ..base },
        Size { t: 7, ..base },
        Size { b: 0, ..base },
        Size { b: 1, ..base },
        Size { b: 8, ..base },
        Size { b: 9, ..base },
        Size { h: 1, ..base },
        Size { h: 2, ..base },
        Size { h: 4, ..base },
        Size { h: 5, ..base },
        Size { x0: 0, x: 0, ..base },
        Size { x0: 8, x: 8, ..base },
        Size { x0: 9, x: 9, ..base },
        Size { x0: 2, ..base },
        Size { d: 0, ..base },
        Size { d: 98, ..base },
        Size { d: 99, ..base },
        Size { d: 255, ..base },
        Size { j: 3, ..base },
        Size { j: 4, ..base },
        Size { j: 256, ..base },
        // 16,384 buckets and the size one grow on
        Size { t: 0, x: 14, j: 0, ..base },
        Size { t: 0, x: 15, j: 0, ..base },
        Size { t: 2, x: 12, j: 0, ..base },
        Size { t: 2, x: 12, j: 1, ..base },
        Size { t: 6, b: 8, x0: 8, x: 8, j: 0, ..base },
        Size { t: 6, b: 8, x0: 8, x: 8, j: 1, ..base },
        Size { t: 6, x: 7, j: 63, ..base },
    ];
    let mut modules = Vec::new();
    for size in sizes {
        modules.push(empty(1, 2, size, 0, 0));
        modules.push(empty(2, 1, size, 0, 0));
        // one cell too few
        modules.push(empty(1, 1, size, -1, 0));
    }
    for (kind, family) in [(0, 1), (1, 0), (3, 1), (1, 3), (255, 2), (2, 255)] {
        modules.push(empty(kind, family, base, 0, 0));
    }
    // a distance that is no multiple of 32, and one past the module's start
    for front in [0, 1, 31, 32] {
        for more in [-32, -1, 0, 1, 31, 32] {
            let mut module = empty(1, 1, base, 1, front);
            let start = module.len() - TRAILER;
            let distance = (start - front) as i64 + more;
            module[start..start + 4].copy_from_slice(&(distance as u32).to_be_bytes());
            modules.push(module);
        }
    }
    // the end of a module, from nothing at all to more than the trailer
    let whole = empty(1, 1, base, 0, 0);
    for length in 0..2 * TRAILER {
        modules.push(whole[whole.len() - length..].to_vec());
    }
    modules
}

/// A module of empty cells, some more of them than the used ones, and `front` bytes before them.
fn empty(kind: u64, family: u64, size: Size, more: i64, front: usize) -> Vec<u8> {
    let used = ((size.subtables() + size.j) << size.x) * size.b;
    let cells = used.saturating_add_signed(more);
    let mut module = vec![0; front + CELL * cells as usize];
    module.extend(Trailer { kind, family, size, count: 0, cells }.write());
    module
}

/// Calls `ask` with modules of 2^31 bytes and of one more, made of a short lawful one. Untouched bytes cost no memory.
pub fn longest(short: &[u8], mut ask: impl FnMut(&[u8])) {
    let mut bytes = vec![0; LONGEST + 1];
    let all = bytes.len();
    // most of the bytes before the first cell
    bytes[all - short.len()..].copy_from_slice(short);
    ask(&bytes[1..]);
    ask(&bytes);
    // most of them in cells past the used ones
    let distance = LONGEST - TRAILER;
    bytes[all - short.len()..all - TRAILER].fill(0);
    bytes[all - TRAILER..all - TRAILER + 4].copy_from_slice(&(distance as u32).to_be_bytes());
    let old = u32::from_be_bytes(short[short.len() - TRAILER..][..4].try_into().expect("four bytes")) as usize;
    let first = short.len() - TRAILER - old;
    bytes[1..1 + old].copy_from_slice(&short[first..first + old]);
    ask(&bytes[1..]);
    ask(&bytes);
}
