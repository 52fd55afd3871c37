//! Damages of modules. What a damaged module is to be answered with is not known here; the judge finds it out.

use crate::addresses::number;
use crate::cells::{self, CELL};
use crate::modules::{noise, record, Module};
use crate::random::Random;
use crate::trailers::TRAILER;

/// Damages the used cells or the count of records.
pub fn cells_or_count(random: &mut Random, module: &mut Module) {
    match random.below(11) {
        0..=2 => spoil(random, module),
        3..=5 => misplace(random, module),
        6..=8 => repeat(random, module),
        _ => miscount(random, module),
    }
}

/// Makes the bytes of a cell unlawful, or nearly so.
fn spoil(random: &mut Random, module: &mut Module) {
    let kind = module.kind;
    let any = random.below(module.used.len() as u64) as usize;
    let at = if random.chance(4) { any } else { module.some_record(random).unwrap_or(any) };
    let mut cell = module.used[at];
    module.touched.push(cells::words_at(kind, &cell));
    if cell == [0; CELL] {
        // an empty cell with a byte too many, or a record's beginning without the record
        cell[random.below(CELL as u64) as usize] = random.pick(&[1, 1, 2, b' ', 255]);
        if random.chance(4) {
            cell[0] = 1;
            cell[1] = kind as u8;
        }
    } else {
        match random.below(8) {
            0 => cell[0] = random.pick(&[0, 2, 129, 255]),
            1 => cell[1] = random.pick(&[0, 3 - kind as u8, 3, 255]),
            2 => {
                let rest = if kind == 1 { 20 } else { 15 };
                let within = rest + random.below((CELL - rest) as u64) as usize;
                cell[random.pick(&[rest, within, CELL - 1])] = random.pick(&[1, 128, 255]);
            }
            3 if kind == 1 => {
                let tare: u32 = random.pick(&[0, 100_001, 1 << 24, 65_536 + 100_000, u32::MAX]);
                cell[14..18].copy_from_slice(&tare.to_be_bytes());
            }
            3 => cell[14] = random.pick(&[0, 10, 16, 255]),
            4 if kind == 1 => cell[2..14].copy_from_slice(&[b' '; 12]),
            5 if kind == 1 => {
                // a blank inside, a character behind blanks, or one that no plate has
                let at = 2 + random.below(12) as usize;
                cell[at] = random.pick(b"      AAA999@[`az/:\0\x1f\x7f\xc1");
            }
            6 => cell = noise(random),
            7 => {
                // a lawful record, but of the other kind
                let other = 3 - kind;
                cell = cells::write(other, record(random, other));
            }
            _ => cell[random.below(CELL as u64) as usize] ^= 1 << random.below(8),
        }
    }
    module.used[at] = cell;
    module.touched.push(cells::words_at(kind, &cell));
}

/// Moves a record or gives it another key, so that it most often lies outside its own buckets.
fn misplace(random: &mut Random, module: &mut Module) {
    let Some(at) = module.some_record(random) else {
        return;
    };
    module.touched.push(module.words_at(at));
    if random.chance(2) {
        let to = random.below(module.used.len() as u64) as usize;
        module.touched.push(module.words_at(to));
        module.used.swap(at, to);
    } else {
        let mut other = record(random, module.kind);
        let (first, second) = module.words_at(at);
        if module.kind == 2 && random.chance(2) {
            // one bit of the tag
            other.words = (first, second ^ 1 << random.below(64));
        }
        module.used[at] = cells::write(module.kind, other);
        module.touched.push(other.words);
    }
}

/// Puts the key of a record, with numbers of its own, into another cell of its own buckets, or now and then into any.
fn repeat(random: &mut Random, module: &mut Module) {
    let Some(at) = module.some_record(random) else {
        return;
    };
    let words = module.words_at(at);
    let mut others = module.own_cells(words);
    if random.chance(12) {
        others = (0..module.used.len()).collect();
    }
    others.retain(|cell| *cell != at);
    let free: Vec<usize> = others.iter().copied().filter(|cell| module.used[*cell] == [0; CELL]).collect();
    if others.is_empty() {
        return;
    }
    let to = if free.is_empty() { random.pick(&others) } else { random.pick(&free) };
    module.touched.push(words);
    module.touched.push(module.words_at(to));
    // the count may take the second one in or not
    if !free.is_empty() && random.chance(2) {
        module.count += 1;
    }
    let mut second = record(random, module.kind);
    second.words = words;
    module.used[to] = cells::write(module.kind, second);
}

/// Makes the count wrong, most often by one, by the number itself or by the records.
fn miscount(random: &mut Random, module: &mut Module) {
    match random.below(6) {
        0 | 1 => module.count = module.count.wrapping_add(1),
        2 | 3 => module.count = module.count.wrapping_sub(1),
        4 => module.count ^= 1 << random.below(32),
        _ if random.chance(2) => {
            if let Some(at) = module.some_record(random) {
                module.touched.push(module.words_at(at));
                module.used[at] = [0; CELL];
            }
        }
        _ => {
            let added = record(random, module.kind);
            let own = module.own_cells(added.words);
            if let Some(free) = own.into_iter().find(|cell| module.used[*cell] == [0; CELL]) {
                module.used[free] = cells::write(module.kind, added);
                module.touched.push(added.words);
            }
        }
    }
}

/// Where each number of the trailer begins, and its bytes; the count is not among them.
const FIELDS: [(usize, usize); 10] =
    [(0, 4), (4, 1), (5, 1), (6, 1), (7, 1), (8, 1), (9, 1), (10, 1), (11, 1), (12, 2)];

/// Damages the trailer of a module or its length.
pub fn trailer_or_length(random: &mut Random, bytes: &mut Vec<u8>) {
    let start = bytes.len() - TRAILER;
    match random.below(8) {
        0 => {
            let at = start + 18 + random.below(14) as usize;
            bytes[at] = random.pick(&[1, 1, 128, 255]);
        }
        1 | 2 => length(random, bytes),
        _ => {
            let (at, width) = random.pick(&FIELDS);
            let field = &mut bytes[start + at..start + at + width];
            let value = number(field);
            let value = match random.below(6) {
                0 | 1 => value.wrapping_add(1),
                2 | 3 => value.wrapping_sub(1),
                4 => random.pick(&[0, 1, 2, 3, 5, 7, 9, 15, 16, 32, 63, 64, 99, 128, 255]),
                _ => {
                    let any = random.word();
                    random.pick(&[value.wrapping_add(32), value.wrapping_sub(32), 256, any])
                }
            };
            field.copy_from_slice(&value.to_be_bytes()[8 - width..]);
        }
    }
}

/// Cuts bytes off or puts some in.
fn length(random: &mut Random, bytes: &mut Vec<u8>) {
    let all = bytes.len();
    let some = random.below(2 * CELL as u64 + 2) as usize;
    match random.below(6) {
        // the trailer and a little
        0 => drop(bytes.drain(..all - some.min(all))),
        // the front, down to the first cell, or one byte less or more
        1 => {
            let wanted = number(&bytes[all - TRAILER..all - TRAILER + 4]) as usize + TRAILER;
            let keep = random.pick(&[wanted, wanted - 1, wanted + 1]).min(all);
            bytes.drain(..all - keep);
        }
        // the end
        2 => bytes.truncate(all - some.min(all)),
        3 => bytes.truncate(random.below(40) as usize),
        // bytes behind the trailer, or before everything
        4 => bytes.extend(std::iter::repeat_n(0, 1 + some)),
        _ => drop(bytes.splice(..0, std::iter::repeat_n(7, some))),
    }
}
