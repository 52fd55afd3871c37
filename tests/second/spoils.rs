//! Lines that cannot be read: lawful ones, spoiled.

use crate::lines;
use crate::random::Random;

/// Lines that are lawful but for one thing.
const BAD: [&[u8]; 60] = [
    b"",
    b" ",
    b"  ",
    b"?",
    b"x",
    b"N",
    b"C",
    b"n ",
    b" n",
    b"c ",
    b"c c",
    b"n\r",
    b"c\t",
    b"n 1",
    b"nn",
    b"f",
    b"f ",
    b"f  5",
    b"f 5 ",
    b"f 0x5",
    b"f g",
    b"f -",
    b"f +5",
    b"f 12345678901234567",
    b"f 00000000000000005",
    b"f 5 5",
    b"F 5",
    b"e",
    b"e ",
    b"e 5 1",
    b"e 10000000000000000",
    b"i",
    b"i 5",
    b"i 5 1",
    b"i 5 1 ",
    b"i 5 1 1 ",
    b"i 5 1 1 1",
    b"i 5  1 1",
    b"i 5 a 1",
    b"i 5 1 a",
    b"i 5 4294967296 1",
    b"i 5 1 4294967296",
    b"i 5 00000000001 1",
    b"i 5 1 00000000001",
    b"i 5 9999999999 1",
    b"i 5 -1 1",
    b"i 5 1 -1",
    b"u",
    b"u 5",
    b"u 5 5 5",
    b"u 200001 5",
    b"u 5 200001",
    b"u 5 4294967296",
    b"u 4294967301 5",
    b"u 5 a",
    b"i \xc4 1 1",
    b"\xff",
    b"\0",
    b"n\0",
    b"i 5 18446744073709551617 1",
];

/// What may stand for one field of a make, none of it lawful there: the store, the cells, a setting and the family.
const BAD_STORES: [&str; 6] = ["", "P", "x", "pp", "1", "pb"];
const BAD_CELLS: [&str; 6] = ["200001", "4294967296", "4294967297", "", "-1", "00000000001"];
const BAD_SETTINGS: [&str; 7] = ["", "a", "-1", "+1", "4294967296", "00000000001", "1.0"];
const BAD_FAMILIES: [&str; 7] = ["0", "3", "", "11", "257", "4294967297", "2 "];

/// A line that cannot be read, often made of one of those before.
pub fn line(random: &mut Random, before: &[Vec<u8>]) -> Vec<u8> {
    loop {
        let line = match random.below(8) {
            0..=2 => random.pick(&BAD).to_vec(),
            3 | 4 => make(random).into_bytes(),
            _ => {
                let back = 1 + random.below(8.min(before.len() as u64)) as usize;
                spoiled(random, before[before.len() - back].clone())
            }
        };
        if lines::read(&line).is_none() {
            return line;
        }
    }
}

/// A make with one bad field, one too few or one too many.
fn make(random: &mut Random) -> String {
    let mut fields = ["m", "p", "40", "1", "2", "3", "1", "50", "2"].to_vec();
    match random.below(8) {
        0 => drop(fields.pop()),
        1 => fields.push("1"),
        2 => fields[1] = random.pick(&BAD_STORES),
        3 => fields[2] = random.pick(&BAD_CELLS),
        4 => fields[8] = random.pick(&BAD_FAMILIES),
        _ => fields[3 + random.below(5) as usize] = random.pick(&BAD_SETTINGS),
    }
    fields.join(" ")
}

/// A line with one byte changed, added or left out, or very many added.
fn spoiled(random: &mut Random, mut line: Vec<u8>) -> Vec<u8> {
    let byte = random.pick(b"  \t\r\0-+:agGzM?09\x7f\x80\xff");
    let at = random.below(line.len() as u64 + 1) as usize;
    match random.below(5) {
        0 if at < line.len() => drop(line.remove(at)),
        1 if at < line.len() => line[at] = byte,
        2 if random.chance(4) => line.extend(vec![byte; 5000]),
        3 => line.push(random.pick(b" \r\t0")),
        _ => line.insert(at, byte),
    }
    line
}
