//! Modules of both kinds, both families and many settings, filled with distinct keys in their own buckets.

use crate::addresses::{hash, plate_words, Layout, Size, MOST_BUCKETS};
use crate::cells::{self, Record, Words, CELL};
use crate::damages;
use crate::random::Random;
use crate::trailers::Trailer;
use std::collections::HashSet;

/// The bytes of a module, and what is worth asking of them.
pub struct Sample {
    pub bytes: Vec<u8>,
    /// The kind of its records, unless a damage changed the trailer.
    pub kind: u64,
    /// Words to look for: stored keys, keys that stand twice or lie wrong, absent keys, and words that are no key.
    pub ask: Vec<Words>,
}

/// A module of at most this many used cells, most often with one damage.
pub fn sample(random: &mut Random, most_cells: u64) -> Sample {
    let size = size(random, most_cells);
    sample_of(random, size)
}

/// A module of this size, most often with one damage.
pub fn sample_of(random: &mut Random, size: Size) -> Sample {
    let mut module = Module::new(random, size);
    let mut damaged = random.below(100) < 85;
    let mut bytes_damaged = false;
    while damaged {
        if random.chance(5) {
            bytes_damaged = true;
        } else {
            damages::cells_or_count(random, &mut module);
        }
        // one damage most often
        damaged = random.chance(8);
    }
    let ask = module.questions(random);
    let mut bytes = module.bytes();
    if bytes_damaged {
        damages::trailer_or_length(random, &mut bytes);
    }
    Sample { bytes, kind: module.kind, ask }
}

/// A lawful size of at most this many used cells: the starting size or some grows on.
fn size(random: &mut Random, most_cells: u64) -> Size {
    let mut size = loop {
        let x0 = random.below(9);
        let drawn = Size {
            t: random.below(7),
            b: 1 + random.below(8),
            h: 2 + random.below(3),
            x0,
            d: random.below(99),
            x: x0,
            j: 0,
        };
        if drawn.cells() <= most_cells {
            break drawn;
        }
    };
    for _ in 0..random.below(2 * size.subtables() + 4) {
        let next = size.grown();
        if next.cells() <= most_cells && next.buckets() <= MOST_BUCKETS {
            size = next;
        }
    }
    size
}

/// A module before it is written down as bytes.
pub struct Module {
    pub kind: u64,
    pub family: u64,
    pub size: Size,
    layout: Layout,
    /// Bytes before the first cell.
    before: Vec<u8>,
    pub used: Vec<[u8; CELL]>,
    /// The cells past the used ones.
    past: Vec<[u8; CELL]>,
    /// The count of records as the trailer has it.
    pub count: u64,
    /// Words that a damage touched.
    pub touched: Vec<Words>,
}

impl Module {
    /// A lawful module, from empty to as full as random placing makes it.
    fn new(random: &mut Random, size: Size) -> Module {
        let mut module = Module {
            kind: random.pick(&[1, 2]),
            family: random.pick(&[1, 2]),
            size,
            layout: Layout::new(size),
            before: Vec::new(),
            used: vec![[0; CELL]; size.cells() as usize],
            past: Vec::new(),
            count: 0,
            touched: Vec::new(),
        };
        module.fill(random);
        for _ in 0..random.pick(&[0, 0, 0, 1, 31, 32, 33, 64, 100]) {
            let byte = if random.chance(2) { 0 } else { random.below(256) as u8 };
            module.before.push(byte);
        }
        // sometimes so many cells past the used ones that a larger size would fit too
        let used = module.used.len();
        let most_past = if used <= 300 { 2 * used + 2 } else { 7 };
        for _ in 0..random.pick(&[0, 0, 1, 5, most_past]) {
            let cell = match random.below(3) {
                0 => [0; CELL],
                1 => noise(random),
                _ => module.used[random.below(used as u64) as usize],
            };
            module.past.push(cell);
        }
        module
    }

    fn fill(&mut self, random: &mut Random) {
        let percent = random.pick(&[0, 10, 30, 50, 70, 90, 100, 120]);
        let mut keys = HashSet::new();
        for _ in 0..(self.used.len() * percent).div_ceil(100) {
            let record = record(random, self.kind);
            if keys.contains(&record.words) {
                continue;
            }
            let own = self.own_cells(record.words);
            let free: Vec<usize> = own.into_iter().filter(|cell| self.used[*cell] == [0; CELL]).collect();
            if !free.is_empty() {
                self.used[random.pick(&free)] = cells::write(self.kind, record);
                self.count += 1;
                keys.insert(record.words);
            }
        }
    }

    /// The cells of a key's own buckets, choice after choice.
    pub fn own_cells(&self, words: Words) -> Vec<usize> {
        let own = self.layout.positions(hash(self.family, words));
        own.into_iter()
            .flat_map(|bucket| bucket * self.size.b..(bucket + 1) * self.size.b)
            .map(|cell| cell as usize)
            .collect()
    }

    /// A used cell that is not empty, if there is one.
    pub fn some_record(&self, random: &mut Random) -> Option<usize> {
        let start = random.below(self.used.len() as u64) as usize;
        (start..self.used.len()).chain(0..start).find(|cell| self.used[*cell] != [0; CELL])
    }

    pub fn words_at(&self, cell: usize) -> Words {
        cells::words_at(self.kind, &self.used[cell])
    }

    /// Words to look for.
    fn questions(&self, random: &mut Random) -> Vec<Words> {
        let mut ask = self.touched.clone();
        for _ in 0..3 {
            if let Some(cell) = self.some_record(random) {
                let (first, second) = self.words_at(cell);
                ask.push((first, second));
                // nearly the same words: no key, or one of the same buckets by the straight family
                let bit = 1 << random.below(64);
                ask.push(random.pick(&[
                    (first ^ bit, second),
                    (first, second ^ bit),
                    (first, second ^ 1 << 52),
                    (second, first),
                ]));
            }
        }
        for _ in 0..2 {
            ask.push(key(random, self.kind));
        }
        // the words of an empty cell, and any words
        ask.push((0, 0));
        ask.push((random.word(), random.word()));
        ask
    }

    fn bytes(&self) -> Vec<u8> {
        let trailer = Trailer {
            kind: self.kind,
            family: self.family,
            size: self.size,
            count: self.count,
            cells: (self.used.len() + self.past.len()) as u64,
        };
        let mut bytes = self.before.clone();
        bytes.extend(self.used.iter().chain(&self.past).flatten());
        bytes.extend(trailer.write());
        bytes
    }
}

/// Any 32 bytes.
pub fn noise(random: &mut Random) -> [u8; CELL] {
    std::array::from_fn(|_| random.below(256) as u8)
}

/// A lawful record, often with numbers at the ends of their ranges.
pub fn record(random: &mut Random, kind: u64) -> Record {
    let words = key(random, kind);
    let numbers = if kind == 1 {
        let tare = 1 + random.below(100_000);
        let day = random.below(65_536);
        (random.pick(&[tare, tare, 1, 100_000]), random.pick(&[day, day, 0, 65_535]))
    } else {
        let grower = random.below(1 << 32);
        (random.pick(&[grower, grower, 0, u64::from(u32::MAX)]), 1 + random.below(9))
    };
    Record { words, numbers }
}

/// The words of a lawful key.
pub fn key(random: &mut Random, kind: u64) -> Words {
    if kind == 1 {
        let letters = b"ABCDEFGHIJKLMNOPQRSTUVWXYZ0123456789";
        let text: Vec<u8> = (0..1 + random.below(12)).map(|_| random.pick(letters)).collect();
        return plate_words(&text).expect("a plate");
    }
    let tag = match random.below(8) {
        // small ones, 0 among them
        0 => random.below(200),
        1 => random.below(1 << 33),
        // a low half of 0: all choices of the straight family coincide
        2 => random.word() & 0xffff_ffff_0000_0000,
        _ => random.word(),
    };
    (0, tag)
}
