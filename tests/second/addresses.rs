//! Settings, sizes, choices and positions, written from the rules in docs/ alone.

#[derive(Clone, Copy, Debug, PartialEq)]
pub struct Size {
    pub t: u64,
    pub b: u64,
    pub h: u64,
    pub x0: u64,
    pub d: u64,
    pub x: u64,
    pub j: u64,
}

pub const MOST_BUCKETS: u64 = 16_384;

impl Size {
    pub fn settings_in_range(&self) -> bool {
        self.t <= 6
            && (1..=8).contains(&self.b)
            && (2..=4).contains(&self.h)
            && self.x0 <= 8
            && self.d <= 98
    }

    /// Asked only of settings in range.
    pub fn is_size(&self) -> bool {
        self.x >= self.x0 && self.j < self.subtables() && self.x <= 14 && self.buckets() <= MOST_BUCKETS
    }

    pub fn subtables(&self) -> u64 {
        1 << self.t
    }

    pub fn buckets(&self) -> u64 {
        // subtable by subtable
        (0..self.subtables()).map(|g| self.buckets_of(g)).sum()
    }

    pub fn buckets_of(&self, g: u64) -> u64 {
        if g < self.j { 2 << self.x } else { 1 << self.x }
    }

    /// The number of used cells.
    pub fn cells(&self) -> u64 {
        self.buckets() * self.b
    }

    pub fn grown(&self) -> Size {
        let mut next = *self;
        next.j += 1;
        if next.j == self.subtables() {
            next.x += 1;
            next.j = 0;
        }
        next
    }

    pub fn shrunk(&self) -> Option<Size> {
        if self.x == self.x0 && self.j == 0 {
            return None;
        }
        let mut last = *self;
        if last.j == 0 {
            last.x -= 1;
            last.j = self.subtables();
        }
        last.j -= 1;
        Some(last)
    }
}

/// Where every bucket of a size lies, found by laying the buckets out grow after grow, from one bucket to a subtable on.
pub struct Layout {
    size: Size,
    /// The positions of each subtable's buckets.
    positions: Vec<Vec<u64>>,
}

impl Layout {
    /// Asked only of lawful sizes.
    pub fn new(size: Size) -> Layout {
        let mut positions: Vec<Vec<u64>> = (0..size.subtables()).map(|g| vec![g]).collect();
        let mut next = size.subtables();
        let mut now = Size { x: 0, j: 0, ..size };
        while now != size {
            // the doubled subtable adds as many buckets as it has
            for _ in 0..now.buckets_of(now.j) {
                positions[now.j as usize].push(next);
                next += 1;
            }
            now = now.grown();
        }
        Layout { size, positions }
    }

    pub fn position(&self, choice: u32) -> u64 {
        let subtable = if self.size.t == 0 { 0 } else { choice >> (32 - self.size.t) };
        let buckets = &self.positions[subtable as usize];
        buckets[choice as usize % buckets.len()]
    }

    /// The positions of the choices of a hash word, in their order.
    pub fn positions(&self, word: u64) -> Vec<u64> {
        (0..self.size.h).map(|i| self.position(choice(word, i))).collect()
    }
}

/// The word that a hash family gives for two key words.
pub fn hash(family: u64, words: (u64, u64)) -> u64 {
    match family {
        1 => fnv(&[words.0.to_be_bytes(), words.1.to_be_bytes()].concat()),
        _ => words.1,
    }
}

pub fn choice(word: u64, i: u64) -> u32 {
    let (p, q) = ((word >> 32) as u32, word as u32);
    (0..i).fold(p, |c, _| c.wrapping_add(q))
}

pub fn fnv(bytes: &[u8]) -> u64 {
    bytes.iter().fold(0xcbf2_9ce4_8422_2325, |h, b| {
        (h ^ u64::from(*b)).wrapping_mul(0x0000_0100_0000_01b3)
    })
}

/// The words of a plate as typed, if it is one.
pub fn plate_words(text: &[u8]) -> Option<(u64, u64)> {
    if text.is_empty() || text.len() > 12 {
        return None;
    }
    if !text.iter().all(|b| b.is_ascii_uppercase() || b.is_ascii_digit()) {
        return None;
    }
    let mut bytes = text.to_vec();
    bytes.resize(12, b' ');
    Some((number(&bytes[..8]), number(&bytes[8..])))
}

/// Bytes as a big-endian number.
pub fn number(bytes: &[u8]) -> u64 {
    bytes.iter().fold(0, |n, b| n << 8 | u64::from(*b))
}
