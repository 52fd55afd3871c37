//! Sequences of lines for tablerun: tables of many settings, filled until they decline and beyond.

use crate::addresses::Size;
use crate::lines::MOST;
use crate::random::Random;
use crate::spoils;
use crate::tags::Style;
use crate::terminals::Terminal;

/// Cells of a small table, at most.
const SMALL: u64 = 24;

/// The lines of one run, as they are drawn.
struct Sequence {
    random: Random,
    /// Follows the lines, so that it is known what is stored.
    terminal: Terminal,
    lines: Vec<Vec<u8>>,
    /// Tags that inserts were given, stored or not.
    tags: Vec<u64>,
    style: Style,
    size: Size,
}

/// Tables of few cells, which are shown after every insert and erase.
pub fn small(seed: u64, tables: usize) -> Vec<Vec<u8>> {
    let mut sequence = Sequence::new(seed);
    for _ in 0..tables {
        // one or two buckets decide little
        let least = sequence.random.pick(&[1, 4, 4, 8]);
        let size = loop {
            let size = sequence.size(2, 3, 2);
            if size.buckets() >= least && size.cells() <= SMALL {
                break size;
            }
        };
        sequence.table(size);
    }
    sequence.lines
}

/// Tables of up to 512 buckets.
pub fn middle(seed: u64, tables: usize, most_cells: u64) -> Vec<Vec<u8>> {
    let mut sequence = Sequence::new(seed);
    for _ in 0..tables {
        let size = loop {
            let size = sequence.size(6, 8, 8);
            if size.buckets() <= 512 && (most_cells / 4..=most_cells).contains(&size.cells()) {
                break size;
            }
        };
        sequence.table(size);
    }
    sequence.lines
}

/// Tables of the most buckets and cells, with few records.
pub fn large(seed: u64) -> Vec<Vec<u8>> {
    let mut sequence = Sequence::new(seed);
    for b in [8, 1] {
        let size = Size { t: 6, b, h: 4, x0: 8, d: 98, x: 8, j: 0 };
        sequence.make(size, MOST);
        for _ in 0..40 {
            sequence.insert_new();
        }
        sequence.say("c");
        sequence.erase();
        sequence.say("c");
    }
    sequence.lines
}

impl Sequence {
    fn new(seed: u64) -> Sequence {
        let size = Size { t: 0, b: 1, h: 2, x0: 0, d: 0, x: 0, j: 0 };
        let mut sequence = Sequence {
            random: Random::new(seed),
            terminal: Terminal::default(),
            lines: Vec::new(),
            tags: Vec::new(),
            style: Style::Any,
            size,
        };
        sequence.lawful_lines(3);
        sequence
    }

    /// Adds a line and gives the answer that it may get.
    fn say(&mut self, line: impl Into<Vec<u8>>) -> String {
        let line = line.into();
        let answer = self.terminal.answer(&line);
        self.lines.push(line);
        answer
    }

    /// A starting size with settings of at most these.
    fn size(&mut self, t: u64, b: u64, x0: u64) -> Size {
        let x0 = self.random.below(x0 + 1);
        Size {
            t: self.random.below(t + 1),
            b: 1 + self.random.below(b),
            h: 2 + self.random.below(3),
            x0,
            d: self.random.below(99),
            x: x0,
            j: 0,
        }
    }

    /// All of a table's life.
    fn table(&mut self, size: Size) {
        if self.random.chance(4) {
            self.declined_make(size);
            self.lawful_lines(2);
        }
        let past = self.random.pick(&[0, 0, 1, 2, 5, 6]);
        self.make(size, size.cells() + past);
        self.cells();
        self.fill();
        for _ in 0..self.random.below(24) {
            self.erase();
            for _ in 0..1 + self.random.below(3) {
                self.insert_new();
                self.aside();
            }
        }
        self.say("n");
        self.say("c");
    }

    /// Inserts until the table has said often enough that it is full, or so many were tried.
    fn fill(&mut self) {
        let mut tries = 2 * self.size.cells() + 10;
        let mut declines = 0;
        while tries > 0 && declines < 8 {
            tries -= 1;
            if self.insert_new() == "i 8" {
                declines += 1;
            }
            self.aside();
        }
    }

    /// Shows the cells: always for a small table, seldom while a larger one is far from full, and then always or, for the
    /// largest ones, now and then.
    fn cells(&mut self) {
        let cells = self.size.cells();
        let records = self.terminal.table.as_ref().map_or(0, |table| table.records().count() as u64);
        let one_in = if cells <= SMALL {
            1
        } else if 2 * records < cells {
            100
        } else if cells <= 600 {
            1
        } else {
            12
        };
        if self.random.chance(one_in) {
            self.say("c");
        }
    }

    fn make(&mut self, size: Size, cells: u64) {
        let family = self.random.pick(&[1, 2, 2]);
        self.size = size;
        self.style = Style::draw(&mut self.random, family);
        self.tags.clear();
        let line = self.make_line(size, cells, family);
        self.say(line);
    }

    fn make_line(&mut self, size: Size, cells: u64, family: u64) -> String {
        let store = self.random.pick(&['p', 'b', 'j', 'w']);
        let numbers = [cells, size.t, size.b, size.h, size.x0, size.d, family].map(|number| self.number_text(number));
        format!("m {store} {}", numbers.join(" "))
    }

    /// A make with a setting outside its range or too few cells; now and then both.
    fn declined_make(&mut self, size: Size) {
        let most = u64::from(u32::MAX);
        let mut cells = size.cells();
        let settings = match self.random.below(12) {
            0 => Size { t: self.random.pick(&[7, 8, 64, most]), ..size },
            1 => Size { b: self.random.pick(&[0, 9, 256 + 1, most]), ..size },
            2 => Size { h: self.random.pick(&[0, 1, 5, 256 + 2, most]), ..size },
            3 => Size { x0: self.random.pick(&[9, 64, 256, most]), ..size },
            4 => Size { d: self.random.pick(&[99, 100, 256, most]), ..size },
            _ => {
                cells -= self.random.pick(&[1, 1, cells, cells.div_ceil(2)]);
                size
            }
        };
        if self.random.chance(3) {
            cells /= 2;
        }
        let line = self.make_line(settings, cells, 1);
        self.say(line);
    }

    /// Lines of a lawful form, whether or not there is a table.
    fn lawful_lines(&mut self, most: u64) {
        for _ in 0..self.random.below(most + 1) {
            let line = self.random.pick(&["n", "c", "u 9 9", "i 5 1 1", "i 5 1 0", "f 5", "e 5", ""]);
            self.say(line);
        }
    }

    /// A number as a line may have it, with zeros before it now and then.
    fn number_text(&mut self, number: u64) -> String {
        match self.random.below(60) {
            0 => format!("{number:010}"),
            1 => format!("{number:02}"),
            _ => number.to_string(),
        }
    }

    /// A tag as a line may have it, with digits of either case and zeros before them.
    fn tag_text(&mut self, tag: u64) -> String {
        match self.random.below(8) {
            0 => format!("{tag:X}"),
            1 => format!("{tag:016x}"),
            2 if tag >> 60 == 0 => format!("0{tag:x}"),
            _ => format!("{tag:x}"),
        }
    }

    /// Inserts a record of a new tag and shows the cells.
    fn insert_new(&mut self) -> String {
        let tag = self.style.tag(&mut self.random, self.size);
        self.insert(tag)
    }

    fn insert(&mut self, tag: u64) -> String {
        self.tags.push(tag);
        let any = self.random.below(1 << 32);
        let grower = self.random.pick(&[any, self.tags.len() as u64, 0, u64::from(u32::MAX)]);
        let grain = if self.random.chance(30) { self.random.pick(&[0, 10, 256 + 1, 4_294_967_295]) } else { 1 + any % 9 };
        let (tag, grower, grain) = (self.tag_text(tag), self.number_text(grower), self.number_text(grain));
        let answer = self.say(format!("i {tag} {grower} {grain}"));
        self.cells();
        answer
    }

    /// Erases a record.
    fn erase(&mut self) {
        if let Some(tag) = self.stored_tag() {
            let tag = self.tag_text(tag);
            self.say(format!("e {tag}"));
            self.cells();
        }
    }

    fn stored_tag(&mut self) -> Option<u64> {
        let table = self.terminal.table.as_ref()?;
        let tags: Vec<u64> = table.records().map(|record| record.words.1).collect();
        (!tags.is_empty()).then(|| self.random.pick(&tags))
    }

    /// A tag that is stored, was once, is the one of a new store's cell, or is new.
    fn tag(&mut self) -> u64 {
        let cell = 0xf000_0000_0000_0000 + self.random.below(self.size.cells() + 3);
        match self.random.below(8) {
            0..=2 => self.stored_tag().unwrap_or(cell),
            3 | 4 if !self.tags.is_empty() => self.random.pick(&self.tags),
            5 => cell,
            _ => self.style.tag(&mut self.random, self.size),
        }
    }

    /// Now and then, something else than an insert of a new tag.
    fn aside(&mut self) {
        // a table with many cells has many inserts
        let rare = 1 + self.size.cells() / 200;
        if !self.random.chance(rare) {
            return;
        }
        let tag = self.tag();
        match self.random.below(40) {
            0..=7 => {
                let tag = self.tag_text(tag);
                self.say(format!("f {tag}"));
            }
            8..=10 => {
                let tag = self.tag_text(tag);
                self.say(format!("e {tag}"));
                self.cells();
            }
            11..=13 => {
                self.insert(tag);
            }
            14 | 15 => {
                self.say("n");
            }
            16 | 17 => self.spaces(),
            18..=20 => {
                let line = spoils::line(&mut self.random, &self.lines);
                self.say(line);
                self.cells();
            }
            _ => {}
        }
    }

    /// Working spaces of other lengths for an insert or two, and then such as suffice.
    fn spaces(&mut self) {
        let buckets = self.size.buckets();
        let lengths = [0, buckets / 2, buckets - 1, buckets - 1, buckets, buckets, buckets + 1, MOST];
        let (first, second) = (self.random.pick(&lengths), self.random.pick(&lengths));
        let (first, second) = (self.number_text(first), self.number_text(second));
        self.say(format!("u {first} {second}"));
        let tag = self.tag();
        self.insert(tag);
        self.insert_new();
        let more = self.random.pick(&[0, 0, 1, 7]);
        self.say(format!("u {} {}", buckets + more, buckets));
    }
}
