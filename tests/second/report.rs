//! What modcheck should print of a module and of the keys given as arguments.

use crate::addresses::plate_words;
use crate::cells::Words;
use crate::judge::Table;
use crate::modules::Sample;
use crate::random::Random;

pub struct Report {
    pub text: Vec<u8>,
    /// The number that check gives, or 14.
    pub check: u64,
    /// What each find gives: 0, `-`, or a decline's number.
    pub finds: Vec<&'static str>,
}

pub fn report(module: &[u8], keys: &[Vec<u8>]) -> Report {
    let table = Table::open(module);
    let mut report = Report { text: Vec::new(), check: 14, finds: Vec::new() };
    match &table {
        Some(table) => {
            report.text.extend(trailer_lines(table).bytes());
            let verdict = table.check();
            report.check = verdict.number;
            let cell = verdict.cell.map_or(String::new(), |cell| format!(" cell {cell}"));
            report.text.extend(format!("check {}{cell}\n", verdict.number).bytes());
        }
        None => report.text.extend(b"decline 14\n"),
    }
    for key in keys {
        let (found, numbers) = find(table.as_ref(), key);
        report.text.extend(b"find ");
        report.text.extend(key);
        report.text.extend(format!(" {found}{numbers}\n").bytes());
        report.finds.push(found);
    }
    report
}

fn trailer_lines(table: &Table) -> String {
    let trailer = &table.trailer;
    let size = trailer.size;
    let lines = [
        ("kind", trailer.kind),
        ("family", trailer.family),
        ("t", size.t),
        ("B", size.b),
        ("H", size.h),
        ("x0", size.x0),
        ("x", size.x),
        ("j", size.j),
        ("d", size.d),
        ("n", trailer.count),
        ("buckets", size.buckets()),
        ("cells", trailer.cells),
        ("used cells", size.cells()),
    ];
    lines.map(|(name, value)| format!("{name} {value}\n")).concat()
}

/// What is found of a key as typed, and the numbers of the record.
fn find(table: Option<&Table>, key: &[u8]) -> (&'static str, String) {
    let Some(table) = table else {
        return ("14", String::new());
    };
    let (words, unreadable) = match table.trailer.kind {
        1 => (plate_words(key), "3"),
        _ => (tag_words(key), "19"),
    };
    let Some(words) = words else {
        return (unreadable, String::new());
    };
    match table.find(words) {
        Some((_, record)) => ("0", format!(" {} {}", record.numbers.0, record.numbers.1)),
        None => ("-", String::new()),
    }
}

/// The words of a tag typed as 1 to 16 hex digits of either case.
pub fn tag_words(text: &[u8]) -> Option<Words> {
    if text.is_empty() || text.len() > 16 {
        return None;
    }
    let digit = |byte: &u8| char::from(*byte).to_digit(16).map(u64::from);
    let tag = text.iter().try_fold(0, |tag, byte| Some(tag << 4 | digit(byte)?))?;
    Some((0, tag))
}

/// Arguments that are bad for one kind or both; the last one is no text at all.
const BAD_KEYS: [&[u8]; 17] = [
    b"",
    b" ",
    b"-",
    b"+5",
    b"-1",
    b"0x5",
    b" 5",
    b"5 ",
    b"5G",
    b"A B",
    b"ab cd",
    b"a\nb",
    b"ABCDEFGHIJKLM",
    b"12345678901234567",
    b"00000000000000000",
    b"000000000000000000000000000000000000000000000000000005",
    "\u{c4}B".as_bytes(),
];

/// Keys to give modcheck as arguments: most of what is worth asking as a user would type it, and some that are bad.
pub fn arguments(random: &mut Random, sample: &Sample) -> Vec<Vec<u8>> {
    let mut keys = Vec::new();
    for words in &sample.ask {
        if keys.len() < 8 && !random.chance(3) {
            keys.extend(typed(random, sample.kind, *words));
        }
    }
    for _ in 0..random.below(3) {
        let at = random.below(keys.len() as u64 + 1) as usize;
        keys.insert(at, random.pick(&BAD_KEYS).to_vec());
    }
    keys
}

/// A key as a user would type it, if its words can be typed at all.
fn typed(random: &mut Random, kind: u64, words: Words) -> Option<Vec<u8>> {
    if kind == 2 {
        let tag = words.1;
        let text = match random.below(4) {
            0 => format!("{tag:x}"),
            1 => format!("{tag:X}"),
            2 => format!("{tag:016x}"),
            _ => format!("0{tag:X}"),
        };
        return Some(text.into_bytes());
    }
    let mut text = [&words.0.to_be_bytes()[..], &words.1.to_be_bytes()[4..]].concat();
    while text.last() == Some(&b' ') && !random.chance(40) {
        text.pop();
    }
    // an argument holds no byte 0, and modcheck takes text only
    (!text.contains(&0) && text.is_ascii()).then_some(text)
}
