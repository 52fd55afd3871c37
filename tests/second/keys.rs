//! Lines for keyrun, and the answers that they should get.

use crate::addresses::{fnv, plate_words, Layout, Size, MOST_BUCKETS};
use crate::random::Random;

/// A line, most often one that can be answered.
pub fn line(random: &mut Random) -> Vec<u8> {
    match random.below(8) {
        0 => {
            let mut line = b"h ".to_vec();
            for _ in 0..random.below(40) {
                let byte = random.below(256) as u8;
                line.push(if byte == b'\n' { 0 } else { byte });
            }
            line
        }
        1 | 2 => {
            let mut line = b"p ".to_vec();
            for _ in 0..random.below(15) {
                line.push(plate_byte(random));
            }
            line
        }
        3 | 4 => format!("a {} {:x}", numbers(random), word(random)).into_bytes(),
        5 => format!("g {}", numbers(random)).into_bytes(),
        6 => format!("s {}", numbers(random)).into_bytes(),
        _ => (0..random.below(6)).map(|_| random.pick(b"ahpgs ?0")).collect(),
    }
}

fn plate_byte(random: &mut Random) -> u8 {
    if random.chance(60) {
        let byte = random.below(256) as u8;
        return if byte == b'\n' { b' ' } else { byte };
    }
    random.pick(b"ABCXYZ0189")
}

fn word(random: &mut Random) -> u64 {
    match random.below(4) {
        0 => random.below(1 << 33),
        1 => random.word() & 0xffff_ffff_0000_0000,
        _ => random.word(),
    }
}

/// The numbers of a size, in hexadecimal: lawful, at the edge, or a little past it.
fn numbers(random: &mut Random) -> String {
    let off = |random: &mut Random| if random.chance(40) { 1 } else { 0 };
    let t = random.below(7) + off(random);
    let b = 1 + random.below(8) + off(random);
    let h = 2 + random.below(3) + off(random);
    let x0 = random.below(9) + off(random);
    let d = random.below(99) + off(random);
    let x = if random.chance(10) { random.below(16) } else { x0 + random.below(15 - x0.min(9)) };
    let over = off(random);
    let j = random.below((1 << t.min(7)) + 1 + over);
    let mut text = format!("{t:x} {b:x} {h:x} {x0:x} {d:x} {x:x} {j:x}");
    if random.chance(50) {
        text.push_str(" 1");
    }
    text
}

/// What keyrun should answer.
pub fn answer(line: &[u8]) -> String {
    if line.len() < 2 || line[1] != b' ' {
        return "? 19".to_string();
    }
    let asked = &line[2..];
    match line[0] {
        b'h' => format!("h {:016x}", fnv(asked)),
        b'p' => match plate_words(asked) {
            Some((first, second)) => format!("p 0 {first:016x} {second:016x}"),
            None => "p 3".to_string(),
        },
        b'a' => sized("a", asked, 8, |size, rest| {
            let mut text = format!("a 0 {}", size.buckets());
            for position in Layout::new(size).positions(rest[0]) {
                text.push_str(&format!(" {position}"));
            }
            text
        }),
        b'g' => sized("g", asked, 7, |size, _| {
            let next = size.grown();
            if next.buckets() > MOST_BUCKETS {
                return "g 9".to_string();
            }
            format!("g 0 {} {} {}", next.x, next.j, next.buckets())
        }),
        b's' => sized("s", asked, 7, |size, _| match size.shrunk() {
            Some(next) => format!("s 0 {} {} {}", next.x, next.j, next.buckets()),
            None => "s 12".to_string(),
        }),
        _ => "? 19".to_string(),
    }
}

fn sized(letter: &str, text: &[u8], fields: usize, say: impl Fn(Size, &[u64]) -> String) -> String {
    let numbers: Option<Vec<u64>> = std::str::from_utf8(text)
        .ok()
        .and_then(|text| text.split(' ').map(|f| u64::from_str_radix(f, 16).ok()).collect());
    let Some(n) = numbers.filter(|n| n.len() == fields) else {
        return "? 19".to_string();
    };
    let size = Size { t: n[0], b: n[1], h: n[2], x0: n[3], d: n[4], x: n[5], j: n[6] };
    if !size.settings_in_range() {
        return format!("{letter} 1");
    }
    if !size.is_size() {
        return format!("{letter} -");
    }
    say(size, &n[7..])
}
