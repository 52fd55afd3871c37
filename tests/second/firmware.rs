//! Comparison with the C calls of the static library.

use crate::addresses::Size;
use crate::cells::Words;
use crate::judge::Table;
use crate::random::Random;
use crate::tally::{keep, Tally};
use crate::{edges, modules};

/// The calls as include/firmware.h has them.
mod calls {
    unsafe extern "C" {
        pub fn module_check(bytes: *const u8, length: usize) -> u64;
        pub fn module_find(bytes: *const u8, length: usize, first: u64, second: u64) -> u64;
    }
}

fn module_check(module: &[u8]) -> u64 {
    // SAFETY: the pointer and the length are those of a slice, which the call only reads
    unsafe { calls::module_check(module.as_ptr(), module.len()) }
}

fn module_find(module: &[u8], (first, second): Words) -> u64 {
    // SAFETY: as for module_check
    unsafe { calls::module_find(module.as_ptr(), module.len(), first, second) }
}

/// What both calls should answer, compared with what they do.
struct Comparison {
    checks: Tally,
    finds: Tally,
}

impl Comparison {
    fn compare(&mut self, module: &[u8], ask: &[Words]) {
        let table = Table::open(module);
        let wanted = table.as_ref().map_or(14, |table| {
            let verdict = table.check();
            verdict.number + 256 * verdict.cell.unwrap_or(0)
        });
        self.checks.wanted(wanted % 256);
        let answer = module_check(module);
        if answer != wanted {
            self.checks.differs(|| format!("{}: {}, not {}", keep(module), check_text(answer), check_text(wanted)));
        }
        for words in ask {
            let wanted = table.as_ref().map_or(14, |table| table.find(*words).map_or(0, |(cell, _)| 256 * (cell + 1)));
            self.finds.wanted(match wanted {
                0 => "nothing",
                14 => "14",
                _ => "a cell",
            });
            let answer = module_find(module, *words);
            if answer != wanted {
                self.finds.differs(|| {
                    let (first, second) = words;
                    let (answer, wanted) = (find_text(answer), find_text(wanted));
                    format!("{} {first:016x} {second:016x}: {answer}, not {wanted}", keep(module))
                });
            }
        }
    }
}

pub fn compare() -> usize {
    let mut random = Random::new(3);
    let mut comparison = Comparison {
        checks: Tally::new("firmware check", "modules"),
        finds: Tally::new("firmware find", "questions"),
    };
    for _ in 0..6000 {
        let most_cells = random.pick(&[12, 40, 40, 100, 100, 300, 300, 1000, 4000]);
        let sample = modules::sample(&mut random, most_cells);
        comparison.compare(&sample.bytes, &sample.ask);
    }
    for size in largest() {
        for _ in 0..4 {
            let sample = modules::sample_of(&mut random, size);
            comparison.compare(&sample.bytes, &sample.ask);
        }
    }
    for module in edges::modules() {
        comparison.compare(&module, &[(0, 0), (0, 1)]);
    }
    let short = loop {
        let sample = modules::sample(&mut random, 100);
        if module_is_whole(&sample.bytes) {
            break sample;
        }
    };
    edges::longest(&short.bytes, |module| comparison.compare(module, &short.ask));
    let Comparison { checks, finds } = comparison;
    checks.close(300, &["0", "14", "15", "16", "17", "18"]) + finds.close(3000, &["a cell", "nothing", "14"])
}

/// Sizes of 16,384 buckets, or the last one before.
fn largest() -> [Size; 4] {
    let base = Size { t: 6, b: 8, h: 4, x0: 8, d: 98, x: 8, j: 0 };
    [
        base,
        Size { t: 0, b: 1, x0: 0, x: 14, ..base },
        Size { t: 3, b: 3, h: 2, x: 11, ..base },
        Size { t: 6, b: 2, x0: 0, x: 7, j: 63, ..base },
    ]
}

/// Whether check finds nothing wrong with a module that has some records.
fn module_is_whole(module: &[u8]) -> bool {
    Table::open(module).is_some_and(|table| table.check().number == 0 && table.trailer.count > 5)
}

fn check_text(answer: u64) -> String {
    match (answer % 256, answer / 256) {
        (number @ 15..=17, cell) => format!("{number} cell {cell}"),
        (number, 0) => number.to_string(),
        _ => format!("the number {answer}"),
    }
}

fn find_text(answer: u64) -> String {
    match (answer % 256, answer / 256) {
        (0, 0) => "nothing".to_string(),
        (0, cell) => format!("cell {}", cell - 1),
        (14, 0) => "14".to_string(),
        _ => format!("the number {answer}"),
    }
}
