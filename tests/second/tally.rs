//! Counts of answers and differences, and the lines that tell of them.

use crate::addresses::fnv;
use std::collections::BTreeMap;

/// Differences that are printed one by one; more are only counted.
const SHOWN: usize = 10;

pub struct Tally {
    /// What is compared, such as `modcheck find`.
    name: &'static str,
    /// What is asked, such as `modules`.
    asked: &'static str,
    answers: BTreeMap<String, usize>,
    differences: usize,
}

impl Tally {
    pub fn new(name: &'static str, asked: &'static str) -> Tally {
        Tally { name, asked, answers: BTreeMap::new(), differences: 0 }
    }

    /// Counts an answer that the second implementation wants.
    pub fn wanted(&mut self, answer: impl ToString) {
        *self.answers.entry(answer.to_string()).or_default() += 1;
    }

    /// Counts a difference, and prints it if it is among the first.
    pub fn differs(&mut self, difference: impl FnOnce() -> String) {
        self.differences += 1;
        if self.differences <= SHOWN {
            println!("{}: {}", self.name, difference());
        }
    }

    /// Prints the counts and gives the number of differences. Fewer than `least` of one of these answers is one, too: then
    /// the comparison would say little.
    pub fn close(mut self, least: usize, answers: &[&str]) -> usize {
        for answer in answers {
            let count = self.answers.get(*answer).copied().unwrap_or(0);
            if count < least {
                self.differs(|| format!("only {count} answers {answer}, not {least}"));
            }
        }
        let count: usize = self.answers.values().sum();
        let parts: Vec<String> = self.answers.iter().map(|(answer, count)| format!("{answer} x {count}")).collect();
        println!("{}: {count} {}: {}: {} differences", self.name, self.asked, parts.join(", "), self.differences);
        self.differences
    }
}

/// Keeps a module for which answers differ in a file, unless it is very long, and says where.
pub fn keep(module: &[u8]) -> String {
    keep_as("module", module)
}

/// Keeps bytes of this name likewise.
pub fn keep_as(name: &str, bytes: &[u8]) -> String {
    if bytes.len() > 1 << 24 {
        return format!("a {name} of {} bytes", bytes.len());
    }
    let path = std::env::temp_dir().join(format!("{name}-{:016x}", fnv(bytes)));
    match std::fs::write(&path, bytes) {
        Ok(()) => path.display().to_string(),
        Err(error) => format!("a {name} of {} bytes, not kept ({error})", bytes.len()),
    }
}
