//! The referee: judges the answers of tablerun line by line, whichever shortest paths its inserts take.

use crate::assignments::Assignment;
use crate::cells::Record;
use crate::lines::{self, Line};
use crate::moves::{self, Key};
use crate::paths;
use crate::tables::{Cells, Table};
use crate::terminals::{read_cells, Terminal};

/// Assignments that are gone through one by one to confirm a number of moves, at most.
const MOST_WAYS: usize = 200_000;

pub struct Referee {
    /// Answers the same lines. Its cells are made those of the program whenever the program shows them.
    terminal: Terminal,
    /// An assignment of the stored keys, kept apart from all cells.
    assignment: Assignment,
    sight: Sight,
}

/// What is known of the program's cells.
enum Sight {
    /// They are the terminal's.
    Same,
    /// They came from these by an insert of this record along some path of so many moves, and no call changed them since.
    Path(Cells, Record, u64),
    /// They hold the terminal's records somewhere.
    Unsure,
}

/// What is wrong with an answer, or nothing.
type Judgement = Result<(), String>;

impl Referee {
    pub fn new() -> Referee {
        Referee { terminal: Terminal::default(), assignment: Assignment::new(0, 0), sight: Sight::Same }
    }

    /// The kind of answer that a line is to get, and what is wrong with the one it got.
    pub fn judge(&mut self, line: &[u8], answer: &str) -> (String, Judgement) {
        match (lines::read(line), &self.terminal.table) {
            (Some(Line::Insert(record)), Some(_)) => self.judge_insert(line, record, answer),
            (Some(Line::Cells), Some(_)) => ("cells".to_string(), self.judge_cells(answer)),
            (asked, _) => {
                let wanted = self.terminal.answer(line);
                self.follow(asked, &wanted);
                (kind(&wanted), same(answer, &wanted))
            }
        }
    }

    /// Takes in a make or an erase.
    fn follow(&mut self, asked: Option<Line>, wanted: &str) {
        match asked {
            Some(Line::Make { size, .. }) if wanted.starts_with("m 0") => {
                self.assignment = Assignment::new(size.buckets() as usize, size.b as usize);
                self.sight = Sight::Same;
            }
            Some(Line::Erase(words)) if wanted.starts_with("e 0") => {
                self.assignment.remove(words);
                self.changed();
            }
            _ => {}
        }
    }

    /// After a call whose outcome is determined: cells that are not known now stay so until they are shown.
    fn changed(&mut self) {
        if !matches!(self.sight, Sight::Same) {
            self.sight = Sight::Unsure;
        }
    }

    fn judge_insert(&mut self, line: &[u8], record: Record, answer: &str) -> (String, Judgement) {
        let before = self.cells().clone();
        let wanted = self.terminal.answer(line);
        let taken: Option<u64> = wanted.strip_prefix("i 0 ").map(|moves| moves.parse().expect("a number"));
        if taken.is_none() && wanted != "i 8" {
            return (kind(&wanted), same(answer, &wanted));
        }
        let confirmed = self.confirm(&before, record, taken);
        let Some(moves) = taken else {
            return (kind(&wanted), confirmed.and(same(answer, &wanted)));
        };
        if !matches!(self.sight, Sight::Same) {
            // the program's cells may ask for another number of moves
            self.sight = Sight::Unsure;
            let any = answer.strip_prefix("i 0 ").is_some_and(|moves| moves.parse::<u32>().is_ok());
            let judgement = if any { Ok(()) } else { Err(format!("{answer}, not i 0 and the moves")) };
            return ("moves unseen".to_string(), confirmed.and(judgement));
        }
        if moves > 0 {
            self.sight = Sight::Path(before, record, moves);
        }
        (kind(&wanted), confirmed.and(same(answer, &wanted)))
    }

    /// Confirms what the terminal answered to an insert, the moves or that there is no assignment, in other ways.
    fn confirm(&mut self, before: &Cells, record: Record, taken: Option<u64>) -> Judgement {
        let table = self.terminal.table.as_ref().expect("there is a table");
        let own = table.own_buckets(record.words);
        if let Err(few) = self.assignment.add(record.words, own.clone()) {
            let proved = self.assignment.proves_full(&few);
            self.assignment.remove(record.words);
            if !proved || taken.is_some() {
                return Err(format!("the second implementation is at odds: {taken:?}, but no assignment"));
            }
        } else if taken.is_none() {
            return Err("the second implementation is at odds: 8, but there is an assignment".to_string());
        }
        if taken == Some(0) || !matches!(self.sight, Sight::Same) {
            return Ok(());
        }
        let mut keys = vec![key(own, None)];
        for (cell, held) in before[..table.used().len()].iter().enumerate() {
            if let Some(held) = held {
                keys.push(key(table.own_buckets(held.words), Some(table.bucket_of(cell))));
            }
        }
        let (buckets, capacity) = (table.size.buckets() as usize, table.size.b as usize);
        let least = moves::least(&keys, buckets, capacity);
        if least != taken {
            return Err(format!("the second implementation is at odds: {taken:?} moves, but {least:?} at least"));
        }
        if moves::ways_at_most(&keys, MOST_WAYS) {
            let least = moves::least_of_all(&keys, buckets, capacity);
            if least != taken {
                return Err(format!("the second implementation is at odds: {taken:?} moves, but {least:?} of all"));
            }
        }
        Ok(())
    }

    /// Judges the cells that the program shows and makes them the terminal's.
    fn judge_cells(&mut self, answer: &str) -> Judgement {
        let shown = read_cells(answer).ok_or(format!("{}, which shows no cells", start(answer)))?;
        let sight = std::mem::replace(&mut self.sight, Sight::Same);
        let table = self.terminal.table.as_mut().expect("there is a table");
        if shown.len() != table.cells.len() {
            return Err(format!("{} cells, not {}", shown.len(), table.cells.len()));
        }
        match sight {
            Sight::Same => {
                if let Some(cell) = paths::differing(&shown, &table.cells) {
                    return Err(format!("cell {cell}: {:x?}, not {:x?}", shown[cell], table.cells[cell]));
                }
            }
            Sight::Path(before, record, moves) => {
                table.cells = before;
                paths::check(table, record, moves, &shown)?;
            }
            Sight::Unsure => paths::check_placing(table, &shown)?,
        }
        table.cells = shown;
        Ok(())
    }

    fn cells(&self) -> &Cells {
        let table: &Table = self.terminal.table.as_ref().expect("there is a table");
        &table.cells
    }
}

fn key(mut own: Vec<usize>, lies: Option<usize>) -> Key {
    own.sort_unstable();
    own.dedup();
    Key { own, lies }
}

fn same(answer: &str, wanted: &str) -> Judgement {
    if answer == wanted { Ok(()) } else { Err(format!("{}, not {}", start(answer), start(wanted))) }
}

/// The start of a text that may be long.
fn start(text: &str) -> String {
    text.chars().take(80).collect()
}

/// The kind of a wanted answer.
fn kind(wanted: &str) -> String {
    let fields: Vec<&str> = wanted.split(' ').collect();
    match fields[..] {
        ["i", "0", moves @ ("0" | "1" | "2")] => format!("moves {moves}"),
        ["i", "0", _] => "moves 3+".to_string(),
        ["m", "0", _] => "made".to_string(),
        ["u", _] => "spaces".to_string(),
        ["n", _] => "count".to_string(),
        ["f", "0", ..] => "found".to_string(),
        ["f", _] => "nothing".to_string(),
        ["e", "0", ..] => "erased".to_string(),
        [_, decline] => decline.to_string(),
        _ => "other".to_string(),
    }
}
