//! A second implementation of the rules, compared with the programs and the static library on many inputs.
//! usage: second FOLDER, where FOLDER holds the programs

mod addresses;
mod assignments;
mod cases;
mod cells;
mod damages;
mod edges;
mod firmware;
mod judge;
mod keys;
mod lines;
mod modules;
mod moves;
mod paths;
mod programs;
mod random;
mod referee;
mod report;
mod sequences;
mod spoils;
mod tables;
mod tags;
mod tally;
mod terminals;
mod trailers;

use std::process::exit;

fn main() {
    let folder = std::env::args().nth(1).expect("the programs' folder");
    let differences = programs::compare_keyrun(&folder)
        + programs::compare_modcheck(&folder)
        + programs::compare_tablerun(&folder)
        + firmware::compare();
    if differences > 0 {
        exit(1);
    }
}
