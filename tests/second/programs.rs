//! Comparisons with the programs, through their standard input, arguments and standard output.

use crate::lines::{self, Line};
use crate::random::Random;
use crate::referee::Referee;
use crate::tally::{keep, keep_as, Tally};
use crate::{cases, keys, modules, report, sequences};
use std::ffi::OsStr;
use std::io::Write;
use std::os::unix::ffi::OsStrExt;
use std::process::{Command, Stdio};

/// What a program writes when it is given this input and these arguments, and one line more if it fails.
fn run(folder: &str, program: &str, arguments: &[Vec<u8>], input: &[u8]) -> Vec<u8> {
    let mut child = Command::new(format!("{folder}/{program}"))
        .args(arguments.iter().map(|argument| OsStr::from_bytes(argument)))
        .stdin(Stdio::piped())
        .stdout(Stdio::piped())
        .spawn()
        .expect("the program starts");
    let mut pipe = child.stdin.take().expect("a pipe");
    let mut output = std::thread::scope(|scope| {
        // a program that ends early closes the pipe, which its output will show
        scope.spawn(move || drop(pipe.write_all(input)));
        child.wait_with_output().expect("the program ends")
    });
    if !output.status.success() {
        output.stdout.extend(format!("(ended with {})\n", output.status).bytes());
    }
    output.stdout
}

pub fn compare_keyrun(folder: &str) -> usize {
    let mut random = Random::new(1);
    let lines: Vec<Vec<u8>> = (0..20_000).map(|_| keys::line(&mut random)).collect();
    let mut input = lines.join(&b'\n');
    input.push(b'\n');
    let output = run(folder, "keyrun", &[], &input);
    let answers: Vec<_> = String::from_utf8_lossy(&output).lines().map(str::to_string).collect();
    let mut tally = Tally::new("keyrun", "lines");
    if answers.len() != lines.len() {
        tally.differs(|| format!("{} answers to {} lines", answers.len(), lines.len()));
    }
    for (line, answer) in lines.iter().zip(&answers) {
        let wanted = keys::answer(line);
        tally.wanted(if wanted.contains(" 0 ") || wanted.starts_with('h') { "taken" } else { "declined" });
        if wanted != *answer {
            tally.differs(|| format!("{:?}: {answer}, not {wanted}", String::from_utf8_lossy(line)));
        }
    }
    tally.close(1000, &["taken", "declined"])
}

pub fn compare_modcheck(folder: &str) -> usize {
    let mut random = Random::new(2);
    let mut checks = Tally::new("modcheck", "modules");
    let mut finds = Tally::new("modcheck find", "keys");
    for _ in 0..800 {
        let most_cells = random.pick(&[12, 40, 100, 100, 300, 1000]);
        let sample = modules::sample(&mut random, most_cells);
        let keys = report::arguments(&mut random, &sample);
        let wanted = report::report(&sample.bytes, &keys);
        checks.wanted(wanted.check);
        wanted.finds.iter().for_each(|found| finds.wanted(found));
        let answer = run(folder, "modcheck", &keys, &sample.bytes);
        if answer != wanted.text {
            checks.differs(|| {
                let keys: Vec<_> = keys.iter().map(|key| format!("'{}'", key.escape_ascii())).collect();
                let (answer, wanted) = (String::from_utf8_lossy(&answer), String::from_utf8_lossy(&wanted.text));
                format!("{} with {}\n--- it prints\n{answer}--- not\n{wanted}---", keep(&sample.bytes), keys.join(" "))
            });
        }
    }
    checks.close(30, &["0", "14", "15", "16", "17", "18"]) + finds.close(30, &["0", "-", "3", "14", "19"])
}

pub fn compare_tablerun(folder: &str) -> usize {
    let mut tally = Tally::new("tablerun", "lines");
    judge_run(folder, &mut tally, &[]);
    let (lines, answers): (Vec<_>, Vec<_>) = cases::all().into_iter().unzip();
    let given = judge_run(folder, &mut tally, &lines);
    for ((line, answer), given) in lines.iter().zip(&answers).zip(&given) {
        if answer != given {
            tally.differs(|| format!("{}: {given}, not {answer} as the case has it", line.escape_ascii()));
        }
    }
    for seed in 0..60 {
        judge_run(folder, &mut tally, &sequences::small(1000 + seed, 50));
    }
    for seed in 0..20 {
        judge_run(folder, &mut tally, &sequences::middle(2000 + seed, 5, 300));
        judge_run(folder, &mut tally, &sequences::middle(3000 + seed, 2, 1200));
    }
    for seed in 0..4 {
        judge_run(folder, &mut tally, &sequences::middle(4000 + seed, 1, 4096));
    }
    judge_run(folder, &mut tally, &sequences::large(5000));
    let answers = [
        "moves 0", "moves 1", "moves 2", "moves 3+", "made", "found", "nothing", "erased", "1", "2", "4", "5", "6", "7",
        "8", "19",
    ];
    tally.close(200, &answers)
}

/// Judges what tablerun answers to these lines, and gives its answers. Of a table only the first difference counts.
fn judge_run(folder: &str, tally: &mut Tally, lines: &[Vec<u8>]) -> Vec<String> {
    let mut input = lines.join(&b'\n');
    // a last line ends with the input too, unless it is empty
    let open = lines.len() % 2 == 1 && lines.last().is_some_and(|line| !line.is_empty());
    if !open && !lines.is_empty() {
        input.push(b'\n');
    }
    let output = run(folder, "tablerun", &[], &input);
    let mut answers: Vec<_> = String::from_utf8_lossy(&output).split('\n').map(str::to_string).collect();
    // after the end of the last answer there is nothing
    let ends = answers.pop().is_some_and(|rest| rest.is_empty());
    if answers.len() != lines.len() || !ends {
        tally.differs(|| format!("{}: {} answers to {} lines", keep_as("lines", &input), answers.len(), lines.len()));
    }
    let mut referee = Referee::new();
    let (mut first, mut differs) = (0, false);
    for (at, (line, answer)) in lines.iter().zip(&answers).enumerate() {
        if matches!(lines::read(line), Some(Line::Make { .. })) {
            (first, differs) = (at, false);
        }
        if differs {
            continue;
        }
        let (kind, judgement) = referee.judge(line, answer);
        tally.wanted(kind);
        if let Err(fault) = judgement {
            differs = true;
            let kept = || keep_as("lines", &lines[first..=at].join(&b'\n'));
            let shown = &line[..line.len().min(80)];
            tally.differs(|| format!("{}: '{}': {fault}", kept(), shown.escape_ascii()));
        }
    }
    answers
}
