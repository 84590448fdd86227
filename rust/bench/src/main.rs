//! Times the library's calls against plain Rust versions on the same bytes and buffers, after all answers and buffers
//! were compared; ends with 1 where a limit is passed. `--sheet` only times the sheet of a stream; `--picture FILE`
//! only times how cost grows, and draws it; `--search TRIALS` looks for orders that are dear for the library.
//! Times mean nothing under an emulator; tools/speed.sh runs this on the machine at hand.

mod growth;
mod others;
mod picture;
mod plain;
mod planning;
mod report;
mod room;
mod search;
mod shapes;
mod sheets;
mod timing;

use report::Report;
use std::process::ExitCode;
use trials::Random;

/// The seed of every run.
const SEED: u64 = 0x1EAF_A4C4_0BE4_C400;

fn main() -> ExitCode {
    let words: Vec<String> = std::env::args().skip(1).collect();
    let words: Vec<&str> = words.iter().map(String::as_str).collect();
    let random = &mut Random::new(SEED);
    match (&words[..], words.get(1).and_then(|trials| trials.parse().ok())) {
        ([], _) => return speed(random),
        (["--sheet"], _) => return sheet(random),
        (["--picture", file], _) => draw(random, file),
        (["--search", _], Some(trials)) => search::search(random, trials),
        _ => {
            eprintln!(
                "bench: the words are --sheet, --picture and a file, or --search and a number of trials"
            );
            return ExitCode::from(2);
        }
    }
    ExitCode::SUCCESS
}

/// All measures, then the goals and limits.
fn speed(random: &mut Random) -> ExitCode {
    let mut report = Report::default();
    println!(
        "{} inputs a measure; all answers and buffers are compared first, of damaged inputs too",
        planning::ORDERS
    );
    report.head("plan, a family of orders each", "plain Rust");
    planning::time_families(random, |line| report.tell(line));
    report.head("other calls", "plain Rust");
    others::time_others(random, |line| report.tell(line));
    growth::time_growth(random);
    time_sheets(random, &mut report);
    ended(&report)
}

/// The sheet of a stream alone.
fn sheet(random: &mut Random) -> ExitCode {
    let mut report = Report::default();
    time_sheets(random, &mut report);
    ended(&report)
}

fn time_sheets(random: &mut Random, report: &mut Report) {
    report.head("sheet of a stream, an entry each", "the other");
    sheets::time_sheets(random, |line| report.tell(line));
}

/// The goals and limits, and how the run ends.
fn ended(report: &Report) -> ExitCode {
    if report.verdict() {
        ExitCode::SUCCESS
    } else {
        ExitCode::FAILURE
    }
}

/// How cost grows, as a picture in a file.
fn draw(random: &mut Random, file: &str) {
    let svg = picture::picture(&growth::time_growth(random));
    std::fs::write(file, svg).expect("the picture's file can be written");
    println!("{file} is written");
}
