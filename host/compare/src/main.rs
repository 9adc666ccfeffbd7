//! The differential test's command line.

use compare::program::{self, Walks};
use compare::{check, pages, shown, Check, Input, Run, Tally};
use std::path::Path;
use std::process::ExitCode;
use std::time::{SystemTime, UNIX_EPOCH};

const USAGE: &str = "\
usage: compare [COUNT [SEED]]                  library against second program
       compare long                            the same, 10,000,000 inputs, seed from the clock
       compare rise PROGRAMS [COUNT [SEED]]    the same with sheets, through the program rise too
       compare rating PROGRAMS [COUNT [SEED]]  the same, through the program rating too
       compare shown ROOT PROGRAMS FILE..      the commands that files of ROOT show, run with PROGRAMS
       compare pages ROOT PROGRAMS             the tables of ROOT's pages, against library and PROGRAMS
PROGRAMS is the folder of the built programs. What rise gets goes to rise_by_reader too.";

/// What the gate runs, so that it is repeatable.
const GATE_COUNT: u64 = 1_000_000;
const GATE_BY_PROGRAMS: u64 = 10_000;
const GATE_SEED: u64 = 1972;
const LONG_COUNT: u64 = 10_000_000;

/// Inputs between two signs of life.
const BLOCK: u64 = 1_000_000;

/// Refusals of a sheet, and those of what is asked.
const OF_SHEET: [usize; 11] = [1, 2, 3, 4, 5, 6, 7, 8, 14, 15, 16];
const OF_QUESTION: [usize; 5] = [9, 10, 11, 12, 13];

/// From so many inputs on, a refusal or a special result that never came is a failure.
const ENOUGH: u64 = 2_000;

/// Asks so many inputs, prints the tally, and tells whether all agreed and each of the
/// refusals and special results came.
fn run(run: &Run, count: u64, refusals: &[usize]) -> bool {
    println!("seed {}, {count} inputs", run.seed);
    let mut tally = Tally::default();
    for start in (0..count).step_by(BLOCK as usize) {
        let end = count.min(start + BLOCK);
        tally.join(run.over(start..end));
        if count > BLOCK {
            println!("{end} asked");
        }
    }
    let missing = if count < ENOUGH {
        Vec::new()
    } else {
        tally.missing(refusals)
    };
    if !missing.is_empty() {
        println!("FAILED: these never came: {missing:?}");
    }
    println!("{tally}");
    tally.agreed() && missing.is_empty()
}

/// Inputs of every kind.
fn every_kind(check: Check, count: u64, seed: u64) -> bool {
    let asked = Run {
        seed,
        make: Input::any,
        check,
    };
    let refusals = [&OF_SHEET[..], &OF_QUESTION].concat();
    run(&asked, count, &refusals)
}

/// Sheets through the programs that walk one, and one of every length.
fn through_walks(programs: &str, count: u64, seed: u64) -> bool {
    let walks = Walks::of(Path::new(programs));
    let asked = Run {
        seed,
        make: Input::any_rise,
        check: &|input| program::by_rise(&walks, input),
    };
    let agreed = run(&asked, count, &OF_SHEET);
    let lengths = program::every_length(&walks);
    println!("{walks}");
    agreed && lengths
}

fn clock() -> u64 {
    let since = SystemTime::now().duration_since(UNIX_EPOCH);
    since.expect("a clock after 1970").as_nanos() as u64
}

/// COUNT and SEED where they are given; nothing where they are no numbers.
fn numbers(words: &[&str], count: u64) -> Option<(u64, u64)> {
    match words {
        [] => Some((count, GATE_SEED)),
        [count] => Some((count.parse().ok()?, GATE_SEED)),
        [count, seed] => Some((count.parse().ok()?, seed.parse().ok()?)),
        _ => None,
    }
}

/// Whether all agreed; nothing where the words are no command.
fn command(words: &[&str]) -> Option<bool> {
    match words {
        ["long"] => Some(every_kind(&check, LONG_COUNT, clock())),
        ["shown", root, programs, files @ ..] => {
            Some(shown::run(Path::new(root), Path::new(programs), files))
        }
        ["pages", root, programs] => Some(pages::run(Path::new(root), Path::new(programs))),
        ["rise", programs, rest @ ..] => {
            let (count, seed) = numbers(rest, GATE_BY_PROGRAMS)?;
            Some(through_walks(programs, count, seed))
        }
        ["rating", programs, rest @ ..] => {
            let (count, seed) = numbers(rest, GATE_BY_PROGRAMS)?;
            let check = |input: &Input| program::by_rating(Path::new(programs), input);
            Some(every_kind(&check, count, seed))
        }
        rest => {
            let (count, seed) = numbers(rest, GATE_COUNT)?;
            Some(every_kind(&check, count, seed))
        }
    }
}

fn main() -> ExitCode {
    let words: Vec<String> = std::env::args().skip(1).collect();
    let words: Vec<&str> = words.iter().map(String::as_str).collect();
    match command(&words) {
        Some(true) => ExitCode::SUCCESS,
        Some(false) => ExitCode::from(1),
        None => {
            eprintln!("{USAGE}");
            ExitCode::from(2)
        }
    }
}
