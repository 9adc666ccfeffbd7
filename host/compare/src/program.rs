//! The built programs, each of which answers with one line on standard output. `rise` and
//! `rise_by_reader` read a sheet on standard input; they walk the chain in two ways, so that
//! every sheet goes to both and both must answer alike. `rating` takes its question as words.

use crate::check::{check, Verdict};
use crate::distance::{require, Held};
use crate::input::Input;
use crate::numbers::cable_a;
use crate::trench::Trench;
use kechmowad::{Bounds, Refusal};
use std::fmt;
use std::io::{ErrorKind, Write};
use std::path::Path;
use std::process::{Command, Output, Stdio};
use std::sync::atomic::{AtomicUsize, Ordering};

/// The programs' names.
pub const RISE: &str = "rise";
pub const READER: &str = "rise_by_reader";
pub const RATING: &str = "rating";

/// Both programs of a folder, and how many of the sheets that they got were answered alike.
pub struct Walks<'a> {
    programs: &'a Path,
    sheets: AtomicUsize,
    alike: AtomicUsize,
}

impl<'a> Walks<'a> {
    /// Both programs of a folder, before their first sheet.
    pub fn of(programs: &'a Path) -> Walks<'a> {
        Walks {
            programs,
            sheets: AtomicUsize::new(0),
            alike: AtomicUsize::new(0),
        }
    }

    /// What both print of a sheet.
    pub fn printed(&self, sheet: &[u8]) -> Result<String, String> {
        self.sheets.fetch_add(1, Ordering::Relaxed);
        // In turn: where there are many sheets, every core has one of its own already.
        let rise = answer(&self.programs.join(RISE), &[], sheet)?;
        let reader = answer(&self.programs.join(READER), &[], sheet)?;
        alike(&rise, &reader)?;
        self.alike.fetch_add(1, Ordering::Relaxed);
        String::from_utf8(rise.stdout).map_err(|error| error.to_string())
    }
}

impl fmt::Display for Walks<'_> {
    fn fmt(&self, f: &mut fmt::Formatter<'_>) -> fmt::Result {
        let [alike, sheets] = [&self.alike, &self.sheets].map(|sum| sum.load(Ordering::Relaxed));
        write!(f, "{}", answered_alike(alike, sheets, "sheets"))
    }
}

/// The line for how many were answered alike.
pub fn answered_alike(alike: usize, of: usize, what: &str) -> String {
    format!("{alike} of {of} {what} answered alike by {RISE} and {READER}")
}

/// Runs a program with words and a sheet.
fn answer(program: &Path, words: &[String], sheet: &[u8]) -> Result<Output, String> {
    let told = |error: std::io::Error| format!("{}: {error}", program.display());
    let mut child = Command::new(program)
        .args(words)
        .stdin(Stdio::piped())
        .stdout(Stdio::piped())
        .stderr(Stdio::piped())
        .spawn()
        .map_err(told)?;
    let mut input = child.stdin.take().expect("its standard input is a pipe");
    // A program that needs no more of its input may close it.
    match input.write_all(sheet) {
        Err(error) if error.kind() != ErrorKind::BrokenPipe => return Err(told(error)),
        _ => drop(input),
    }
    let output = child.wait_with_output().map_err(told)?;
    match output.status.code() {
        Some(_) => Ok(output),
        None => Err(format!(
            "{} ended with {}",
            program.display(),
            output.status
        )),
    }
}

/// Holds what the two programs did with one input together: answer and complaint, byte for
/// byte, and exit status.
pub fn alike(rise: &Output, reader: &Output) -> Held {
    let told = |output: &Output| {
        let [printed, complaint] = [&output.stdout, &output.stderr].map(|b| b.escape_ascii());
        format!("\"{printed}\" and \"{complaint}\", {}", output.status)
    };
    let words = format!("{READER} as {RISE}: {}; not {}", told(rise), told(reader));
    require(rise == reader, &words)
}

/// What `rating` prints of a question. A sheet reaches it by its standard input.
pub fn rating(programs: &Path, input: &Input) -> Result<String, String> {
    let (trench, numbers) = match input.clone() {
        Input::Share { trench, minutes } => (trench, vec![minutes]),
        Input::Rise { sheet } => (Trench::Sheet(sheet), Vec::new()),
        Input::Factor { trench, hours } => (trench, hours.map(u32::from).to_vec()),
        Input::Current {
            trench,
            h,
            r,
            minutes,
        } => (trench, vec![h, r, minutes]),
    };
    let typed = |numbers: &[u32]| numbers.iter().map(u32::to_string).collect();
    let (laid, sheet): (Vec<String>, _) = match trench {
        Trench::Alone(cable) => (typed(cable.fields()), Vec::new()),
        Trench::Sheet(sheet) => (vec!["/dev/stdin".to_string()], sheet),
    };
    let words = [vec![input.name().to_string()], laid, typed(&numbers)].concat();
    let Output {
        status,
        stdout,
        stderr,
    } = answer(&programs.join(RATING), &words, &sheet)?;
    let complaint = stderr.escape_ascii();
    let told = format!("no complaint and status 0, not \"{complaint}\", {status}");
    require(status.success() && stderr.is_empty(), &told)?;
    String::from_utf8(stdout).map_err(|error| error.to_string())
}

/// The line that spells an answer: the calculation's name and its values, or the refusal.
pub fn spelled(name: &str, said: Result<String, Refusal>) -> String {
    match said {
        Ok(values) => format!("{name} {values}\n"),
        Err(refusal) => format!("refused {} {}\n", refusal.number(), refusal.place.number()),
    }
}

/// The line that spells the library's answer to a question.
pub fn line_of(input: &Input) -> String {
    let pair = |Bounds { low, high }| format!("{low} {high}");
    spelled(
        input.name(),
        input.answered(pair, |value| value.to_string()),
    )
}

/// Judges the library's answer, and holds to it what is printed.
fn holding(input: &Input, printed: impl FnOnce() -> Result<String, String>) -> Verdict {
    let same = |line: String| {
        let expected = line_of(input);
        let words = format!("the line {expected:?}, not {line:?}");
        require(line == expected, &words)
    };
    let mut verdict = check(input);
    verdict.held = verdict.held.and_then(|()| printed()).and_then(same);
    verdict
}

/// Asks the library and both programs for the rise of a sheet and judges all.
pub fn by_rise(walks: &Walks, input: &Input) -> Verdict {
    let Input::Rise { sheet } = input else {
        panic!("the programs read sheets only: {input}");
    };
    holding(input, || walks.printed(sheet))
}

/// Asks the library and `rating` any question and judges both.
pub fn by_rating(programs: &Path, input: &Input) -> Verdict {
    holding(input, || rating(programs, input))
}

/// Longest sheet of `every_length`, in bytes.
const LENGTHS: usize = 340;

/// Asks for the rise of a sheet of every length: cable A, 300 A, and zero bytes, which are
/// links that end a chain. Says what came of it, and whether all agree.
pub fn every_length(walks: &Walks) -> bool {
    let head = kechmowad::sheet(&cable_a(), 300, 0, &[]);
    let mut agreeing = 0;
    for length in 0..=LENGTHS {
        let mut sheet = head.clone();
        sheet.resize(length, 0);
        match by_rise(walks, &Input::Rise { sheet }).held {
            Ok(()) => agreeing += 1,
            Err(why) => println!("DISAGREEMENT\n{length} bytes: {why}"),
        }
    }
    println!("{agreeing} of {} lengths agree", LENGTHS + 1);
    agreeing == LENGTHS + 1
}
