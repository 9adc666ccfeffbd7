//! The built programs that pages speak of, and what `rating explain` must print.

use crate::distance::{require, Held};
use crate::program::{Walks, RATING};
use kechmowad::Condition;
use std::path::Path;
use std::process::Command;

/// The programs, built or stood in for.
pub trait Programs {
    /// What `rating explain` prints with these words.
    fn explain(&self, words: &[u8]) -> Result<Said, String>;
    /// What `rise` prints of a sheet, and `rise_by_reader` too.
    fn rise(&self, sheet: &[u8]) -> Result<String, String>;
}

/// What a program printed.
#[derive(Debug, Clone, PartialEq, Eq)]
pub struct Said {
    /// On standard output.
    pub printed: String,
    /// On standard error.
    pub complaint: String,
}

/// The programs of a folder.
pub struct Built<'a> {
    folder: &'a Path,
    pub walks: Walks<'a>,
}

impl<'a> Built<'a> {
    /// The programs of a folder, before their first question.
    pub fn of(folder: &'a Path) -> Built<'a> {
        Built {
            folder,
            walks: Walks::of(folder),
        }
    }
}

impl Programs for Built<'_> {
    fn explain(&self, words: &[u8]) -> Result<Said, String> {
        let program = self.folder.join(RATING);
        let output = Command::new(&program)
            .arg("explain")
            .args(words.iter().map(u8::to_string))
            .output()
            .map_err(|error| format!("{}: {error}", program.display()))?;
        let text = |bytes| String::from_utf8(bytes).map_err(|error| error.to_string());
        Ok(Said {
            printed: text(output.stdout)?,
            complaint: text(output.stderr)?,
        })
    }

    fn rise(&self, sheet: &[u8]) -> Result<String, String> {
        self.walks.printed(sheet)
    }
}

/// The words of a condition.
fn condition(number: u8) -> Result<&'static str, String> {
    let condition = Condition::of(number).ok_or_else(|| format!("no condition {number}"))?;
    Ok(condition.words())
}

/// Holds what is said with some words.
fn hold(
    programs: &dyn Programs,
    words: &[u8],
    expected: &str,
    holds: impl FnOnce(&Said) -> bool,
) -> Held {
    let said = programs.explain(words)?;
    let typed: Vec<String> = words.iter().map(u8::to_string).collect();
    let typed = typed.join(" ");
    let words = format!("`rating explain {typed}` prints {expected}, not {said:?}");
    require(holds(&said), &words)
}

/// A number alone prints the condition's line.
pub fn number_alone(programs: &dyn Programs, number: u8) -> Held {
    let line = format!("{}\n", condition(number)?);
    hold(programs, &[number], &format!("{line:?}"), |said| {
        said.printed == line && said.complaint.is_empty()
    })
}

/// A number and a place print the condition's line and one that says what the place is.
pub fn place_is(programs: &dyn Programs, number: u8, place: u8, second: &str) -> Held {
    let lines = format!("{}\n{second}\n", condition(number)?);
    hold(programs, &[number, place], &format!("{lines:?}"), |said| {
        said.printed == lines && said.complaint.is_empty()
    })
}

/// The same, where only the beginning of the second line is known.
pub fn place_begins(programs: &dyn Programs, number: u8, place: u8, second: &str) -> Held {
    let first = condition(number)?;
    let expected = format!("{first:?} and a line \"{second}..\"");
    hold(programs, &[number, place], &expected, |said| {
        let lines: Vec<&str> = said.printed.lines().collect();
        let [one, two] = lines[..] else {
            return false;
        };
        one == first
            && two.starts_with(second)
            && two.len() > second.len()
            && said.printed.ends_with('\n')
            && said.complaint.is_empty()
    })
}

/// A place that the condition never has: the condition's line, and a complaint.
pub fn no_such_place(programs: &dyn Programs, number: u8, place: u8) -> Held {
    let line = format!("{}\n", condition(number)?);
    let expected = format!("{line:?} and a complaint \"rating:..\"");
    hold(programs, &[number, place], &expected, |said| {
        let one_line = said.complaint.lines().count() == 1;
        said.printed == line && one_line && said.complaint.starts_with("rating:")
    })
}
