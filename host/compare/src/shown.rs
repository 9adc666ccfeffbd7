//! Commands that a document shows, run again: a line `$ COMMAND`, then the lines that it
//! prints, up to an empty line, the next command or the end of the block. A command that
//! runs `rise` is run with `rise_by_reader` too.

use crate::distance::{require, Held};
use crate::program::{alike, answered_alike, RATING, READER, RISE};
use std::path::Path;
use std::process::{Command, Output};

/// A command and what a document says that it prints.
#[derive(Debug, PartialEq, Eq)]
pub struct Shown {
    /// For the shell.
    pub command: String,
    /// Each line with its end.
    pub prints: String,
}

/// The commands that a text shows. Lines indented by four blanks are read as the rest.
pub fn shown_in(text: &str) -> Vec<Shown> {
    let mut shown: Vec<Shown> = Vec::new();
    let mut open = false;
    for line in text.lines() {
        let line = line.strip_prefix("    ").unwrap_or(line);
        if let Some(command) = line.strip_prefix("$ ") {
            shown.push(Shown {
                command: command.to_string(),
                prints: String::new(),
            });
            open = true;
        } else if line.trim().is_empty() || line.starts_with("```") {
            open = false;
        } else if let (true, Some(last)) = (open, shown.last_mut()) {
            last.prints.push_str(line);
            last.prints.push('\n');
        }
    }
    shown
}

/// The command with `rise_by_reader` wherever it runs `rise`; nothing where it does not.
/// The word after `rating` is no program.
pub fn by_reader(command: &str) -> Option<String> {
    let mut before = "";
    let mut other = Vec::new();
    for word in command.split(' ') {
        let runs = program_of(word) == RISE && program_of(before) != RATING;
        other.push(if runs {
            word.replace(RISE, READER)
        } else {
            word.to_string()
        });
        before = word;
    }
    let other = other.join(" ");
    (other != command).then_some(other)
}

/// A word without its folder and without the shell's signs beside it.
fn program_of(word: &str) -> &str {
    let name = word.trim_matches(|sign| "$(){};&|".contains(sign));
    name.rsplit('/').next().unwrap_or(name)
}

/// What `rise` printed, as `rise_by_reader` prints it: a complaint has its own name.
fn own_name(printed: &[u8]) -> Vec<u8> {
    let complaint = format!("{RISE}:");
    let renamed = |line: &str| match line.strip_prefix(&complaint) {
        Some(why) => format!("{READER}:{why}"),
        None if line.starts_with("usage:") => by_reader(line).unwrap_or(line.to_string()),
        None => line.to_string(),
    };
    let text = String::from_utf8_lossy(printed);
    let lines: Vec<String> = text.split('\n').map(renamed).collect();
    lines.join("\n").into_bytes()
}

/// Runs a command in a folder, with programs of another folder found first.
fn output(command: &str, root: &Path, programs: &Path) -> Result<Output, String> {
    let path = std::env::var("PATH").unwrap_or_default();
    Command::new("sh")
        .args(["-c", command])
        .current_dir(root)
        .env("PATH", format!("{}:{path}", programs.display()))
        .output()
        .map_err(|error| format!("{command}: {error}"))
}

impl Shown {
    /// Runs the command and holds what it prints to what is shown.
    pub fn check(&self, root: &Path, programs: &Path) -> Held {
        let output = output(&self.command, root, programs)?;
        let [printed, complaint] =
            [&output.stdout, &output.stderr].map(|bytes| String::from_utf8_lossy(bytes));
        let words = format!(
            "`{}` prints {:?} and nothing else, not {printed:?} and {complaint:?}",
            self.command, self.prints
        );
        require(printed == self.prints && complaint.is_empty(), &words)
    }

    /// Runs the command with `rise` and with `rise_by_reader` and holds the two together;
    /// nothing where it does not run `rise`.
    pub fn walks(&self, root: &Path, programs: &Path) -> Option<Held> {
        let other = by_reader(&self.command)?;
        let both = || {
            let mut rise = output(&self.command, root, programs)?;
            rise.stdout = own_name(&rise.stdout);
            let reader = output(&other, root, programs)?;
            alike(&rise, &reader).map_err(|why| format!("`{other}`: {why}"))
        };
        Some(both())
    }
}

/// Runs all that some files of the repository show; whether each prints what is shown, and
/// both walks answer alike.
pub fn run(root: &Path, programs: &Path, files: &[&str]) -> bool {
    // The commands run in another folder than this program.
    let Ok(programs) = &programs.canonicalize() else {
        println!("FAILED: there is no folder {}", programs.display());
        return false;
    };
    let mut all = true;
    let mut walks: Vec<Held> = Vec::new();
    for file in files {
        let Ok(text) = std::fs::read_to_string(root.join(file)) else {
            println!("FAILED: {file} cannot be read");
            return false;
        };
        let shown = shown_in(&text);
        let failed: Vec<String> = shown
            .iter()
            .filter_map(|one| one.check(root, programs).err())
            .collect();
        for trouble in &failed {
            println!("FAILED: {file}: {trouble}");
        }
        let held = shown.len() - failed.len();
        println!(
            "{file}: {held} of {} commands print what is shown",
            shown.len()
        );
        all &= failed.is_empty() && !shown.is_empty();
        let both = shown.iter().filter_map(|one| one.walks(root, programs));
        walks.extend(both.map(|held| held.map_err(|why| format!("{file}: {why}"))));
    }
    let count = walks.len();
    let unlike: Vec<String> = walks.into_iter().filter_map(Held::err).collect();
    for trouble in &unlike {
        println!("FAILED: {trouble}");
    }
    println!(
        "{}",
        answered_alike(count - unlike.len(), count, "commands")
    );
    all && unlike.is_empty()
}
