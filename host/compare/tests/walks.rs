//! `rise` and `rise_by_reader` are held together, and each way to differ is told.

mod common;

use common::folder;
use compare::program::{alike, Walks};
use compare::shown::{self, Shown};
use std::os::unix::process::ExitStatusExt;
use std::path::{Path, PathBuf};
use std::process::{ExitStatus, Output};

/// What a program did that ended with a status.
fn output(printed: &str, complaint: &str, status: i32) -> Output {
    Output {
        // The status stands above the byte of a signal.
        status: ExitStatus::from_raw(status << 8),
        stdout: printed.into(),
        stderr: complaint.into(),
    }
}

#[test]
fn two_outputs_that_differ() {
    let rise = output("rise -7 9\n", "", 0);
    assert!(alike(&rise, &rise.clone()).is_ok());
    for reader in [
        output("rise -7 8\n", "", 0),
        output("rise 7 9\n", "", 0),
        output("rise -7 9", "", 0),
        output("rise -7 9\n\n", "", 0),
        output("Rise -7 9\n", "", 0),
        output("refused 8 1\n", "", 0),
        output("", "", 0),
        output("rise -7 9\n", "", 1),
        output("rise -7 9\n", "rise_by_reader: more\n", 0),
    ] {
        let told = alike(&rise, &reader).expect_err("they differ");
        assert!(told.contains("\"rise -7 9\\n\" and \"\", exit status: 0; not"));
        assert!(alike(&reader, &rise).is_err(), "{reader:?}");
    }
    let not_text = |byte| Output {
        stdout: vec![byte],
        ..rise.clone()
    };
    assert!(alike(&not_text(0x80), &not_text(0x81)).is_err());
}

/// Prints the sum of what it reads, and its length.
const SUM: &str = "#!/bin/sh\ncksum\n";

/// The same, but for 42 bytes.
const OTHER: &str = "#!/bin/sh\ncksum | sed 's/ 42$/ 43/'\n";

/// The same, with another status.
const STATUS: &str = "#!/bin/sh\ncksum\nexit 3\n";

/// Complains under its name.
const COMPLAINS: &str = "#!/bin/sh\necho \"${0##*/}: no\" >&2\n";

/// Complains under the name of `rise`.
const ANOTHER_NAME: &str = "#!/bin/sh\necho 'rise: no' >&2\n";

/// Answers under its name.
const ANSWERS: &str = "#!/bin/sh\necho \"${0##*/} 1 2\"\n";

const KILLED: &str = "#!/bin/sh\nkill $$\n";

/// A folder with these two, and with a text that shows a command.
fn both(test: &str, rise: &str, reader: &str) -> PathBuf {
    let text = "$ rise < /dev/null\n4294967295 0\n";
    let files = [("rise", rise), ("rise_by_reader", reader), (TEXT, text)];
    folder(test, &files)
}

const TEXT: &str = "text";

// One test for all that starts programs: a script cannot be run while a process that
// another test has just begun still has it open for writing.
#[test]
fn programs_of_a_folder() {
    sheets();
    commands();
}

fn sheets() {
    let right = both("alike", SUM, SUM);
    let walks = Walks::of(&right);
    for length in [0, 36, 42, 400] {
        let line = walks.printed(&vec![7; length]).expect("the same sum");
        assert!(line.ends_with(&format!(" {length}\n")), "{line:?}");
    }
    let line = "4 of 4 sheets answered alike by rise and rise_by_reader";
    assert_eq!(walks.to_string(), line);

    let wrong = both("unlike", SUM, OTHER);
    let walks = Walks::of(&wrong);
    assert!(walks.printed(&[7; 36]).is_ok());
    let told = walks.printed(&[7; 42]).expect_err("another length");
    assert!(told.contains(" 42\\n") && told.contains(" 43\\n"), "{told}");
    let line = "1 of 2 sheets answered alike by rise and rise_by_reader";
    assert_eq!(walks.to_string(), line);

    for (rise, reader) in [
        (SUM, STATUS),
        (SUM, COMPLAINS),
        (SUM, KILLED),
        // Neither of these answers.
        (COMPLAINS, COMPLAINS),
        (KILLED, KILLED),
    ] {
        let folder = both("sheets", rise, reader);
        assert!(Walks::of(&folder).printed(&[]).is_err(), "{reader:?}");
    }
    let alone = folder("alone", &[("rise", SUM)]);
    let told = Walks::of(&alone).printed(&[]).expect_err("one program");
    assert!(told.contains("rise_by_reader: No such file"), "{told}");
}

fn commands() {
    let walks = |command: &str, rise, reader| {
        let shown = Shown {
            command: command.to_string(),
            prints: String::new(),
        };
        shown.walks(Path::new("."), &both("commands", rise, reader))
    };
    assert_eq!(walks("printf 12 | rise", SUM, SUM), Some(Ok(())));
    assert_eq!(walks("rating rise 12", SUM, OTHER), None);
    assert_eq!(walks("rise 2>&1", COMPLAINS, COMPLAINS), Some(Ok(())));
    for (command, rise, reader) in [
        ("printf %42d 0 | rise", SUM, OTHER),
        ("rise < /dev/null", SUM, STATUS),
        ("rise < /dev/null", ANSWERS, ANSWERS),
        ("rise 2>&1", COMPLAINS, ANOTHER_NAME),
        ("rise", COMPLAINS, COMPLAINS),
    ] {
        let told = walks(command, rise, reader).expect("it runs rise");
        let told = told.expect_err("they differ");
        assert!(told.contains("rise_by_reader"), "{told}");
    }
    for (reader, agrees) in [(SUM, true), (STATUS, false)] {
        let folder = both("text", SUM, reader);
        assert_eq!(shown::run(&folder, &folder, &[TEXT]), agrees);
    }
}
