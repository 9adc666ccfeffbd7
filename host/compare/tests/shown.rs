//! Commands that a document shows are found, and one that prints anything else is told.

use compare::shown::{by_reader, shown_in, Shown};
use std::path::Path;

fn shown(command: &str, prints: &str) -> Shown {
    Shown {
        command: command.to_string(),
        prints: prints.to_string(),
    }
}

#[test]
fn commands_are_found_with_their_lines() {
    let text =
        "Words.\n\n    $ echo 1\n    1\n    $ true\n\n```\n$ printf 'a\\nb\\n'\na\nb\n```\nmore\n";
    let found = shown_in(text);
    let expected = [
        shown("echo 1", "1\n"),
        shown("true", ""),
        shown("printf 'a\\nb\\n'", "a\nb\n"),
    ];
    assert_eq!(found, expected);
}

#[test]
fn what_is_printed_is_held_to_what_is_shown() {
    let held = |command, prints| shown(command, prints).check(Path::new("."), Path::new("."));
    assert!(held("echo 1", "1\n").is_ok());
    for prints in ["2\n", "1", "", "1\n1\n"] {
        assert!(held("echo 1", prints).is_err(), "{prints:?}");
    }
    assert!(held("echo 1; echo 2 >&2", "1\n").is_err());
}

#[test]
fn rise_is_found_where_it_is_run() {
    for (command, other) in [
        ("rise < a.sheet", "rise_by_reader < a.sheet"),
        (
            "cat a.sheet | rise; echo $?",
            "cat a.sheet | rise_by_reader; echo $?",
        ),
        (
            "(target/bin/rise 2>&1) <&-",
            "(target/bin/rise_by_reader 2>&1) <&-",
        ),
        ("echo $(rise < a.sheet)", "echo $(rise_by_reader < a.sheet)"),
        ("with-status rise word", "with-status rise_by_reader word"),
        (
            "rating rise a; rise < a",
            "rating rise a; rise_by_reader < a",
        ),
    ] {
        assert_eq!(by_reader(command).as_deref(), Some(other));
    }
    for command in [
        "rating rise a.sheet",
        "env -i target/bin/rating rise a.sheet",
        "for words in help 'rise a.sheet'; do rating $words; done",
        "rise_by_reader < a.sheet",
        "rise_files",
    ] {
        assert_eq!(by_reader(command), None);
    }
}
