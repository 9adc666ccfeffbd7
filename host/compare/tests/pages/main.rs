//! Pages as they stand hold, and a page with one thing changed is told with its place.

#[path = "../common/mod.rs"]
mod common;
mod programs;
mod stub;

use compare::pages::{check, Desk, Programs, PAGES};
use std::path::{Path, PathBuf};
use stub::Stub;

const INPUTS: &str = PAGES[0];

/// The repository's folder.
fn root() -> PathBuf {
    Path::new(env!("CARGO_MANIFEST_DIR")).join("../..")
}

/// A page as it stands.
fn page(name: &str) -> String {
    std::fs::read_to_string(root().join(name)).expect("a page of the repository")
}

/// What fails on a page with that text.
fn failed(name: &str, text: &str, programs: &dyn Programs) -> Vec<String> {
    let root = root();
    let desk = Desk {
        root: &root,
        programs,
    };
    check(name, text, &desk).failed
}

/// A page's text with one thing changed in its one line that begins so.
fn changed(text: &str, line: &str, from: &str, to: &str) -> String {
    let lines: Vec<&str> = text.lines().filter(|l| l.starts_with(line)).collect();
    let [found] = lines[..] else {
        panic!("{} lines begin with {line:?}", lines.len());
    };
    assert_eq!(found.matches(from).count(), 1, "{from:?} in {found:?}");
    text.replacen(found, &found.replace(from, to), 1)
}

/// Sees that a change of a page fails at a place, with these words.
fn told(name: &str, text: &str, place: &str, words: &str) {
    let failed = failed(name, text, &Stub(None));
    let place = format!("{name}, {place}");
    let here = failed.iter().find(|why| why.starts_with(&place));
    let here = here.unwrap_or_else(|| panic!("{place} is not told: {failed:?}"));
    assert!(here.contains(words), "{here:?} should tell {words:?}");
}

/// The changes to try.
const EDITS: &str = include_str!("edits.txt");

#[test]
fn one_thing_changed() {
    let (mut place, mut line) = ("", "");
    let said = |edit: &&str| !edit.is_empty() && !edit.starts_with('#');
    for edit in EDITS.lines().filter(said) {
        if let Some(words) = edit.strip_prefix("@ ") {
            place = words;
        } else if let Some(words) = edit.strip_prefix("> ") {
            line = words;
        } else {
            let (name, place) = place.split_once(", ").expect("a page and a table");
            let parts: Vec<&str> = edit.split(" => ").collect();
            let [from, others, words] = parts[..] else {
                panic!("no change: {edit:?}");
            };
            for to in others.split(" / ") {
                told(name, &changed(&page(name), line, from, to), place, words);
            }
        }
    }
}

#[test]
fn bytes_that_are_exchanged() {
    for (one, other) in [
        ("32 and 33", "34 and 35"),
        ("34 and 35", "36 and 37"),
        ("0 and 1", "2 and 3"),
        ("2 and 3", "4 and 5"),
    ] {
        let [one, other] = [one, other].map(|bytes| format!("| {bytes} |"));
        let text = page(INPUTS).replace(&one, "| here |");
        let text = text.replace(&other, &one).replace("| here |", &other);
        // A short header has no bytes 36 and 37.
        let words = match one.contains("34") {
            true => "a sheet has no byte 36",
            false => "for rise of ",
        };
        told(INPUTS, &text, "table 'The bytes of a sheet', row ", words);
    }
}

#[test]
fn pages_as_they_stand() {
    for name in PAGES {
        assert_eq!(failed(name, &page(name), &Stub(None)), Vec::<String>::new());
    }
}

#[test]
fn a_table_that_no_check_claims() {
    let table = "\n| a | b |\n|---|---|\n| 1 | 2 |\n";
    for name in PAGES {
        let more = page(name) + "\n## More\n" + table;
        told(name, &more, "table 'More'", "no check claims it");
        let bare = page(name) + "\n## More\n\na | b\n---|---\n1 | 2\n";
        told(name, &bare, "table 'More'", "no check claims it");
    }
    let sentence = "\nThe last says that";
    let second = page(INPUTS).replace(sentence, &(table.to_string() + sentence));
    let place = "table 'What goes together'";
    told(INPUTS, &second, place, "there are 2 tables");
}

#[test]
fn a_table_that_is_gone_or_has_another_header() {
    let headers = [
        (INPUTS, "The cable", "| field |", "range"),
        (INPUTS, "What is asked", "| typed |", "range"),
        (INPUTS, "What goes together", "| rule |", "rule"),
        (INPUTS, "The bytes of a sheet", "| part |", "bytes"),
        (INPUTS, "Every refusal", "| number |", "comes from"),
        (PAGES[1], "What is promised", "| answer |", "proved for"),
        (PAGES[2], "Sheets to try", "| sheet |", "before"),
    ];
    for (name, section, line, column) in headers {
        let place = format!("table '{section}'");
        let text = page(name);
        let other = changed(&text, line, column, "other");
        told(name, &other, &place, "its columns should be");
        let begin = text.find(&format!("\n{line}")).expect("a header") + 1;
        let end = begin + text[begin..].find("\n\n").expect("an end");
        let gone = text[..begin].to_string() + &text[end..];
        told(name, &gone, &place, "there are 0 tables");
        let no_rows = text[begin..end].lines().next().expect("a header");
        let no_rows = text[..begin].to_string() + no_rows + &text[end..];
        told(name, &no_rows, &place, "it has no rows");
        let moved = text.replace(&format!("# {section}"), "# Other");
        told(name, &moved, &place, "there are 0 such sections");
    }
}

#[test]
fn a_row_that_is_gone_or_is_there_twice() {
    for name in PAGES {
        let text = page(name);
        let rows = text.lines().filter(|line| {
            let data = line.starts_with('|') && !line.starts_with("|---");
            data && !text.contains(&format!("{line}\n|---"))
        });
        for row in rows {
            let line = format!("{row}\n");
            let without = text.replacen(&line, "", 1);
            assert!(
                !failed(name, &without, &Stub(None)).is_empty(),
                "without {row}"
            );
            let twice = text.replacen(&line, &line.repeat(2), 1);
            assert!(!failed(name, &twice, &Stub(None)).is_empty(), "twice {row}");
            let (begin, _) = row.rsplit_once(" | ").expect("two cells");
            let cut = text.replacen(row, &format!("{begin} |"), 1);
            assert!(!failed(name, &cut, &Stub(None)).is_empty(), "cut {row}");
        }
    }
}
