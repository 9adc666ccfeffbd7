//! Programs that explain a refusal otherwise, and programs of a folder.

use super::stub::{explain, Fault, Stub};
use super::{common, failed, page, root, INPUTS};
use compare::pages::{run, Built, Programs, Said};
use std::path::PathBuf;

/// Each is wrong in a little: more or less is printed, another number or word, a
/// complaint that is missing, or one that should not be.
const FAULTS: [Fault; 17] = [
    (&[13], "h² above 100·r\nmore\n", ""),
    (&[13], "all hours 0\n", ""),
    (&[11, 0], "all hours 0\n", ""),
    (
        &[11, 0],
        "all hours 0\nno place is named\n",
        "rating: more\n",
    ),
    (&[5, 0], "link above n\nrecord 0: its next link\n", ""),
    (&[5, 48], "link above n\nrecord 47: its next link\n", ""),
    (
        &[10, 7],
        "hour above 4,000 A, first such\nhour 7: its amperes\n",
        "",
    ),
    (&[2, 9], "field outside its range, first such\n", ""),
    (&[2, 0], "", "rating: there is no field 0\n"),
    (
        &[1, 1],
        "length is neither 36 + 6n nor 38 + 6n, n 0 to 48\nno place is named\n",
        "",
    ),
    (&[1], "length is not 36 + 6n, n 0 to 48\n", ""),
    (
        &[14, 0],
        "neighbour's link above n or, unless 0, not above the record holding it\n\
         record 0: the header's first link\n",
        "",
    ),
    (
        &[14, 7],
        "neighbour's link above n or, unless 0, not above the record holding it\n\
         record 7: its link\n",
        "",
    ),
    (
        &[15, 48],
        "neighbour's offset beyond 3,000 mm either way, or depth outside 300 to 5,000\n\
         record 48: its offset, 3,000 mm at most, and depth, 300 to 5,000 mm\n",
        "",
    ),
    (
        &[15, 0],
        "neighbour's offset beyond 3,000 mm either way, or depth outside 300 to 5,000\n\
         record 0: its offset, 3,000 mm either way at most, and depth, 300 to 5,000 mm\n",
        "",
    ),
    (
        &[16, 1],
        "neighbour's c below d\nrecord 1: its distance from the cable's axis\n",
        "",
    ),
    (&[16, 49], "neighbour's c below d\n", ""),
];

#[test]
fn a_refusal_explained_otherwise() {
    for fault in FAULTS {
        let typed: Vec<String> = fault.0.iter().map(u8::to_string).collect();
        let command = format!("`rating explain {}`", typed.join(" "));
        let failed = failed(INPUTS, &page(INPUTS), &Stub(Some(fault)));
        assert!(!failed.is_empty(), "{fault:?}");
        for told in failed {
            assert!(told.contains(&command), "{fault:?}: {told}");
        }
    }
}

/// Programs that know no place.
struct NumbersOnly;

impl Programs for NumbersOnly {
    fn explain(&self, words: &[u8]) -> Result<Said, String> {
        match words {
            [_] => Ok(explain(words)),
            _ => Ok(Said {
                printed: String::new(),
                complaint: "usage: one number wanted\n".to_string(),
            }),
        }
    }

    fn rise(&self, sheet: &[u8]) -> Result<String, String> {
        Stub(None).rise(sheet)
    }
}

#[test]
fn no_place_explained() {
    // Every row with a place fails, and for nothing else.
    let failed = failed(INPUTS, &page(INPUTS), &NumbersOnly);
    assert_eq!(failed.len(), 8 + 4 + 10 + 16, "{failed:?}");
    for told in failed {
        assert!(told.contains("should be: `rating explain "), "{told}");
    }
}

/// A folder with the programs as shell scripts, for a test of that name, and beside them
/// what the first of them says.
fn folder(test: &str, said: &[(String, String)], rise: &str, reader: &str) -> PathBuf {
    let scripts = [
        ("rating", RATING),
        ("rise", rise),
        ("rise_by_reader", reader),
    ];
    let said = said.iter().map(|(file, text)| (&file[..], &text[..]));
    let files: Vec<(&str, &str)> = scripts.into_iter().chain(said).collect();
    common::folder(test, &files)
}

/// A script that prints what files named after its words hold.
const RATING: &str = "#!/bin/sh
say() { while IFS= read -r line; do echo \"$line\"; done < \"${0%/*}/$1\"; }
say \"$*.printed\"
say \"$*.complaint\" >&2
";

/// Names and texts of files that explain every number and place, up to 50.
fn explained() -> Vec<(String, String)> {
    let mut files = Vec::new();
    let mut add = |words: &[u8]| {
        let Said { printed, complaint } = explain(words);
        let typed: Vec<String> = words.iter().map(u8::to_string).collect();
        let typed = typed.join(" ");
        files.push((format!("explain {typed}.printed"), printed));
        files.push((format!("explain {typed}.complaint"), complaint));
    };
    for number in 1..=16 {
        add(&[number]);
        (0..=50).for_each(|place| add(&[number, place]));
    }
    files
}

/// A script that knows the sheets by their lengths.
const RISE: &str = "#!/bin/sh
case $(wc -c) in
*36) echo rise 562500 562500 ;;
*42) echo refused 8 1 ;;
*66) echo rise 610948 610956 ;;
*68) echo rise 856089 856093 ;;
esac
";

#[test]
fn programs_of_a_folder() {
    let said = explained();
    let right = folder("right", &said, RISE, RISE);
    let built = Built::of(&right);
    assert_eq!(built.explain(&[2, 9]), Ok(explain(&[2, 9])));
    assert_eq!(built.rise(&[0; 42]), Ok("refused 8 1\n".to_string()));
    assert!(run(&root(), &right));
    let hour = |(file, text): (String, String)| (file, text.replace("hour 7: its", "hour 8: its"));
    let other: Vec<(String, String)> = said.iter().cloned().map(hour).collect();
    assert!(!run(&root(), &folder("hour", &other, RISE, RISE)));
    let other = RISE.replace("refused 8 1", "refused 8 2");
    assert!(!run(&root(), &folder("rise", &said, &other, &other)));
    assert!(!run(&root(), &folder("reader", &said, RISE, &other)));
    assert!(!run(&root(), &right.join("nowhere")));
    assert!(!run(&right, &right));
}
