//! What `rating` is asked, and each way in which its answer may differ from the library's.

mod common;

use common::folder;
use compare::program::{by_rating, by_rise, line_of, rating, Walks};
use compare::{cable_a, Input, Trench};
use kechmowad::long_sheet;
use std::path::PathBuf;

/// Prints its words, and how many bytes it reads.
const WORDS: &str = "#!/bin/sh\necho \"$*:\" $(wc -c)\n";

/// Cable A with a neighbour on either side.
fn three_cables() -> Vec<u8> {
    let neighbours = [[200, 1_000, 2], [-200_i16 as u16, 1_000, 0]];
    long_sheet(&cable_a(), 300, 0, 1, &neighbours)
}

/// Every calculation of a trench.
fn questions(trench: Trench) -> [Input; 4] {
    [
        Input::Share {
            trench: trench.clone(),
            minutes: 60,
        },
        Input::Factor {
            trench: trench.clone(),
            hours: std::array::from_fn(|hour| 10 * hour as u16),
        },
        Input::Current {
            trench,
            h: 75,
            r: 100,
            minutes: 120,
        },
        Input::Rise {
            sheet: three_cables(),
        },
    ]
}

/// A program that does this, as `rating` and as both that walk a sheet.
fn does(test: &str, script: &str) -> PathBuf {
    let script = format!("#!/bin/sh\ncat > /dev/null\n{script}\n");
    let programs = ["rating", "rise", "rise_by_reader"].map(|name| (name, &script[..]));
    folder(test, &programs)
}

// One test for all that starts programs: a script cannot be run while a process that
// another test has just begun still has it open for writing.
#[test]
fn programs_of_a_folder() {
    words();
    lines();
    complaints();
}

fn words() {
    let programs = folder("words", &[("rating", WORDS)]);
    let day =
        "0 10 20 30 40 50 60 70 80 90 100 110 120 130 140 150 160 170 180 190 200 210 220 230";
    let cable = "500 1000 500 600000 500000 1000 100 400";
    for (trench, laid, bytes) in [
        (Trench::Alone(cable_a()), cable, 0),
        (Trench::Sheet(three_cables()), "/dev/stdin", 50),
    ] {
        let typed = questions(trench).map(|input| rating(&programs, &input));
        let expected = [
            format!("share {laid} 60: {bytes}\n"),
            format!("factor {laid} {day}: {bytes}\n"),
            format!("current {laid} 75 100 120: {bytes}\n"),
            "rise /dev/stdin: 50\n".to_string(),
        ];
        assert_eq!(typed, expected.map(Ok));
    }
}

fn lines() {
    for input in questions(Trench::Sheet(three_cables())) {
        let line = line_of(&input);
        let said = line.trim_end();
        let right = does("lines", &format!("echo '{said}'"));
        assert_eq!(by_rating(&right, &input).held, Ok(()));
        for wrong in [
            format!("echo '{said}0'"),
            format!("echo '{said} '"),
            format!("printf '%s' '{said}'"),
            format!("echo '{said}'; echo"),
            "echo 'refused 13 0'".to_string(),
            "true".to_string(),
        ] {
            let programs = does("lines", &wrong);
            let mut held = vec![by_rating(&programs, &input).held];
            if let Input::Rise { .. } = input {
                held.push(by_rise(&Walks::of(&programs), &input).held);
            }
            for told in held {
                let told = told.expect_err("another line agreed");
                assert!(told.contains(&format!("the line {line:?}, not")), "{told}");
            }
        }
    }
}

fn complaints() {
    let [input, ..] = questions(Trench::Alone(cable_a()));
    let line = line_of(&input);
    for (and, words) in [
        ("echo more >&2", "no complaint and status 0"),
        ("exit 3", "no complaint and status 0"),
        ("kill $$", "ended with signal"),
    ] {
        let programs = does("complaints", &format!("echo '{}'; {and}", line.trim_end()));
        let told = by_rating(&programs, &input).held.expect_err("a complaint");
        assert!(told.contains(words), "{told}");
    }
    let told = by_rating(&folder("no-rating", &[]), &input).held;
    let told = told.expect_err("no program");
    assert!(told.contains("rating: No such file"), "{told}");
}
