//! A run: the same inputs for the same seed, and what it says where an answer disagrees.

use compare::{cable_a, check, program, Input, Random, Run, Trench};
use kechmowad::{Condition, Place, Refusal};

#[test]
fn a_seed_stands_for_its_inputs() {
    let inputs = |seed: u64| -> Vec<Input> {
        (0..200)
            .map(|index| Input::any(&mut Random::new(seed, index)))
            .collect()
    };
    assert_eq!(inputs(5), inputs(5));
    assert_ne!(inputs(5), inputs(6));
}

#[test]
fn a_disagreement_is_told_with_its_input() {
    // A judge that finds every refused sheet wrong.
    let fails = |input: &Input| {
        let mut verdict = check(input);
        if verdict.refused == Some(1) {
            verdict.held = Err("should be: longer".to_string());
        }
        verdict
    };
    let run = Run {
        seed: 3,
        make: Input::any_rise,
        check: &fails,
    };
    let tally = run.over(0..300);
    assert!(!tally.agreed());
    let text = tally.to_string();
    assert!(text.contains("DISAGREEMENT\nseed 3, index "), "{text}");
    assert!(
        text.contains("rise of ") && text.contains("should be: longer"),
        "{text}"
    );
    assert!(!text.ends_with(" 0 disagreements"), "{text}");
}

#[test]
fn a_panic_is_a_disagreement() {
    let run = Run {
        seed: 3,
        make: Input::any,
        check: &|_| panic!("on purpose"),
    };
    assert!(!run.over(0..1).agreed());
}

#[test]
fn a_refusal_that_never_came_is_missing() {
    let run = Run {
        seed: 3,
        make: Input::any_rise,
        check: &check,
    };
    // A rise meets none of the refusals of what else is asked.
    let never: Vec<String> = (9..14).map(|number| format!("refusal {number}")).collect();
    assert_eq!(run.over(0..300).missing(&[9, 10, 11, 12, 13]), never);
}

#[test]
fn days_that_are_all_even_lack_a_hottest_hour_elsewhere() {
    let lacks = |make, count| {
        let seed = 3;
        let check = &check;
        Run { seed, make, check }.over(0..count).missing(&[])
    };
    let even = |_: &mut Random| Input::Factor {
        trench: Trench::Alone(cable_a()),
        hours: [200; 24],
    };
    let words = "factor with the hottest hour below the highest load";
    assert_eq!(lacks(even, 3), [words]);
    assert!(lacks(Input::any_factor, 300).is_empty());
}

#[test]
fn sheets_without_neighbours_lack_an_answer_in_which_they_tell() {
    let lacks = |make, count| {
        let (seed, check) = (3, &check);
        Run { seed, make, check }.over(0..count).missing(&[])
    };
    let lonely = |random: &mut Random| Input::Share {
        trench: Trench::Sheet(kechmowad::sheet(&cable_a(), 300, 0, &[])),
        minutes: random.from_to(1, 2_880),
    };
    let words = "share in sheet with another pair than alone";
    assert_eq!(lacks(lonely, 3), [words]);
    assert!(lacks(Input::any_in_sheet, 1_000).is_empty());
}

#[test]
fn a_line_is_spelled_to_the_letter() {
    let pair = Ok("-7 9".to_string());
    assert_eq!(program::spelled("rise", pair), "rise -7 9\n");
    for (place, line) in [
        (Place::Record(1), "refused 8 1\n"),
        (Place::None, "refused 8 0\n"),
    ] {
        let condition = Condition::Order;
        let told = Err(Refusal { condition, place });
        assert_eq!(program::spelled("share", told), line);
    }
}
