//! Asking the library one question and judging its answer.

use crate::distance::{require, Held, MOST_AMPERES};
use crate::input::{Input, CALCULATIONS};
use crate::trench::Trench;
use crate::{judge, twins};
use kechmowad::Refusal;
use std::fmt::Debug;
use std::hint::black_box;

/// What came of one question.
pub struct Verdict {
    /// The number of the refusal, where it was one.
    pub refused: Option<u8>,
    /// Whether it was one of the results that `SPECIAL` names.
    pub special: bool,
    /// Whether the answer agrees.
    pub held: Held,
}

/// Results that a long run must not lack, for each of the calculations that it asks. No
/// day meets the factor's cap: the mean of its 24 heating sums is μ, 1/24 or more, so that
/// the largest gives 4,898 at most. Of a sheet it is an answer in which the neighbours tell.
pub const SPECIAL: [&str; CALCULATIONS.len()] = [
    "low 0",
    "low below 0",
    "the hottest hour below the highest load",
    "the cap",
    "another pair than alone",
    "another factor than alone",
    "another current than alone",
];

impl Verdict {
    /// The verdict on an answer.
    pub fn new<T>(
        said: Result<T, Refusal>,
        special: impl FnOnce(T) -> bool,
        held: Held,
    ) -> Verdict {
        let refused = said.as_ref().err().map(|refusal| refusal.number());
        Verdict {
            refused,
            special: said.is_ok_and(special),
            held,
        }
    }
}

/// Judges an answer about a trench, also against those of sheets that say the same. What is
/// special of a cable alone has its own rule; of a sheet it is that the neighbours tell.
fn verdict<T: Copy + PartialEq + Debug>(
    trench: &Trench,
    ask: impl Fn(&Trench) -> Result<T, Refusal>,
    judged: impl FnOnce(Result<T, Refusal>) -> Held,
    alone: impl FnOnce(T) -> bool,
) -> Verdict {
    let said = ask(trench);
    let held = judged(said).and_then(|()| twins::of_trench(trench, said, &ask));
    let special = |result| match trench {
        Trench::Alone(_) => alone(result),
        Trench::Sheet(_) => trench.tells(&ask),
    };
    Verdict::new(said, special, held)
}

/// Judges a rise, also against those of sheets that say the same.
fn rise(sheet: &[u8]) -> Verdict {
    let said = kechmowad::rise(sheet);
    let held = judge::rise(sheet, said);
    let held = held.and_then(|()| twins::of_rise(sheet, said, kechmowad::rise));
    Verdict::new(said, |pair| pair.low < 0, held)
}

/// Asks the library and judges the answer.
fn judged(input: &Input) -> Verdict {
    match input {
        Input::Rise { sheet } => rise(sheet),
        Input::Share { trench, minutes } => verdict(
            trench,
            |trench| trench.share(*minutes),
            |said| judge::share(trench, *minutes, said),
            |pair| pair.low == 0,
        ),
        Input::Factor { trench, hours } => verdict(
            trench,
            |trench| trench.factor(hours),
            |said| judge::factor(trench, hours, said),
            |_| judge::hottest_elsewhere(trench, hours),
        ),
        &Input::Current {
            ref trench,
            h,
            r,
            minutes,
        } => verdict(
            trench,
            |trench| trench.current(h, r, minutes),
            |said| judge::current(trench, h, r, minutes, said),
            |i| i == MOST_AMPERES,
        ),
    }
}

/// Asks the library, judges the answer, and sees that what was handed in is as it was.
pub fn check(input: &Input) -> Verdict {
    let handed = input.clone();
    let mut verdict = judged(&handed);
    // Read again from memory: the compiler may otherwise take a lent thing as unchanged.
    let unchanged = *black_box(&handed) == *input;
    verdict.held = verdict
        .held
        .and_then(|()| require(unchanged, "what was handed in is only read"));
    verdict
}
