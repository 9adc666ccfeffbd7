//! A question to the library, and what a page says of the answer.

use super::cells::Refused;
use crate::distance::{require, Held};
use crate::input::Input;
use crate::numbers::cable_a;
use crate::trench::Trench;
use kechmowad::{long_sheet, sheet, Bounds, Cable, Refusal};

/// What is expected: a result, or a refusal with its place.
pub type Expected = Result<(), Refused>;

/// A result where a value is accepted, else a refusal.
pub fn result_or(accepted: bool, refused: Refused) -> Expected {
    if accepted {
        Ok(())
    } else {
        Err(refused)
    }
}

/// The values of an answer, the second 0 where there is one.
pub type Answer = Result<[i64; 2], Refusal>;

/// Minutes that may be asked, and a day of load.
const MINUTES: u32 = 60;
const DAY: [u16; 24] = [200; 24];

/// Asks the library.
pub fn answer(input: &Input) -> Answer {
    input.answered(
        |Bounds { low, high }| [low, high],
        |value| [i64::from(value), 0],
    )
}

/// Holds the library's answer to what is expected.
pub fn try_one(input: &Input, expected: Expected) -> Held {
    let said = answer(input);
    let outcome = match said {
        Ok(_) => Ok(()),
        Err(refusal) => Err((refusal.number(), refusal.place)),
    };
    // Words for what holds would take far longer than asking.
    if outcome == expected {
        return Ok(());
    }
    let words = match expected {
        Ok(()) => "a result".to_string(),
        Err((number, place)) => format!("refusal {number} at {place}"),
    };
    require(false, &format!("{words}, not {said:?}, for {input}"))
}

/// Every question about a cable, otherwise usual ones: of the cable alone, and of a sheet.
pub fn every(cable: Cable) -> Vec<Input> {
    let alone = about(&Trench::Alone(cable));
    let in_sheet = every_in_sheet(&sheet(&cable, 300, 0, &[]));
    alone.into_iter().chain(in_sheet).collect()
}

/// Every question about a sheet: its rise, and share, factor and current in it.
pub fn every_in_sheet(sheet: &[u8]) -> Vec<Input> {
    let mut inputs = vec![rise(sheet.to_vec())];
    inputs.extend(about(&Trench::Sheet(sheet.to_vec())));
    inputs
}

/// Share, factor and current of a trench.
pub fn about(trench: &Trench) -> Vec<Input> {
    vec![
        share(trench, MINUTES),
        factor(trench, DAY),
        current(trench, 100, 100, MINUTES),
    ]
}

/// Cable A alone, and with neighbours 200 mm to either side.
pub fn both() -> [Trench; 2] {
    let neighbours = [[200, 1_000, 2], [-200_i16 as u16, 1_000, 0]];
    let three = long_sheet(&cable_a(), 300, 0, 1, &neighbours);
    [Trench::Alone(cable_a()), Trench::Sheet(three)]
}

/// The share after some minutes.
pub fn share(trench: &Trench, minutes: u32) -> Input {
    Input::Share {
        trench: trench.clone(),
        minutes,
    }
}

/// The factor of a day.
pub fn factor(trench: &Trench, hours: [u16; 24]) -> Input {
    Input::Factor {
        trench: trench.clone(),
        hours,
    }
}

/// The current for a preload, a limit and some minutes.
pub fn current(trench: &Trench, h: u32, r: u32, minutes: u32) -> Input {
    Input::Current {
        trench: trench.clone(),
        h,
        r,
        minutes,
    }
}

/// The current for a preload and a limit.
pub fn emergency(trench: &Trench, h: u32, r: u32) -> Input {
    current(trench, h, r, MINUTES)
}

/// The rise of a sheet.
pub fn rise(sheet: Vec<u8>) -> Input {
    Input::Rise { sheet }
}
