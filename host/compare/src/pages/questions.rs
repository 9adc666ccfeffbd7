//! 'What is asked': the ranges of minutes, hours, preload and limit.

use super::cells::{Range, Told};
use super::explain::place_is;
use super::tables::Row;
use super::trial::{both, current, emergency, factor, share, try_one, Expected};
use super::{cells, each_row, Desk, Findings, Found, Tried};
use crate::distance::require;
use crate::input::Input;
use crate::trench::Trench;
use kechmowad::Place;

/// What is typed, and document 01's unit of each.
const FIRSTS: [&str; 4] = ["MINUTES", "H0 .. H23", "H", "R"];
const UNITS: [&str; 4] = [
    "minutes",
    "A",
    "percent of the rated current",
    "percent of the rated rise",
];

/// The highest limit, where every preload is tried.
const LIMIT: u32 = 200;

/// Checks what is asked, row by row.
pub fn check(found: &Found, desk: &Desk) -> Findings {
    each_row(found.rows, &FIRSTS, |index, row| {
        check_row(UNITS[index], row, desk)
    })
}

fn check_row(paper_unit: &str, row: &Row, desk: &Desk) -> Tried {
    let [typed, what, unit, range_cell, beyond] = cells(row)?;
    let told = Told::of(beyond)?;
    let words = format!("the unit {paper_unit:?}, not {unit:?}");
    let mut held = vec![require(unit == paper_unit, &words)];
    held.extend(check_range(typed, Range::of(range_cell)?, &told)?);
    for (place, second) in places(typed, what, unit, range_cell) {
        held.push(place_is(desk.programs, told.number, place, &second));
    }
    Ok(held)
}

/// Tries the edges of a range in every question that has the value.
fn check_range(typed: &str, range: Range, told: &Told) -> Tried {
    let most = match typed {
        "H0 .. H23" => u32::from(u16::MAX),
        _ => u32::MAX,
    };
    let mut held = Vec::new();
    for (value, inside) in range.edges(most) {
        for (input, hour) in inputs(typed, value)? {
            let expected = if inside {
                within(typed, value)
            } else {
                Err(told.with("HOUR", hour)?)
            };
            held.push(try_one(&input, expected));
        }
    }
    Ok(held)
}

/// Questions with a value, each with the hour that holds it: of a cable alone, and of one
/// with neighbours.
fn inputs(typed: &str, value: u32) -> Result<Vec<(Input, u8)>, String> {
    let inputs: Result<Vec<Vec<(Input, u8)>>, String> = both()
        .iter()
        .map(|trench| inputs_of(trench, typed, value))
        .collect();
    Ok(inputs?.concat())
}

fn inputs_of(trench: &Trench, typed: &str, value: u32) -> Result<Vec<(Input, u8)>, String> {
    Ok(match typed {
        "MINUTES" => vec![
            (share(trench, value), 0),
            (current(trench, 100, 100, value), 0),
        ],
        "H" => vec![(emergency(trench, value, LIMIT), 0)],
        "R" => vec![(emergency(trench, 0, value), 0)],
        _ => {
            let told = |_| format!("no hour can hold {value}");
            let value = u16::try_from(value).map_err(told)?;
            let hours = 0..24;
            hours.map(|hour| (day(trench, hour, value), hour)).collect()
        }
    })
}

/// A day with a value in one hour, 4,000 A in the next one and 0 in the others.
fn day(trench: &Trench, hour: u8, value: u16) -> Input {
    let mut hours = [0; 24];
    let hour = usize::from(hour);
    hours[(hour + 1) % 24] = 4_000;
    hours[hour] = value;
    factor(trench, hours)
}

/// What is said of a value of the range: a preload that no limit allows is refused as such.
fn within(typed: &str, value: u32) -> Expected {
    let squared = u64::from(value) * u64::from(value);
    if typed == "H" && squared > u64::from(100 * LIMIT) {
        Err((13, Place::None))
    } else {
        Ok(())
    }
}

/// The places of the row's refusal, each with the line that explains it.
fn places(typed: &str, what: &str, unit: &str, range: &str) -> Vec<(u8, String)> {
    let name = what.split(':').next().unwrap_or_default();
    let word = what.split(' ').next().unwrap_or_default();
    let input = |place| (place, format!("input {place}: {name}, {unit}, {range}"));
    let hour = |place| (place, format!("hour {place}: its {word}, {range}"));
    match typed {
        "MINUTES" => vec![(0, "no place is named".to_string())],
        "H" => vec![input(1)],
        "R" => vec![input(2)],
        _ => (0..24).map(hour).collect(),
    }
}
