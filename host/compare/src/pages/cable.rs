//! 'The cable': ranges, typical values and refusals of the eight fields.

use super::cells::{number, Range, Told};
use super::explain::place_is;
use super::tables::{Row, Section};
use super::trial::{answer, every, result_or, try_one};
use super::{cells, each_row, find, Desk, Findings, Found, Tried};
use crate::distance::{require, Held};
use kechmowad::Cable;

pub const SECTION: &str = "The cable";
pub const HEADER: &str =
    "field | typed | symbol | what | unit | range | typical at 33 kV | beyond it";

/// What is typed for each field, its symbol and the paper's unit.
const FIELDS: [[&str; 3]; 8] = [
    ["D", "d", "0.1 mm"],
    ["L", "l", "mm"],
    ["S", "s", "10^-9 m²/s"],
    ["K", "k", "millionths"],
    ["W", "w", "millionths"],
    ["FAST", "a", "millionths per second"],
    ["SLOW", "b", "millionths per second"],
    ["RATED", "", "A"],
];

/// Indexes of the rates among the fields.
pub const FAST: usize = 5;
pub const SLOW: usize = 6;

/// Indexes of the columns that other tables need.
const RANGE: usize = 5;
const TYPICAL: usize = 6;

/// A column of the table, read.
fn column<T>(
    rows: &[Row],
    index: usize,
    read: impl Fn(&str) -> Result<T, String>,
) -> Result<[T; 8], String> {
    let values: Result<Vec<T>, String> = rows.iter().map(|row| read(row[index])).collect();
    let told = |_| "there are not eight fields".to_string();
    values?.try_into().map_err(told)
}

/// The ranges of the eight fields and the typical cable, for the table of the sheet.
pub fn fields(sections: &[Section]) -> Result<([Range; 8], [u32; 8]), String> {
    let (_, rows) = find(sections, SECTION, HEADER)?;
    Ok((
        column(rows, RANGE, Range::of)?,
        column(rows, TYPICAL, number)?,
    ))
}

/// A cable with the other rate where it refuses no value of the field at that index.
pub fn rates_apart(mut fields: [u32; 8], index: usize) -> [u32; 8] {
    match index {
        FAST => fields[SLOW] = 1,
        SLOW => fields[FAST] = 100_000,
        _ => {}
    }
    fields
}

/// A cable with another value of one field.
fn with(fields: [u32; 8], index: usize, value: u32) -> Cable {
    let mut fields = rates_apart(fields, index);
    fields[index] = value;
    Cable::from(fields)
}

/// Checks the fields one by one, and the typical column as one cable.
pub fn check(found: &Found, desk: &Desk) -> Findings {
    let firsts = ["1", "2", "3", "4", "5", "6", "7", "8"];
    let typical = column(found.rows, TYPICAL, number);
    let mut findings = each_row(found.rows, &firsts, |index, row| {
        check_row(index, row, typical.clone()?, desk)
    });
    let accepted = typical.map(|fields| {
        let inputs = every(Cable::from(fields));
        inputs.iter().map(|input| try_one(input, Ok(()))).collect()
    });
    findings.note("typical cable", accepted);
    findings.note("typical cable", worked_out(found));
    findings
}

/// The typical column is what the section's commands print and type.
fn worked_out(found: &Found) -> Tried {
    let [d, l, s, k, w, fast, slow, rated] = column(found.rows, TYPICAL, number)?;
    let here = found.sections.iter().find(|part| part.heading == SECTION);
    let code = here.map_or(&[][..], |part| &part.code);
    let lines = [
        format!("K {k} W {w} FAST {fast} SLOW {slow} RATED {rated}"),
        format!("$ rating share {d} {l} {s} {k} {w} {fast} {slow} {rated} 60"),
    ];
    let held = lines.map(|line| require(code.contains(&&line[..]), &format!("a line {line:?}")));
    Ok(held.to_vec())
}

fn check_row(index: usize, row: &Row, typical: [u32; 8], desk: &Desk) -> Tried {
    let [_, typed, symbol, what, unit, range_cell, _, beyond] = cells(row)?;
    let range = Range::of(range_cell)?;
    let told = Told::of(beyond)?.refusal()?;
    let place = index as u8 + 1;
    let words = format!("typed, symbol and unit {:?}", FIELDS[index]);
    let mut held = vec![require([typed, symbol, unit] == FIELDS[index], &words)];
    for (value, inside) in range.edges(u32::MAX) {
        let inputs = every(with(typical, index, value));
        let tried = |input| try_one(input, result_or(inside, told));
        held.extend(inputs.iter().map(tried));
    }
    if let Some((value, meant)) = range.instead {
        held.extend(stands_for(typical, index, value, meant));
    }
    let second = format!("field {place}: {what}, {unit}, {range_cell}");
    held.push(place_is(desk.programs, 2, place, &second));
    Ok(held)
}

/// A value answers as the one that it stands for.
fn stands_for(typical: [u32; 8], index: usize, value: u32, meant: u32) -> Vec<Held> {
    let [one, other] = [value, meant].map(|value| every(with(typical, index, value)));
    let pairs = one.iter().zip(&other);
    pairs
        .map(|(one, other)| {
            let words = format!("{value} answers as {meant} does, for {one}");
            require(answer(one) == answer(other), &words)
        })
        .collect()
}
