//! 'Every refusal': conditions, places, and the commands that meet them.

use super::cable::{FAST, SLOW};
use super::cells::{place, Range};
use super::explain::{no_such_place, number_alone, place_begins, place_is};
use super::tables::Row;
use super::trial::{about, both, current, emergency, every_in_sheet, factor, share, try_one};
use super::{cells, each_row, Desk, Findings, Found, Tried};
use crate::distance::{require, Held};
use crate::input::Input;
use crate::numbers::{cable_a, USUAL};
use crate::trench::Trench;
use kechmowad::{long_sheet, sheet, Cable, Condition};

const FIRSTS: [&str; 16] = [
    "1", "2", "3", "4", "5", "6", "7", "8", "9", "10", "11", "12", "13", "14", "15", "16",
];

/// What meets refusals, in the page's order, with those of documents 01 and 02 for each.
/// Every question about a sheet meets those of the sheet.
const ORDERS: [(&str, &[u8]); 4] = [
    ("share", &[2, 3, 9]),
    ("factor", &[2, 3, 10, 11]),
    ("current", &[2, 3, 9, 12, 13]),
    (SHEET, &[1, 2, 3, 4, 5, 6, 7, 8, 14, 15, 16]),
];

const SHEET: &str = "a sheet";

/// Checks the refusals in their order.
pub fn check(found: &Found, desk: &Desk) -> Findings {
    each_row(found.rows, &FIRSTS, |index, row| {
        check_row(index as u8 + 1, row, desk)
    })
}

fn check_row(number: u8, row: &Row, desk: &Desk) -> Tried {
    let [_, condition, place, from, advice] = cells(row)?;
    let words = Condition::of(number).map(Condition::words);
    let told = format!("the condition {words:?}, not {condition:?}");
    let mut held = vec![
        require(words == Some(condition), &told),
        number_alone(desk.programs, number),
        commands(number, from),
        require(!advice.is_empty(), "words for what to do"),
    ];
    let places = Places::of(place)?;
    held.extend(places.met(number, from));
    held.extend(places.explained(number, desk));
    Ok(held)
}

/// What a row comes from is as in the orders of documents 01 and 02.
fn commands(number: u8, from: &str) -> Held {
    let meets = ORDERS.iter().filter(|(_, met)| met.contains(&number));
    let names: Vec<&str> = meets.map(|(command, _)| *command).collect();
    let words = format!("from {:?}, not from {from:?}", names.join(", "));
    require(names.join(", ") == from, &words)
}

/// `none`, or a kind of place and the first and last of its numbers.
struct Places<'a> {
    kind: &'a str,
    first: u8,
    last: u8,
}

impl<'a> Places<'a> {
    fn of(cell: &'a str) -> Result<Places<'a>, String> {
        let told = || format!("no places: {cell:?}");
        let (kind, first, last) = match cell {
            "none" => (cell, 0, 0),
            _ => {
                let (kind, ends) = cell.split_once(' ').ok_or_else(told)?;
                let Range { first, last, .. } = Range::of(ends)?;
                (kind, first, last)
            }
        };
        let byte = |number| u8::try_from(number).map_err(|_| told());
        Ok(Places {
            kind,
            first: byte(first)?,
            last: byte(last)?,
        })
    }

    /// All that a row comes from gets the refusal at the first and at the last place.
    fn met(&self, number: u8, from: &str) -> Vec<Held> {
        let met = |command, at| {
            let expected = Err((number, place(self.kind, at)?));
            let inputs = meets(command, number, at)?;
            inputs.iter().try_for_each(|input| try_one(input, expected))
        };
        let commands = from.split(", ");
        commands
            .flat_map(|command| [self.first, self.last].map(|at| met(command, at)))
            .collect()
    }

    /// The program explains each place, and none beyond them.
    fn explained(&self, number: u8, desk: &Desk) -> Vec<Held> {
        let Places { kind, first, last } = *self;
        let known = |at| match kind {
            "none" => place_is(desk.programs, number, at, "no place is named"),
            _ => {
                let begins = format!("{kind} {at}: ");
                place_begins(desk.programs, number, at, &begins)
            }
        };
        let beyond = [first.checked_sub(1), last.checked_add(1)];
        let beyond = beyond.into_iter().flatten();
        let unknown = beyond.map(|at| no_such_place(desk.programs, number, at));
        (first..=last).map(known).chain(unknown).collect()
    }
}

/// Questions to a command that meet a refusal at a place, of a cable alone or of a sheet.
fn meets(command: &str, number: u8, at: u8) -> Result<Vec<Input>, String> {
    let none = || format!("no question to {command} meets {number} at {at}");
    if command == SHEET {
        let sheet = refused_sheet(number, at).ok_or_else(none)?;
        return Ok(every_in_sheet(&sheet));
    }
    if matches!(number, 2 | 3) {
        let cable = refused_cable(number, usize::from(at)).ok_or_else(none)?;
        let index = ["share", "factor", "current"]
            .iter()
            .position(|name| *name == command);
        let inputs = about(&Trench::Alone(cable));
        return Ok(vec![inputs[index.ok_or_else(none)?].clone()]);
    }
    let inputs = both().map(|trench| meets_of(&trench, command, number, at));
    inputs
        .into_iter()
        .map(|input| input.ok_or_else(none))
        .collect()
}

/// A question about an accepted trench that meets a refusal at a place.
fn meets_of(trench: &Trench, command: &str, number: u8, at: u8) -> Option<Input> {
    Some(match (command, number) {
        ("share", 9) => share(trench, 2_881),
        ("current", 9) => current(trench, 100, 100, 2_881),
        ("current", 12) if at == 1 => emergency(trench, 201, 100),
        ("current", 12) if at == 2 => emergency(trench, 100, 0),
        ("current", 13) => emergency(trench, 51, 25),
        ("factor", 10) => {
            let mut hours = [200; 24];
            *hours.get_mut(usize::from(at))? = 4_001;
            factor(trench, hours)
        }
        ("factor", 11) => factor(trench, [0; 24]),
        _ => return None,
    })
}

/// A cable with a field too high, or with the slow rate above the fast one.
fn refused_cable(number: u8, place: usize) -> Option<Cable> {
    let mut fields = USUAL;
    let (index, value) = match number {
        2 => (place.checked_sub(1)?, u32::MAX),
        _ => (SLOW, USUAL[FAST] + 1),
    };
    *fields.get_mut(index)? = value;
    Some(Cable::from(fields))
}

/// A sheet that is refused, at a record where the place is one.
fn refused_sheet(number: u8, at: u8) -> Option<Vec<u8>> {
    let cable = cable_a();
    match number {
        1 => Some(vec![0; 35]),
        2 | 3 => {
            let cable = refused_cable(number, usize::from(at))?;
            Some(sheet(&cable, 300, 0, &[]))
        }
        4 => Some(sheet(&cable, 4_001, 0, &[])),
        5 if at == 0 => Some(sheet(&cable, 300, 1, &[])),
        14 if at == 0 => Some(long_sheet(&cable, 300, 0, 1, &[])),
        _ => refused_record(number, at),
    }
}

/// A sheet of 48 records that is refused at one of them, to which a link of the header
/// leads: the first one for a step, the second for a neighbour.
fn refused_record(number: u8, at: u8) -> Option<Vec<u8>> {
    let own = u16::from(at);
    let record = match number {
        5 => [30, 300, 49],
        6 => [0, 300, 0],
        7 => [30, 4_001, 0],
        8 => [30, 300, own],
        14 => [200, 1_000, own],
        15 => [3_001, 1_000, 0],
        16 => [0, 1_000, 0],
        _ => return None,
    };
    let mut records = [[30, 300, 0]; 48];
    *records.get_mut(usize::from(at).checked_sub(1)?)? = record;
    Some(match number {
        ..=8 => sheet(&cable_a(), 300, own, &records),
        _ => long_sheet(&cable_a(), 300, 0, own, &records),
    })
}
