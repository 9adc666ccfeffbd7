//! 'Sheets to try': what each sheet holds, byte for byte, and what is printed of it.

use super::cells::number;
use super::tables::Row;
use super::{cells, label, Desk, Findings, Found, Tried};
use crate::distance::{require, Held};
use crate::numbers::USUAL;
use std::path::Path;

/// The folder of the sheets.
const FOLDER: &str = "examples";

/// A history of load and the neighbours, as a row tells them and as a sheet holds them.
#[derive(Debug, PartialEq, Eq)]
struct Load {
    before: u32,
    /// Amperes, and from how many minutes ago, oldest first.
    steps: Vec<(u32, u32)>,
    /// Whether the last step's record leads to itself.
    again: bool,
    /// Offset and depth of each in mm.
    neighbours: Vec<(i32, u32)>,
}

/// Checks that each sheet has a row, and what the row says.
pub fn check(found: &Found, desk: &Desk) -> Findings {
    let mut findings = Findings::default();
    findings.note(
        "rows",
        all_named(found.rows, desk.root).map(|held| vec![held]),
    );
    for (index, row) in found.rows.iter().enumerate() {
        findings.note(&label(index, row), check_row(row, found.prose, desk));
    }
    findings
}

/// The rows name the sheets of the folder, each once.
fn all_named(rows: &[Row], root: &Path) -> Result<Held, String> {
    let folder = root.join(FOLDER);
    let told = |error| format!("{}: {error}", folder.display());
    let mut there = Vec::new();
    for entry in std::fs::read_dir(&folder).map_err(told)? {
        let name = entry.map_err(told)?.file_name();
        let name = name.to_string_lossy();
        if name.ends_with(".sheet") {
            there.push(format!("`{name}`"));
        }
    }
    let mut named: Vec<&str> = rows.iter().map(|row| row[0]).collect();
    there.sort();
    named.sort();
    let words = format!("the sheets {there:?}, not {named:?}");
    Ok(require(there == named, &words))
}

fn check_row(row: &Row, prose: &str, desk: &Desk) -> Tried {
    let [name, before, steps, neighbours, prints] = cells(row)?;
    let path = desk.root.join(FOLDER).join(name.trim_matches('`'));
    let told = |error| format!("{}: {error}", path.display());
    let sheet = std::fs::read(&path).map_err(told)?;
    let said = read_row(before, steps, neighbours)?;
    let holds = read_sheet(&sheet)?;
    let line = desk.programs.rise(&sheet)?;
    let words = format!("{holds:?} as the sheet holds it, not {said:?}");
    let one_line = line.strip_suffix('\n').map(|line| format!("`{line}`"));
    let printed = format!("printed {line:?}, not {prints}");
    Ok(vec![
        require(said == holds, &words),
        require(one_line.as_deref() == Some(prints), &printed),
        one_cable(&sheet, prose),
    ])
}

/// `300 A`; `none`, or steps as `400 A from 1,440 minutes ago, 200 from 720`, to which
/// `and the same record again` may be added; `none`, or neighbours as `200 mm aside at
/// 1,000 mm, -200 at 1,000`.
fn read_row(before: &str, steps: &str, neighbours: &str) -> Result<Load, String> {
    let amperes = before.strip_suffix(" A");
    let before = number(amperes.ok_or_else(|| format!("no amperes: {before:?}"))?)?;
    let (steps, again) = match steps.strip_suffix(", and the same record again") {
        Some(steps) => (steps, true),
        None => (steps, false),
    };
    Ok(Load {
        before,
        steps: read_list(steps, read_step)?,
        again,
        neighbours: read_list(neighbours, read_neighbour)?,
    })
}

/// `none`, or things with a comma and a blank between.
fn read_list<T>(
    cell: &str,
    read: impl Fn((usize, &str)) -> Result<T, String>,
) -> Result<Vec<T>, String> {
    match cell {
        "none" => Ok(Vec::new()),
        _ => cell.split(", ").enumerate().map(read).collect(),
    }
}

/// A step of a row, of which the first has its units.
fn read_step((index, step): (usize, &str)) -> Result<(u32, u32), String> {
    let parts = match index {
        0 => step
            .strip_suffix(" minutes ago")
            .and_then(|step| step.split_once(" A from ")),
        _ => step.split_once(" from "),
    };
    let (amperes, minutes) = parts.ok_or_else(|| format!("no step: {step:?}"))?;
    Ok((number(amperes)?, number(minutes)?))
}

/// A neighbour of a row, of which the first has its units.
fn read_neighbour((index, neighbour): (usize, &str)) -> Result<(i32, u32), String> {
    let told = || format!("no neighbour: {neighbour:?}");
    let parts = match index {
        0 => neighbour
            .strip_suffix(" mm")
            .and_then(|rest| rest.split_once(" mm aside at ")),
        _ => neighbour.split_once(" at "),
    };
    let (aside, depth) = parts.ok_or_else(told)?;
    let (sign, size) = match aside.strip_prefix('-') {
        Some(size) => (-1, size),
        None => (1, aside),
    };
    let size = i32::try_from(number(size)?).map_err(|_| told())?;
    Ok((sign * size, number(depth)?))
}

/// The two bytes at a place of a sheet, as a number.
fn two(sheet: &[u8], at: usize) -> Result<u32, String> {
    match sheet.get(at..at + 2) {
        Some(&[high, low]) => Ok(u32::from(high) << 8 | u32::from(low)),
        _ => Err(format!("the sheet has no byte {at}")),
    }
}

/// What a sheet holds along its chains.
fn read_sheet(sheet: &[u8]) -> Result<Load, String> {
    let long = sheet.len() % 6 == 2;
    let (steps, again) = read_chain(sheet, two(sheet, 34)?)?;
    let second_link = if long { two(sheet, 36)? } else { 0 };
    let (neighbours, loops) = read_chain(sheet, second_link)?;
    if loops {
        return Err("its neighbours lead back".to_string());
    }
    let signed = |offset: u32| i32::from(offset as u16 as i16);
    let neighbours = neighbours
        .iter()
        .map(|&(offset, depth)| (signed(offset), depth));
    Ok(Load {
        before: two(sheet, 32)?,
        steps: steps
            .iter()
            .map(|&(minutes, amperes)| (amperes, minutes))
            .collect(),
        again,
        neighbours: neighbours.collect(),
    })
}

/// The first two numbers of each record that a link leads to, up to a record that comes a
/// second time, and whether there is one.
fn read_chain(sheet: &[u8], first: u32) -> Result<(Vec<(u32, u32)>, bool), String> {
    let head = if sheet.len() % 6 == 2 { 38 } else { 36 };
    let mut links = vec![first];
    let mut records = Vec::new();
    let mut again = false;
    while let Some(link) = links.last().copied().filter(|link| *link != 0 && !again) {
        let record = head + 6 * (link as usize - 1);
        records.push((two(sheet, record)?, two(sheet, record + 2)?));
        let next = two(sheet, record + 4)?;
        again = next == link;
        if !again && links.contains(&next) {
            return Err(format!("its chain leads back from {link} to {next}"));
        }
        links.push(next);
    }
    Ok((records, again))
}

/// The cable is A, and the sentence above the table tells it.
fn one_cable(sheet: &[u8], prose: &str) -> Held {
    let [d, l, .., rated] = USUAL;
    let fields: Vec<u8> = USUAL.iter().flat_map(|field| field.to_be_bytes()).collect();
    require(sheet.starts_with(&fields), "a sheet of cable A")?;
    let (mm, m) = (f64::from(d) / 10.0, f64::from(l) / 1_000.0);
    let words = format!(
        "cable A of document 01's cases: {mm} mm in diameter, {m} m deep, rated {rated} A."
    );
    require(prose.contains(&words), &words)
}
