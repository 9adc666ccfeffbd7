//! 'The bytes of a sheet': lengths, and each range at the bytes that the page names, in
//! every question about a sheet.

use super::cable::{fields, rates_apart};
use super::cells::{between, number, Range, Span, Told};
use super::explain::place_is;
use super::neighbours;
use super::tables::{Row, Section};
use super::trial::{answer, every_in_sheet, result_or, rise, try_one, Expected};
use super::{cells, each_row, Desk, Findings, Found, Tried};
use crate::distance::{require, Held};
use crate::numbers::cable_a;
use kechmowad::{Cable, Place};

/// The parts of a sheet, and how the cell 'what' of each begins.
const FIRSTS: [&str; 14] = [
    "sheet",
    "sheet",
    "header",
    "header",
    "header",
    "header",
    "step",
    "step",
    "step",
    "chain",
    "neighbour",
    "neighbour",
    "neighbour",
    "trench",
];
const WHAT: [&str; 14] = [
    "length without a second link: ",
    "length with a second link: ",
    "the eight fields, four bytes each",
    "starting current in A",
    "first link: ",
    "second link: ",
    "minutes ",
    "amperes ",
    "next link: ",
    "minutes of each record, below those of the record before",
    "offset to the side in mm, two's complement",
    "depth of its axis in mm",
    "next link: ",
    "distance from the cable's axis, not below the cable's diameter",
];

/// Indexes of the rows of both lengths, and of a neighbour's offset and depth.
const LENGTHS: [usize; 2] = [0, 1];
const POSITION: [usize; 2] = [10, 11];

/// Sentences that the trials stand for.
const SAID: [&str; 4] = [
    "All its numbers but a neighbour's offset are unsigned, the first byte the highest.",
    "A record that no link leads to is not looked at.",
    "One record may be a step and a neighbour.",
    "Without a second link there are no neighbours.",
];

/// Most records of a sheet, from document 01.
pub const MOST: u16 = 48;

/// Which header a sheet has.
#[derive(Debug, Clone, Copy, PartialEq, Eq)]
pub enum Header {
    Short,
    /// With a second link.
    Long,
}

pub const HEADERS: [Header; 2] = [Header::Short, Header::Long];

impl Header {
    /// A sheet of cable A and 300 A with a first link; a second one is 0.
    pub fn sheet(self, first: u16, records: &[[u16; 3]]) -> Vec<u8> {
        match self {
            Header::Short => kechmowad::sheet(&cable_a(), 300, first, records),
            Header::Long => kechmowad::long_sheet(&cable_a(), 300, first, 0, records),
        }
    }
}

/// Where records stand, as the page says.
#[derive(Debug, Clone, Copy)]
pub struct Layout {
    first: usize,
    size: usize,
}

impl Layout {
    pub fn of(prose: &str, header: Header) -> Result<Layout, String> {
        let byte = |before, after| between(prose, before, after).and_then(number);
        let (first, second) = match header {
            Header::Short => (
                byte("Record 1 begins at byte ", ", record 2")?,
                byte(", record 2 at byte ", ";")?,
            ),
            Header::Long => {
                let bytes = between(prose, "with a second link they begin at bytes ", ".")?;
                let two = bytes.split_once(" and ");
                let (one, two) = two.ok_or_else(|| format!("no two bytes: {bytes:?}"))?;
                (number(one)?, number(two)?)
            }
        };
        let size = second.checked_sub(first).ok_or("record 2 is before 1")?;
        Ok(Layout {
            first: first as usize,
            size: size as usize,
        })
    }

    /// Where a byte of a record stands.
    pub fn byte(&self, record: u16, at: usize) -> usize {
        self.first + self.size * (usize::from(record) - 1) + at
    }
}

/// Checks each part of a sheet, and the sentences beside the table.
pub fn check(found: &Found, desk: &Desk) -> Findings {
    let mut findings = each_row(found.rows, &FIRSTS, |index, row| {
        check_row(index, row, found, desk)
    });
    findings.note("sentences", sentences(found.prose));
    findings
}

fn check_row(index: usize, row: &Row, found: &Found, desk: &Desk) -> Tried {
    let [_, bytes, what, range, beyond] = cells(row)?;
    let told = Told::of(beyond)?;
    let begins = WHAT[index];
    let words = format!("the words \"{begins}..\", not {what:?}");
    let mut held = vec![require(what.starts_with(begins), &words)];
    let empty = bytes.is_empty() && range.is_empty();
    let nothing = require(empty, "no bytes and no range");
    held.extend(match index {
        0 | 1 => lengths(bytes, found.rows, told)?,
        2 => header_fields(bytes, range, told, found.sections)?,
        3 | 4 => header_numbers(Span::of(bytes)?, range, told)?,
        5 => neighbours::second_link(Span::of(bytes)?, range, told)?,
        9 => [vec![nothing], chain(told)?].concat(),
        10 => neighbours::offsets(Span::of(bytes)?, range, told, found.prose)?,
        11 => neighbours::depths(Span::of(bytes)?, range, told, found.prose)?,
        12 => neighbours::links(Span::of(bytes)?, range, told, found.prose)?,
        13 => [vec![nothing], neighbours::distances(told)?].concat(),
        _ => step_numbers(Span::of(bytes)?, range, told, found.prose)?,
    });
    for (place, second) in places(index, what, range, found.rows) {
        held.push(place_is(desk.programs, told.number, place, &second));
    }
    Ok(held)
}

/// Tries every question about a sheet. One that is accepted is asked for its rise and a share
/// alone: six more shares for a factor would take longer than all else.
pub fn try_sheet(sheet: &[u8], expected: Expected) -> Held {
    let mut inputs = every_in_sheet(sheet);
    if expected.is_ok() {
        inputs.truncate(2);
    }
    inputs.iter().try_for_each(|input| try_one(input, expected))
}

/// The records of a sheet in which one, or none for 0, is older than the others; each could
/// end a chain.
fn plain(header: Header, records: u16, only: u16) -> Vec<u8> {
    let record = |number| [if number == only { 1_000 } else { 500 }, 200, 0];
    let records: Vec<[u16; 3]> = (1..=records).map(record).collect();
    header.sheet(only, &records)
}

/// Writes a number into bytes of a sheet, the first the highest.
pub fn put(sheet: &mut [u8], first: usize, length: usize, value: u32) -> Result<(), String> {
    let places = sheet.get_mut(first..first + length);
    let places = places.ok_or_else(|| format!("a sheet has no byte {first}"))?;
    let bytes = value.to_be_bytes();
    let skipped = bytes.len().checked_sub(length).ok_or("too many bytes")?;
    places.copy_from_slice(&bytes[skipped..]);
    Ok(())
}

/// The lengths that one row accepts.
struct Lengths {
    head: u32,
    each: u32,
    first: u32,
    last: u32,
}

impl Lengths {
    fn of(index: usize, row: &Row) -> Result<Lengths, String> {
        let [_, _, what, range, _] = cells(row)?;
        let Range { first, last, .. } = Range::of(range)?;
        Ok(Lengths {
            head: number(between(what, WHAT[index], ", and ")?)?,
            each: number(between(what, ", and ", " for each record")?)?,
            first,
            last,
        })
    }

    fn accepts(&self, length: u32) -> bool {
        let rest = length.checked_sub(self.head);
        let whole = rest.and_then(|rest| rest.checked_rem(self.each)) == Some(0);
        let end = length == self.first || length == self.last;
        end || self.first <= length && length <= self.last && whole
    }
}

/// The length of every sheet up to 400 bytes, by the rows of both headers.
fn lengths(bytes: &str, rows: &[Row], told: Told) -> Tried {
    let [short, long] = LENGTHS.map(|index| Lengths::of(index, &rows[index]));
    let (short, long) = (short?, long?);
    let refused = told.refusal()?;
    let held = (0..=400).map(|length| {
        // Zero bytes are links that end a chain.
        let mut sheet = Header::Short.sheet(0, &[]);
        sheet.resize(length as usize, 0);
        let accepted = short.accepts(length) || long.accepts(length);
        try_sheet(&sheet, result_or(accepted, refused))
    });
    let all = require(bytes == "all", "the length is that of all bytes");
    let least = short.head == short.first && long.head == long.first;
    let least = require(least, "the least length is that of no record");
    Ok(held.chain([all, least]).collect())
}

/// The eight fields, in the ranges of the table of the cable.
fn header_fields(bytes: &str, range: &str, told: Told, sections: &[Section]) -> Tried {
    let span = Span::of(bytes)?;
    let (ranges, typical) = fields(sections)?;
    let mut held = vec![
        require(range == "as above", "a range \"as above\""),
        require(span.length == 32, "32 bytes for the fields"),
    ];
    for (index, range) in ranges.iter().enumerate() {
        let refused = told.with("FIELD", index as u8 + 1)?;
        let cable = Cable::from(rates_apart(typical, index));
        for (value, inside) in range.edges(u32::MAX) {
            let mut sheet = kechmowad::sheet(&cable, 300, 0, &[]);
            put(&mut sheet, span.first + 4 * index, 4, value)?;
            held.push(try_sheet(&sheet, result_or(inside, refused)));
        }
    }
    Ok(held)
}

/// A range of two bytes, where n may stand for the number of records.
pub fn range_with(range: &str, records: u16) -> Result<Range, String> {
    match range.strip_suffix(" n") {
        Some(begins) => Range::of(&format!("{begins} {records}")),
        None => Range::of(range),
    }
}

/// Sheets to try a value of the header in: both headers, with 0, 1 and 48 records.
fn with_headers() -> Vec<(Header, u16)> {
    let each = |header| [0, 1, MOST].map(|records| (header, records));
    HEADERS.into_iter().flat_map(each).collect()
}

/// A number of the header.
fn header_numbers(span: Span, range: &str, told: Told) -> Tried {
    let refused = told.refusal()?;
    let mut held = vec![require(span.length == 2, "two bytes")];
    for (header, records) in with_headers() {
        for (value, inside) in range_with(range, records)?.edges(u32::from(u16::MAX)) {
            let mut sheet = plain(header, records, 0);
            put(&mut sheet, span.first, span.length, value)?;
            held.push(try_sheet(&sheet, result_or(inside, refused)));
        }
    }
    Ok(held)
}

/// Sheets to try a record in: how many records there are, and which is tried.
pub const TRIED: [(u16, u16); 3] = [(1, 1), (MOST, 1), (MOST, MOST)];

/// The same with both headers.
fn with_both_headers() -> Vec<(Header, u16, u16)> {
    let each = |header| TRIED.map(|(records, only)| (header, records, only));
    HEADERS.into_iter().flat_map(each).collect()
}

/// A number of a step, in the first and the last record of a sheet.
fn step_numbers(span: Span, range: &str, told: Told, prose: &str) -> Tried {
    let mut held = vec![require(span.length == 2, "two bytes")];
    for (header, records, only) in with_both_headers() {
        let at = Layout::of(prose, header)?.byte(only, span.first);
        for (value, expected) in step_trials(range, records, only, told)? {
            let mut sheet = plain(header, records, only);
            put(&mut sheet, at, span.length, value)?;
            held.push(try_sheet(&sheet, expected));
        }
    }
    Ok(held)
}

/// Values of a step's range, each with what is expected: a link to its own record may stand
/// there, but leads back.
fn step_trials(
    range: &str,
    records: u16,
    only: u16,
    told: Told,
) -> Result<Vec<(u32, Expected)>, String> {
    let refused = told.with("RECORD", only as u8)?;
    let edges = range_with(range, records)?.edges(u32::from(u16::MAX));
    let own = |value: u32| range.ends_with(" n") && value == u32::from(only);
    let expected = |value: u32, inside: bool| match inside && own(value) {
        true => Err((8, Place::Record(only as u8))),
        false => result_or(inside, refused),
    };
    let trials = edges.into_iter();
    Ok(trials
        .map(|(value, inside)| (value, expected(value, inside)))
        .collect())
}

/// Two records of a chain, the second one minute younger, of equal age, and older.
fn chain(told: Told) -> Tried {
    let mut held = Vec::new();
    for (one, two) in [(1, 2), (2, 1), (1, MOST), (MOST, 1)] {
        let refused = told.with("RECORD", two as u8)?;
        let trials = [(29, Ok(())), (30, Err(refused)), (31, Err(refused))];
        for (minutes, expected) in trials {
            let mut records = vec![[500, 200, 0]; usize::from(MOST)];
            records[usize::from(one) - 1] = [30, 200, two];
            records[usize::from(two) - 1] = [minutes, 300, 0];
            let sheets = HEADERS.map(|header| header.sheet(one, &records));
            held.extend(sheets.map(|sheet| try_sheet(&sheet, expected)));
        }
    }
    Ok(held)
}

/// The places of a row's refusal, each with the line that explains it.
fn places(index: usize, what: &str, range: &str, rows: &[Row]) -> Vec<(u8, String)> {
    let name = what.split(':').next().unwrap_or_default();
    let word = what.split(' ').next().unwrap_or_default();
    let rest = what.split_once(", ").unwrap_or_default().1;
    let all = |its: String| -> Vec<(u8, String)> {
        let line = |record| (record, format!("record {record}: its {its}"));
        (1..=MOST as u8).map(line).collect()
    };
    match index {
        4 | 5 => vec![(0, format!("record 0: the header's {name}"))],
        6 | 7 => all(format!("{word}, {range}")),
        8 | 12 => all(name.to_string()),
        9 => all(format!("{word}, {rest}")),
        10 | 11 => {
            let [aside, deep] = POSITION.map(|row| rows[row][3]);
            let aside = aside.rsplit(" to ").next().unwrap_or_default();
            all(format!(
                "offset, {aside} mm either way at most, and depth, {deep} mm"
            ))
        }
        13 => all(what.to_string()),
        _ => Vec::new(),
    }
}

/// What the page says beside the table.
fn sentences(prose: &str) -> Tried {
    let said = |words: &&str| require(prose.contains(*words), words);
    let mut held: Vec<Held> = SAID.iter().map(said).collect();
    let counts = between(prose, "There are n records, ", ", numbered from 1")?;
    let right = format!("0 to {MOST}");
    held.push(require(counts == right, &format!("{right} records")));
    for header in HEADERS {
        held.extend(off_the_chain(header, Layout::of(prose, header)?));
    }
    held.extend(neighbours::sentences());
    Ok(held)
}

/// Anything in the records that no link leads to changes no answer.
fn off_the_chain(header: Header, layout: Layout) -> Vec<Held> {
    let tried = (0..=MOST).map(|only| {
        let clean = plain(header, MOST, only);
        let mut wild = clean.clone();
        let others = (1..=MOST).filter(|record| *record != only);
        let places = others.flat_map(|record| (0..layout.size).map(move |at| (record, at)));
        for (record, at) in places {
            put(&mut wild, layout.byte(record, at), 1, 255)?;
        }
        let said = [clean, wild].map(|sheet| answer(&rise(sheet)));
        let words = format!("one answer with any bytes off the chain, not {said:?}");
        require(said[0].is_ok() && said[0] == said[1], &words)
    });
    tried.collect()
}
