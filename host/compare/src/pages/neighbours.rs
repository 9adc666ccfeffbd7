//! 'The bytes of a sheet': the second link, and the records of neighbours that it leads to.

use super::cells::{EitherWay, Span, Told};
use super::sheet::{put, range_with, try_sheet, Header, Layout, MOST, TRIED};
use super::trial::{about, answer, result_or};
use super::Tried;
use crate::distance::{require, Held};
use crate::numbers::cable_a;
use crate::trench::Trench;
use kechmowad::long_sheet;

/// A neighbour's record that may stand anywhere: 200 mm aside at cable A's depth.
const USUAL: [u16; 3] = [200, 1_000, 0];

/// How the page writes the links that a neighbour may hold.
const RISING: &str = "0, or above the record's own number, up to n";

/// A sheet with no steps, so many records that could each be the only neighbour, and a
/// second link.
fn laid(records: u16, second: u16) -> Vec<u8> {
    let records = vec![USUAL; usize::from(records)];
    long_sheet(&cable_a(), 300, 0, second, &records)
}

/// The second link, in sheets of 0, 1 and 48 records.
pub fn second_link(span: Span, range: &str, told: Told) -> Tried {
    let refused = told.refusal()?;
    let mut held = vec![require(span.length == 2, "two bytes")];
    for records in [0, 1, MOST] {
        for (value, inside) in range_with(range, records)?.edges(u32::from(u16::MAX)) {
            let mut sheet = laid(records, 0);
            put(&mut sheet, span.first, span.length, value)?;
            held.push(try_sheet(&sheet, result_or(inside, refused)));
        }
    }
    Ok(held)
}

/// Tries values of two bytes in the first and the last record of a sheet.
fn numbers(span: Span, told: Told, prose: &str, values: &[(u16, bool)]) -> Tried {
    let mut held = vec![require(span.length == 2, "two bytes")];
    let layout = Layout::of(prose, Header::Long)?;
    for (records, only) in TRIED {
        let refused = told.with("RECORD", only as u8)?;
        for &(value, inside) in values {
            let mut sheet = laid(records, only);
            let at = layout.byte(only, span.first);
            put(&mut sheet, at, span.length, u32::from(value))?;
            held.push(try_sheet(&sheet, result_or(inside, refused)));
        }
    }
    Ok(held)
}

/// The offset, on both sides.
pub fn offsets(span: Span, range: &str, told: Told, prose: &str) -> Tried {
    let edges = EitherWay::of(range)?.edges();
    numbers(
        span,
        told,
        prose,
        &edges.map(|(value, inside)| (value as u16, inside)),
    )
}

/// The depth.
pub fn depths(span: Span, range: &str, told: Told, prose: &str) -> Tried {
    let edges = range_with(range, MOST)?.edges(u32::from(u16::MAX));
    let two = |(value, inside): (u32, bool)| Ok((u16::try_from(value).map_err(|_| range)?, inside));
    let values: Result<Vec<(u16, bool)>, &str> = edges.into_iter().map(two).collect();
    numbers(span, told, prose, &values?)
}

/// The next link: the end, the next record and the last one, where they are above the
/// record's own number; itself, the record before, and none that there is.
pub fn links(span: Span, range: &str, told: Told, prose: &str) -> Tried {
    let mut held = vec![
        require(span.length == 2, "two bytes"),
        require(range == RISING, &format!("the range {RISING:?}")),
    ];
    let layout = Layout::of(prose, Header::Long)?;
    for (records, own) in [
        (1, 1),
        (2, 1),
        (MOST, 1),
        (MOST, 2),
        (MOST, 47),
        (MOST, MOST),
    ] {
        let refused = told.with("RECORD", own as u8)?;
        for link in [0, 1, own - 1, own, own + 1, records, records + 1, u16::MAX] {
            let mut sheet = laid(records, own);
            let at = layout.byte(own, span.first);
            put(&mut sheet, at, span.length, u32::from(link))?;
            let rises = link == 0 || own < link && link <= records;
            held.push(try_sheet(&sheet, result_or(rises, refused)));
        }
    }
    Ok(held)
}

/// Offsets and depths beside cable A, 50 mm in diameter and 1,000 mm deep: at that distance
/// from its axis or nearer.
const DISTANCES: [(i16, u16, bool); 10] = [
    (50, 1_000, true),
    (-50, 1_000, true),
    (49, 1_000, false),
    (-49, 1_000, false),
    (0, 1_050, true),
    (0, 951, false),
    (30, 960, true),
    (-30, 1_040, true),
    (29, 960, false),
    (0, 1_000, false),
];

/// The distance from the cable's axis.
pub fn distances(told: Told) -> Tried {
    let mut held = Vec::new();
    for (records, only) in TRIED {
        let refused = told.with("RECORD", only as u8)?;
        for (offset, depth, apart) in DISTANCES {
            let mut all = vec![USUAL; usize::from(records)];
            all[usize::from(only) - 1] = [offset as u16, depth, 0];
            let sheet = long_sheet(&cable_a(), 300, 0, only, &all);
            held.push(try_sheet(&sheet, result_or(apart, refused)));
        }
    }
    Ok(held)
}

/// What the sentences about neighbours say.
pub fn sentences() -> Vec<Held> {
    // A step of 400 A from 1,000 minutes ago, and a neighbour 1,000 mm aside and 400 deep.
    let record = [[1_000, 400, 0]];
    let both = long_sheet(&cable_a(), 300, 1, 1, &record);
    let step = long_sheet(&cable_a(), 300, 1, 0, &record);
    let shared = try_sheet(&both, Ok(()));
    let answers = |trench: Trench| about(&trench).iter().map(answer).collect::<Vec<_>>();
    let [heated, step] = [both, step].map(|sheet| answers(Trench::Sheet(sheet)));
    let counts = require(heated != step, "a neighbour that is a step besides counts");
    // The same records behind a short header.
    let in_sheet = answers(Trench::Sheet(Header::Short.sheet(0, &[USUAL])));
    let alone = answers(Trench::Alone(cable_a()));
    let words = format!("{alone:?} without a second link, not {in_sheet:?}");
    vec![shared, counts, require(in_sheet == alone, &words)]
}
