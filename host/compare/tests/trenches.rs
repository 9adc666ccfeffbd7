//! The sheets that are drawn, under document 02, note 2: both headers, chains that share
//! records, every damage of the neighbours; and sheets of every length.

use compare::{cable_a, check, History, Input, Random, Trench};
use kechmowad::{long_sheet, sheet};
use std::collections::BTreeSet;

const SEED: u64 = 1972;
const DRAWN: u64 = 40_000;

/// The drawn sheets.
fn sheets() -> impl Iterator<Item = Vec<u8>> {
    let drawn = (0..DRAWN).map(|index| Input::any_rise(&mut Random::new(SEED, index)));
    drawn.map(|input| match input {
        Input::Rise { sheet } => sheet,
        other => panic!("no sheet: {other}"),
    })
}

/// The two bytes at a place, as a number.
fn two(sheet: &[u8], at: usize) -> u16 {
    u16::from_be_bytes([sheet[at], sheet[at + 1]])
}

/// The second program's refusal: its number and the number of its place.
fn refused(sheet: &[u8]) -> Option<(u8, u8)> {
    let refusal = second::rise(sheet).err()?;
    match refusal.place {
        second::Place::Record(record) => Some((refusal.number, record)),
        _ => Some((refusal.number, 0)),
    }
}

/// How the link is wrong for which a long sheet is refused at its holder.
fn link_kind(sheet: &[u8], holder: u8) -> &'static str {
    let at = 38 + 6 * usize::from(holder);
    // The link of record k stands two bytes before record k + 1; record 0 is the header.
    let link = two(sheet, at - 2);
    let count = (sheet.len() - 38) / 6;
    match (usize::from(link) > count, link == u16::from(holder)) {
        (true, _) if holder == 0 => "second link above n",
        (true, _) => "neighbour's link above n",
        (_, true) => "link to itself",
        _ => "link backward",
    }
}

/// The offset or the depth for which a long sheet is refused at a record.
fn position_kinds(sheet: &[u8], record: u8) -> Vec<String> {
    let at = 38 + 6 * (usize::from(record) - 1);
    let (offset, depth) = (two(sheet, at) as i16, two(sheet, at + 2));
    vec![format!("offset {offset}"), format!("depth {depth}")]
}

/// How much too near the neighbour is for which a long sheet is refused at a record.
fn near_kind(sheet: &[u8], record: u8) -> &'static str {
    let at = 38 + 6 * (usize::from(record) - 1);
    let aside = i64::from((two(sheet, at) as i16).unsigned_abs());
    let below = i64::from(two(sheet, at + 2)) - i64::from(two(sheet, 6));
    let diameter = i64::from(two(sheet, 2));
    // One mm more, and c would be no less than d, which is in tenths of a mm.
    let farther = [(aside + 1, below), (aside, below.abs() + 1)];
    let by_one = |(x, y): &(i64, i64)| 100 * (x * x + y * y) >= diameter * diameter;
    match farther.iter().any(by_one) {
        true => "too near by a mm",
        false => "too near by more",
    }
}

/// What is the matter with the neighbours of a refused sheet.
fn kinds(sheet: &[u8]) -> Vec<String> {
    match refused(sheet) {
        Some((14, holder)) => vec![link_kind(sheet, holder).to_string()],
        Some((15, record)) => position_kinds(sheet, record),
        Some((16, record)) => vec![near_kind(sheet, record).to_string()],
        Some((5..=8, _)) if sheet.len() % 6 == 2 => {
            // The same sheet without its load chain.
            let mut laid = sheet.to_vec();
            laid[34..36].fill(0);
            let both = refused(&laid).is_some_and(|(number, _)| number > 13);
            both.then(|| "both chains".to_string())
                .into_iter()
                .collect()
        }
        _ => Vec::new(),
    }
}

#[test]
fn every_damage_comes() {
    let seen: BTreeSet<String> = sheets().flat_map(|sheet| kinds(&sheet)).collect();
    let named = [
        "second link above n",
        "neighbour's link above n",
        "link to itself",
        "link backward",
        "offset 3001",
        "offset -3001",
        "offset 32767",
        "offset -32768",
        "depth 299",
        "depth 5001",
        "depth 0",
        "depth 65535",
        "too near by a mm",
        "too near by more",
        "both chains",
    ];
    let never: Vec<&&str> = named.iter().filter(|&&kind| !seen.contains(kind)).collect();
    assert!(never.is_empty(), "these never came: {never:?}");
}

/// The records of an accepted sheet's chain that begins with the link at a byte.
fn chain(sheet: &[u8], at: usize) -> Vec<u16> {
    let head = if sheet.len() % 6 == 2 { 38 } else { 36 };
    let next = |link: &u16| two(sheet, head + 6 * usize::from(*link) - 2);
    let links = std::iter::successors(Some(two(sheet, at)), |link| Some(next(link)));
    links.take_while(|link| *link != 0).collect()
}

#[test]
fn accepted_sheets_have_neighbours_of_every_kind() {
    let accepted: Vec<Vec<u8>> = sheets().filter(|sheet| refused(sheet).is_none()).collect();
    let long = accepted.iter().filter(|sheet| sheet.len() % 6 == 2);
    let laid: Vec<(Vec<u16>, Vec<u16>)> = long
        .map(|sheet| (chain(sheet, 34), chain(sheet, 36)))
        .collect();
    let (some, of) = (laid.len(), accepted.len());
    assert!(3 * some >= of && 2 * some <= of + of / 4, "{some} of {of}");
    let shared = |(steps, neighbours): &(Vec<u16>, Vec<u16>)| {
        neighbours.iter().filter(|at| steps.contains(at)).count()
    };
    let both = laid.iter().filter(|chains| shared(chains) > 0).count();
    assert!(20 * both >= some, "{both} of {some} share records");
    // Chains that join, and chains that are one.
    let joins = |(steps, neighbours): &&(Vec<u16>, Vec<u16>)| {
        let count = shared(&(steps.clone(), neighbours.clone()));
        count > 0 && count < steps.len() && count < neighbours.len()
    };
    assert!(laid.iter().any(|chains| joins(&chains)));
    assert!(laid
        .iter()
        .any(|(steps, laid)| !steps.is_empty() && steps == laid));
    let most = laid.iter().map(|(_, neighbours)| neighbours.len()).max();
    assert!(most >= Some(30), "{most:?}");
    let none = laid.iter().filter(|(_, neighbours)| neighbours.is_empty());
    assert!(none.count() > 0);
}

#[test]
fn accepted_neighbours_lie_at_every_edge() {
    let mut seen = BTreeSet::new();
    for sheet in sheets().filter(|sheet| refused(sheet).is_none()) {
        let History {
            cable, neighbours, ..
        } = History::of(&sheet);
        for [offset, depth] in neighbours {
            let offset = offset as i16;
            let touching = cable.diameter.div_ceil(10) as u16;
            let level = u32::from(depth) == cable.depth;
            seen.insert(match (offset, depth) {
                (3_000, _) => "offset 3000",
                (-3_000, _) => "offset -3000",
                (0, _) => "above or below",
                (_, 300) => "depth 300",
                (_, 5_000) => "depth 5000",
                _ if level && offset.unsigned_abs() == touching => "touching",
                _ => "another",
            });
        }
    }
    assert_eq!(seen.len(), 7, "{seen:?}");
}

/// Sees that library and second program agree about a sheet, and whether its length is
/// refused.
fn agrees(sheet: Vec<u8>) {
    let length = sheet.len();
    let share = Input::Share {
        trench: Trench::Sheet(sheet.clone()),
        minutes: 60,
    };
    for input in [Input::Rise { sheet }, share] {
        let verdict = check(&input);
        assert_eq!(verdict.held, Ok(()), "{input}");
        let allowed = (36..=326).contains(&length) && [0, 2].contains(&(length % 6));
        assert_eq!(verdict.refused != Some(1), allowed, "{input}");
    }
}

#[test]
fn sheets_of_every_length_agree() {
    // No records, steps, and steps and neighbours; cut short, or with zero bytes added.
    let steps = sheet(&cable_a(), 300, 1, &[[60, 400, 0]; 48]);
    let both = long_sheet(&cable_a(), 300, 1, 2, &[[200, 1_000, 0]; 48]);
    for bytes in [sheet(&cable_a(), 300, 0, &[]), steps, both] {
        for length in 0..=340 {
            let mut sheet = bytes.clone();
            sheet.resize(length, 0);
            agrees(sheet);
        }
    }
}
