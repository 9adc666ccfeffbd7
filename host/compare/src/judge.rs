//! The judge: whether an answer of the library agrees with the second program.

use crate::distance::{self, require, Held};
use crate::emergency::Emergency;
use crate::history::History;
use crate::rules;
use crate::trench::Trench;
use kechmowad::{Bounds, Cable, Place, Refusal};
use std::fmt::Debug;

/// The second program's cable.
fn theirs(cable: &Cable) -> second::Cable {
    let &[d, l, s, k, w, fast, slow, rated] = cable.fields();
    second::Cable {
        d,
        l,
        s,
        k,
        w,
        fast,
        slow,
        rated,
    }
}

/// The number of the second program's refusal, and its place in the library's words.
fn ours(refusal: second::Refusal) -> (u8, Place) {
    let place = match refusal.place {
        second::Place::None => Place::None,
        second::Place::Field(n) => Place::Field(n),
        second::Place::Record(n) => Place::Record(n),
        second::Place::Hour(n) => Place::Hour(n),
        second::Place::Input(n) => Place::Input(n),
    };
    (refusal.number, place)
}

/// Equal refusals agree, and two results agree where `within` says so.
fn agree<L: Copy + Debug, S: Copy + Debug>(
    library: Result<L, Refusal>,
    second: Result<S, second::Refusal>,
    within: impl FnOnce(L, S) -> Held,
) -> Held {
    let held = match (library, second) {
        (Ok(said), Ok(exact)) => within(said, exact),
        (Err(here), Err(there)) => require(
            (here.number(), here.place) == ours(there),
            "equal refusals and places",
        ),
        _ => require(false, "both a result or both a refusal"),
    };
    held.map_err(|why| format!("library: {library:?}\nsecond:  {second:?}\n{why}"))
}

/// Judges a share.
pub fn share(trench: &Trench, minutes: u32, said: Result<Bounds, Refusal>) -> Held {
    let second = match trench {
        Trench::Alone(cable) => second::share(&theirs(cable), minutes),
        Trench::Sheet(sheet) => second::share_in_sheet(sheet, minutes),
    };
    agree(said, second, distance::share)
}

/// Judges a rise.
pub fn rise(sheet: &[u8], said: Result<Bounds, Refusal>) -> Held {
    agree(said, second::rise(sheet), |pair, exact| {
        let history = History::of(sheet);
        let changes = history.changes();
        require(changes == exact.changes, "one D, however it is summed")?;
        let read = (history.steps.len(), history.neighbours.len());
        let same = read == (exact.steps, exact.neighbours);
        require(same, "one count of steps and neighbours")?;
        let rated = history.cable.rated;
        distance::rise(pair, exact.exact_millionths, rated, changes)?;
        rules::rise(&history, &Trench::Sheet(sheet.to_vec()), pair)
    })
}

/// The second program's heating sum of a day.
fn heating(trench: &Trench, hours: &[u16; 24]) -> Result<second::Factor, second::Refusal> {
    match trench {
        Trench::Alone(cable) => second::factor(&theirs(cable), hours),
        Trench::Sheet(sheet) => second::factor_in_sheet(sheet, hours),
    }
}

/// Judges a factor.
pub fn factor(trench: &Trench, hours: &[u16; 24], said: Result<u32, Refusal>) -> Held {
    agree(said, heating(trench, hours), |m, exact| {
        distance::factor(m, exact.sum_millionths)?;
        rules::factor(trench, hours, m)
    })
}

/// Whether an accepted day is hottest at an hour of less than the highest load. Document 02,
/// note 1: 'The conductor is hottest at the end of the plateau.'
pub fn hottest_elsewhere(trench: &Trench, hours: &[u16; 24]) -> bool {
    let highest = *hours.iter().max().expect("24 hours");
    heating(trench, hours).is_ok_and(|exact| hours[exact.reference_hour] < highest)
}

/// Judges an emergency current.
pub fn current(trench: &Trench, h: u32, r: u32, minutes: u32, said: Result<u32, Refusal>) -> Held {
    let second = match trench {
        Trench::Alone(cable) => second::current(&theirs(cable), h, r, minutes),
        Trench::Sheet(sheet) => second::current_in_sheet(sheet, h, r, minutes),
    };
    agree(said, second, |i, exact| {
        let rated = trench.cable().rated;
        let asked = Emergency { h, r, rated };
        distance::current(i, &asked, exact)?;
        rules::current(trench, &asked, minutes, i)
    })
}
