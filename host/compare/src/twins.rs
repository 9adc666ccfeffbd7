//! Sheets that must be answered alike. Document 01: 'the same pair in every call for equal
//! inputs of a share'. Document 02, note 2: 'without a sheet there are no neighbours'; and
//! the neighbours' order is nothing to a sum.

use crate::distance::{require, Held};
use crate::history::{head, History};
use crate::input::hexadecimal;
use crate::random::Random;
use crate::trench::Trench;
use std::fmt::Debug;

/// The same sheet with the other header: a short one made long with a second link of 0, or
/// a long one with such a link made short. It is answered alike, refused or not.
pub fn other_header(sheet: &[u8]) -> Option<Vec<u8>> {
    let mut other = sheet.to_vec();
    match (head(sheet), sheet.get(36..38)) {
        (38, Some([0, 0])) => {
            other.drain(36..38);
        }
        (36, _) if sheet.len() % 6 == 0 && sheet.len() >= 36 => {
            other.splice(36..36, [0, 0]);
        }
        _ => return None,
    }
    Some(other)
}

/// An accepted sheet that says the same but has its neighbours in another order of records.
/// Its steps are left out where they are not asked for.
pub fn other_order(sheet: &[u8], with_steps: bool) -> Option<Vec<u8>> {
    let mut history = History::of(sheet);
    let hash = |sum: u64, byte: &u8| sum.wrapping_mul(31).wrapping_add(u64::from(*byte));
    let mut random = Random::new(sheet.len() as u64, sheet.iter().fold(0, hash));
    let before = history.neighbours.clone();
    random.shuffle(&mut history.neighbours);
    if history.neighbours == before && !before.is_empty() {
        history.neighbours.rotate_left(1);
    }
    if !with_steps {
        history.steps.clear();
    }
    history.written().filter(|_| !history.neighbours.is_empty())
}

/// Whether the library accepts a sheet.
fn accepted(sheet: &[u8]) -> bool {
    kechmowad::share_in_sheet(sheet, 1).is_ok()
}

/// Holds what is said of each twin to what is said of the sheet itself.
fn alike<T: PartialEq + Debug>(twins: &[Trench], said: T, ask: impl Fn(&Trench) -> T) -> Held {
    for twin in twins {
        let other = ask(twin);
        // Words for what holds would take longer than asking.
        if other != said {
            let bytes = hexadecimal(&twin.bytes());
            return require(false, &format!("{said:?} for {bytes} too, not {other:?}"));
        }
    }
    Ok(())
}

/// Holds an answer of a trench to those of its twins. A cable alone has none.
pub fn of_trench<T: PartialEq + Debug>(
    trench: &Trench,
    said: T,
    ask: impl Fn(&Trench) -> T,
) -> Held {
    let Trench::Sheet(sheet) = trench else {
        return Ok(());
    };
    let mut twins: Vec<Trench> = other_header(sheet).into_iter().map(Trench::Sheet).collect();
    if accepted(sheet) {
        match other_order(sheet, false) {
            Some(other) => twins.push(Trench::Sheet(other)),
            None => twins.push(Trench::Alone(trench.cable())),
        }
    }
    alike(&twins, said, ask)
}

/// Holds the rise of a sheet to those of its twins.
pub fn of_rise<T: PartialEq + Debug>(sheet: &[u8], said: T, ask: impl Fn(&[u8]) -> T) -> Held {
    let mut twins: Vec<Trench> = other_header(sheet).into_iter().map(Trench::Sheet).collect();
    if accepted(sheet) {
        twins.extend(other_order(sheet, true).map(Trench::Sheet));
    }
    alike(&twins, said, |twin| ask(&twin.bytes()))
}
