//! 'What goes together': each rule at equality and one beyond it.

use super::cells::{between, number, Told};
use super::tables::Row;
use super::trial::{both, emergency, every, factor, result_or, try_one};
use super::{cells, each_row, Desk, Findings, Found, Tried};
use crate::input::Input;
use crate::numbers::USUAL;
use crate::trench::Trench;
use kechmowad::{Cable, Place};

const RATES: &str = "SLOW at most FAST";
const LOAD: &str = "some hour above 0";
const PRELOAD: &str = "H · H at most 100 · R";

/// Checks each rule, and the preload that no limit allows.
pub fn check(found: &Found, _: &Desk) -> Findings {
    let mut findings = each_row(found.rows, &[RATES, LOAD, PRELOAD], |_, row| check_row(row));
    findings.note("the preload always refused", always_refused(found.prose));
    findings
}

fn check_row(row: &Row) -> Tried {
    let [rule, beyond] = cells(row)?;
    let told = Told::of(beyond)?.refusal()?;
    let inputs = match rule {
        RATES => rates(),
        LOAD => loads(),
        _ => preloads(),
    };
    let held = |(input, kept): &(Input, bool)| try_one(input, result_or(*kept, told));
    Ok(inputs.iter().map(held).collect())
}

/// Equal rates, and a slow one that is 1 above, in every question.
fn rates() -> Vec<(Input, bool)> {
    let cable = |fast, slow| {
        let [d, l, s, k, w, _, _, rated] = USUAL;
        Cable::from([d, l, s, k, w, fast, slow, rated])
    };
    let tried = [1, 1_000, 99_999].into_iter().flat_map(|fast| {
        let equal = every(cable(fast, fast)).into_iter();
        let above = every(cable(fast, fast + 1)).into_iter();
        let equal = equal.map(|input| (input, true));
        equal.chain(above.map(|input| (input, false)))
    });
    tried.collect()
}

/// A day without load, and days of 1 A in one hour alone.
fn loads() -> Vec<(Input, bool)> {
    let day = |trench: &Trench, loaded: Option<usize>| {
        let mut hours = [0; 24];
        loaded.into_iter().for_each(|hour| hours[hour] = 1);
        (factor(trench, hours), loaded.is_some())
    };
    let days = || (0..24).map(Some).chain([None]);
    let of = |trench: &Trench| days().map(|loaded| day(trench, loaded)).collect::<Vec<_>>();
    both().iter().flat_map(of).collect()
}

/// Preloads whose square is 100 times the limit, and one percent more.
fn preloads() -> Vec<(Input, bool)> {
    let of = |trench: &Trench| {
        let tried = [(10, 1), (100, 100), (140, 196)];
        let met = tried.map(|(h, r)| (emergency(trench, h, r), true));
        let above = tried.map(|(h, r)| (emergency(trench, h + 1, r), false));
        [met, above].concat()
    };
    both().iter().flat_map(of).collect()
}

/// The preload that the highest limit allows, and the next one, which no limit does.
fn always_refused(prose: &str) -> Tried {
    let most = number(between(prose, "one above ", " is always refused")?)?;
    let [alone, _] = both();
    let allowed = try_one(&emergency(&alone, most, 200), Ok(()));
    let above = |r| {
        let input = emergency(&alone, most.saturating_add(1), r);
        try_one(&input, Err((13, Place::None)))
    };
    Ok([allowed].into_iter().chain((1..=200).map(above)).collect())
}
