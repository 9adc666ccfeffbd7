//! 'What is promised': the distances on the page are those that answers are held to.

use super::cells::numbers_in;
use super::{each_row, Desk, Findings, Found};
use crate::distance::{
    require, HEATING_SLACK, MOST_AMPERES, MOST_FACTOR, RISE_ROUNDING, SHARE_WIDTH,
};

/// Each answer, with the numbers of its row in the order of the cells.
const PROMISED: [(&str, &[u32]); 5] = [
    ("`share LOW HIGH`", &[SHARE_WIDTH]),
    ("`rise LOW HIGH`", &[RISE_ROUNDING, SHARE_WIDTH]),
    ("`factor M`", &[MOST_FACTOR, MOST_FACTOR, HEATING_SLACK]),
    ("`current I`", &[MOST_AMPERES, MOST_AMPERES, SHARE_WIDTH]),
    ("`refused NUMBER PLACE`", &[]),
];

/// Checks the numbers of each promise.
pub fn check(found: &Found, _: &Desk) -> Findings {
    let firsts = PROMISED.map(|(answer, _)| answer);
    each_row(found.rows, &firsts, |index, row| {
        // The paper's name is no number of the promise.
        let cells = row.join(" | ").replace("document 01", "the paper");
        let found = numbers_in(&cells)?;
        let (_, judged_by) = PROMISED[index];
        let words = format!("the numbers {judged_by:?} of the judge, not {found:?}");
        Ok(vec![require(found == judged_by, &words)])
    })
}
