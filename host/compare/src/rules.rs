//! What the rules of document 01, and of document 02's notes 1 and 2, give from the library's
//! own shares. The pairs of the share are left open inside their 50 millionths; rise, factor
//! and current follow from them to the last digit.

use crate::distance::{require, Held, MOST_AMPERES, MOST_FACTOR};
use crate::emergency::Emergency;
use crate::history::History;
use crate::trench::Trench;
use kechmowad::Bounds;

/// The library's own pair, which must be there inside an accepted calculation.
fn own_share(trench: &Trench, minutes: u32) -> Bounds {
    let share = trench.share(minutes);
    share.expect("an accepted calculation asks for accepted shares")
}

/// The quotient rounded up.
fn divided_up(number: i128, divisor: i128) -> i128 {
    -(-number).div_euclid(divisor)
}

/// The rise of an accepted sheet is that of the rules.
pub fn rise(history: &History, trench: &Trench, said: Bounds) -> Held {
    let rated = i128::from(history.cable.rated);
    let start = i128::from(history.start).pow(2) * 1_000_000;
    let (mut low, mut high) = (start, start);
    for (minutes, change) in history.squared_steps() {
        let pair = own_share(trench, minutes);
        let ends = [pair.low, pair.high].map(|end| i128::from(change) * i128::from(end));
        low += ends[0].min(ends[1]);
        high += ends[0].max(ends[1]);
    }
    let low = low.div_euclid(rated * rated);
    let high = divided_up(high, rated * rated);
    require(
        (i128::from(said.low), i128::from(said.high)) == (low, high),
        &format!("{low} and {high} from the library's own shares"),
    )
}

/// The heating sum with that hour as the reference, in millionths: gathered, each share
/// taken high or low by the sign of what multiplies it, and rounded up. Shares are those
/// after 1 to 6 hours.
fn heating_sum(squares: &[i128; 24], shares: &[Bounds; 6], reference: usize) -> i128 {
    // Yi and μ, times 24 and the squared highest load of the day.
    let y = |i: usize| 24 * squares[(reference + 24 - i) % 24];
    let mean: i128 = squares.iter().sum();
    let highest = *squares.iter().max().expect("24 hours");
    let weights = [
        y(0) - y(1),
        y(1) - y(2),
        y(2) - y(3),
        y(3) - y(4),
        y(4) - y(5),
        y(5) - mean,
    ];
    let mut sum = mean * 1_000_000;
    for (weight, pair) in weights.into_iter().zip(shares) {
        sum += weight * i128::from(if weight > 0 { pair.high } else { pair.low });
    }
    divided_up(sum, 24 * highest)
}

/// The sum that decides the factor of an accepted cycle. Document 02, note 1: 'the
/// reference hour becomes the one with the largest rounded-up heating sum of all 24'.
fn largest_sum(trench: &Trench, hours: &[u16; 24]) -> i128 {
    let squares = hours.map(|amperes| i128::from(amperes) * i128::from(amperes));
    let shares = [1, 2, 3, 4, 5, 6].map(|hour| own_share(trench, 60 * hour));
    let sums = (0..24).map(|reference| heating_sum(&squares, &shares, reference));
    sums.max().expect("24 hours")
}

/// The factor of an accepted cycle is that of the rules.
pub fn factor(trench: &Trench, hours: &[u16; 24], said: u32) -> Held {
    let sum = largest_sum(trench, hours);
    let fits = |m: u32| i128::from(m) * i128::from(m) * sum <= 1_000_000_000_000;
    require(
        fits(said) && (said == MOST_FACTOR || !fits(said + 1)),
        &format!("the largest factor for the largest sum {sum} from the library's own shares"),
    )
}

/// The current of an accepted emergency is that of the rules.
pub fn current(trench: &Trench, asked: &Emergency, minutes: u32, said: u32) -> Held {
    let high = own_share(trench, minutes).high;
    let certified = |i: u32| asked.excess(i, i128::from(high), 1) <= 0;
    require(
        certified(said) && (said == MOST_AMPERES || !certified(said + 1)),
        &format!("the largest certified ampere for the library's own high share {high}"),
    )
}
