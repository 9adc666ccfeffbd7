//! Document 01's 'What the distances say', of a result and the second program's value.
//! Document 02, note 1: 'The factor rule now speaks of the largest exact sum, at the same
//! distance.'
//!
//! The second program works in f64. Its README found it within 4e-10 millionths of the
//! exact share, 5e-10 of the exact heating sum and 6e-6 of the exact rise, on 105,000
//! inputs against 50 digits. The allowances below leave it more than ten times that, and
//! are far below one millionth, the step of the results.

use crate::emergency::Emergency;
use kechmowad::Bounds;

/// What the second program's share and heating sum may be off, in millionths.
const SHARE_ALLOWANCE: f64 = 1e-6;
/// What its rise may be off, in millionths: its steps may be far larger than their sum.
const RISE_ALLOWANCE: f64 = 1e-4;
/// What its emergency amperes may be off, relative to them.
const AMPERES_ALLOWANCE: f64 = 1e-9;

/// Most that a share's two ends may be apart. A rise may be so much wider for each change
/// of rated², and the distance of the current adds as much to the share.
pub const SHARE_WIDTH: u32 = 50;
/// Most that a rise's two ends may be apart without a change.
pub const RISE_ROUNDING: u32 = 2;
/// What the distance of the factor adds to the heating sum.
pub const HEATING_SLACK: u32 = 301;
/// The cap on the factor.
pub const MOST_FACTOR: u32 = 5_000;
/// The cap on the current.
pub const MOST_AMPERES: u32 = 10_000;

/// What holds, or the words for what should.
pub type Held = Result<(), String>;

/// Holds a condition that has words.
pub fn require(holds: bool, words: &str) -> Held {
    if holds {
        Ok(())
    } else {
        Err(format!("should be: {words}"))
    }
}

fn encloses(pair: Bounds, exact: f64, allowance: f64) -> Held {
    let Bounds { low, high } = pair;
    require(
        low as f64 - allowance <= exact,
        "low at most the exact value",
    )?;
    require(
        exact <= high as f64 + allowance,
        "high at least the exact value",
    )
}

/// The share's distance and range.
pub fn share(pair: Bounds, exact: f64) -> Held {
    let Bounds { low, high } = pair;
    require(
        0 <= low && low <= high && high <= 1_000_000,
        "0 <= low <= high <= 1,000,000",
    )?;
    require(
        high - low <= i64::from(SHARE_WIDTH),
        "high - low at most 50",
    )?;
    encloses(pair, exact, SHARE_ALLOWANCE)
}

/// The rise's distance; `changes` is D.
pub fn rise(pair: Bounds, exact: f64, rated: u32, changes: u64) -> Held {
    let rated_squared = i128::from(rated) * i128::from(rated);
    let width = i128::from(pair.high) - i128::from(pair.low);
    require(width >= 0, "low at most high")?;
    let [rounding, each] = [RISE_ROUNDING, SHARE_WIDTH].map(i128::from);
    require(
        rated_squared * width <= rounding * rated_squared + each * i128::from(changes),
        "rated² · (high - low) at most 2 · rated² + 50 · D",
    )?;
    encloses(pair, exact, RISE_ALLOWANCE)
}

/// The factor's distance; `sum` is T, the largest of the 24 exact heating sums.
pub fn factor(m: u32, sum: f64) -> Held {
    let squared = |m: u32| f64::from(m) * f64::from(m);
    let slack = f64::from(HEATING_SLACK);
    require(m <= MOST_FACTOR, "at most 5,000")?;
    require(
        squared(m) * (sum - SHARE_ALLOWANCE) <= 1e12,
        "m² · T at most 10^12",
    )?;
    require(
        m == MOST_FACTOR || squared(m + 1) * (sum + slack + SHARE_ALLOWANCE) >= 1e12 + 1.0,
        "(m + 1)² · (T + 301) at least 10^12 + 1",
    )
}

/// The current's distance: the rule in whole numbers, with the share in units of 10^-9
/// millionths. The second program's share enters it lowered or raised by the allowance,
/// so that its own error neither hides in the large products nor raises a false alarm.
pub fn current(i: u32, asked: &Emergency, exact: second::Current) -> Held {
    const SCALE: f64 = 1e9;
    let share = exact.share_millionths;
    let least = ((share - SHARE_ALLOWANCE).max(0.0) * SCALE).floor() as i128;
    let most = ((share + f64::from(SHARE_WIDTH) + SHARE_ALLOWANCE) * SCALE).ceil() as i128;
    let scale = SCALE as i128;
    require(i <= MOST_AMPERES, "at most 10,000")?;
    require(
        asked.excess(i, least, scale) <= 0,
        "the rule keeps the limit at i",
    )?;
    require(
        i == MOST_AMPERES || asked.excess(i + 1, most, scale) >= scale,
        "the rule with G + 50 is broken by 1 or more at i + 1",
    )?;
    let amperes = exact.exact_amperes * (1.0 + AMPERES_ALLOWANCE);
    require(
        f64::from(i) <= amperes,
        "at most the second program's amperes",
    )
}

#[cfg(test)]
mod tests {
    use super::*;

    fn pair(low: i64, high: i64) -> Bounds {
        Bounds { low, high }
    }

    #[test]
    fn a_rise_no_wider_than_its_distance() {
        // One step of rated² makes the distance 2 + 50.
        let held = |low, high, changes| rise(pair(low, high), -3.5, 400, changes).is_ok();
        assert!(held(-30, 22, 160_000));
        assert!(!held(-30, 23, 160_000));
        assert!(!held(-31, 22, 160_000));
        assert!(held(-4, -2, 0));
        assert!(!held(-5, -2, 0));
        assert!(!held(-3, -1, 0));
        assert!(!held(-6, -4, 0));
    }

    #[test]
    fn a_factor_at_its_distance() {
        // 1,000 and C4's 999 keep it, their neighbours do not.
        let held = [998, 999, 1_000, 1_001].map(|m| factor(m, 1e6).is_ok());
        assert_eq!(held, [false, true, true, false]);
        // The exact factor is above the cap. No day has so small a sum, yet the rule has it.
        let held = [4_998, 4_999, 5_000, 5_001].map(|m| factor(m, 38_600.0).is_ok());
        assert_eq!(held, [false, false, true, false]);
        // Row F07 of reference.tsv: its largest sum, and the factor of its highest
        // load's hour, 1,428.
        let held = [1_179, 1_180, 1_181, 1_428].map(|m| factor(m, 717_826.517_434).is_ok());
        assert_eq!(held, [false, true, false, false]);
    }

    #[test]
    fn a_current_at_its_distance() {
        // At G = 0.340186 the limit is met at 400 A / √G = 685.8 A.
        let exact = second::Current {
            exact_amperes: 400.0 / 0.340_186_f64.sqrt(),
            share_millionths: 340_186.0,
        };
        let asked = Emergency {
            h: 0,
            r: 100,
            rated: 400,
        };
        let held = [684, 685, 686].map(|i| current(i, &asked, exact).is_ok());
        assert_eq!(held, [false, true, false]);
        // The cap: with one millionth of a share nothing warms in time.
        let exact = second::Current {
            exact_amperes: 400_000.0,
            share_millionths: 1.0,
        };
        let held = [9_999, 10_000, 10_001].map(|i| current(i, &asked, exact).is_ok());
        assert_eq!(held, [false, true, false]);
    }
}
