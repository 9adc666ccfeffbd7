//! Cyclic and emergency ratings of a buried cable in f64, alone or with neighbours in its
//! trench: the exact attained share, the rise after a load history, the largest heating
//! sum of a daily cycle and the emergency current, each with its refusals.

mod group;
mod integral;
mod sheet;

pub use group::Neighbour;
pub use integral::{exponential_integral, integral_between};
pub use sheet::{long_sheet, rise, sheet, Rise};

use group::Group;
use integral::Sum;
use sheet::{read, MOST_AMPERES, MOST_MINUTES};

pub(crate) const MILLION: f64 = 1_000_000.0;

/// Highest preload and highest limit, in percent.
const MOST_PERCENT: u32 = 200;

/// A cable in soil, in whole numbers.
#[derive(Debug, Clone, Copy, PartialEq, Eq)]
pub struct Cable {
    /// Outer diameter, 0.1 mm.
    pub d: u32,
    /// Depth of axis, mm.
    pub l: u32,
    /// Soil diffusivity, 10^-9 m²/s; 0 stands for 500.
    pub s: u32,
    /// Steady surface rise over conductor rise, millionths; with neighbours the ratio for
    /// the whole group.
    pub k: u32,
    /// Weight of the fast part, millionths.
    pub w: u32,
    /// Fast rate, millionths per second.
    pub fast: u32,
    /// Slow rate, millionths per second.
    pub slow: u32,
    /// Rated current, A.
    pub rated: u32,
}

/// Where a refusal points.
#[derive(Debug, Clone, Copy, PartialEq, Eq)]
pub enum Place {
    None,
    Field(u8),
    Record(u8),
    Hour(u8),
    Input(u8),
}

/// A refusal: its number and its place.
#[derive(Debug, Clone, Copy, PartialEq, Eq)]
pub struct Refusal {
    pub number: u8,
    pub place: Place,
}

impl Refusal {
    pub(crate) fn nowhere(number: u8) -> Refusal {
        Refusal {
            number,
            place: Place::None,
        }
    }
}

/// The heating of a daily cycle.
#[derive(Debug, Clone, Copy, PartialEq)]
pub struct Factor {
    /// T: the largest exact heating sum in millionths, over the 24 hours that may be
    /// the reference. The exact factor is 1 over the square root of T/1,000,000.
    pub sum_millionths: f64,
    /// Hour of that sum, the latest where several are equal. For information only:
    /// of hours whose exact sums are equal or nearly so, the last bit of an f64
    /// decides.
    pub reference_hour: usize,
}

/// The emergency current.
#[derive(Debug, Clone, Copy, PartialEq)]
pub struct Current {
    /// The amperes at which the rule with the exact share is an equality, uncapped.
    pub exact_amperes: f64,
    /// The exact share in millionths.
    pub share_millionths: f64,
}

/// Refusals 2 and 3.
pub(crate) fn check_cable(c: &Cable) -> Result<(), Refusal> {
    let in_range = [
        (100..=1_500).contains(&c.d),
        (300..=5_000).contains(&c.l),
        c.s == 0 || (100..=2_000).contains(&c.s),
        c.k <= 1_000_000,
        c.w <= 1_000_000,
        (1..=100_000).contains(&c.fast),
        (1..=100_000).contains(&c.slow),
        (50..=2_000).contains(&c.rated),
    ];
    if let Some(i) = in_range.iter().position(|fits| !fits) {
        return Err(Refusal {
            number: 2,
            place: Place::Field(i as u8 + 1),
        });
    }
    if c.slow > c.fast {
        return Err(Refusal::nowhere(3));
    }
    Ok(())
}

/// Refusal 9.
fn check_minutes(minutes: u32) -> Result<(), Refusal> {
    if (1..=MOST_MINUTES).contains(&minutes) {
        Ok(())
    } else {
        Err(Refusal::nowhere(9))
    }
}

/// The attained share G in millionths. Refusals 2, 3, 9.
pub fn share(c: &Cable, minutes: u32) -> Result<f64, Refusal> {
    check_cable(c)?;
    share_of(&Group::alone(c), minutes)
}

/// The share of a sheet's cable and neighbours. All of the sheet's refusals, then 9.
pub fn share_in_sheet(sheet: &[u8], minutes: u32) -> Result<f64, Refusal> {
    share_of(&read(sheet)?.group, minutes)
}

fn share_of(group: &Group, minutes: u32) -> Result<f64, Refusal> {
    check_minutes(minutes)?;
    Ok(group.share(minutes))
}

/// The heating sum with that hour as the reference, in millionths, times 24 and the
/// squared highest load, so that what multiplies each G is whole. `all` is the sum of
/// the squares, and the shares are G(1) to G(6).
fn heating_sum(squares: &[i64; 24], all: i64, shares: &[f64; 6], hour: usize) -> f64 {
    // Squared load i hours before the reference hour, around midnight.
    let earlier = |i: usize| squares[(hour + 24 - i) % 24];
    // Gathered: Y(j−1) − Yj for G(1) to G(5), Y5 − μ for G(6), and μ alone.
    let mut heating = Sum::default();
    heating.add(all as f64 * MILLION);
    for j in 1..=6 {
        let before = if j < 6 { 24 * earlier(j) } else { all };
        let weight = 24 * earlier(j - 1) - before;
        heating.add(weight as f64 * shares[j - 1]);
    }
    heating.value()
}

/// The largest heating sum of a daily cycle of hourly amperes. Refusals 2, 3, 10, 11.
///
/// Document 02, note 1: 'the reference hour becomes the one with the largest
/// rounded-up heating sum of all 24. The factor rule now speaks of the largest exact
/// sum'.
pub fn factor(c: &Cable, hours: &[u16; 24]) -> Result<Factor, Refusal> {
    check_cable(c)?;
    factor_of(&Group::alone(c), hours)
}

/// The same of a sheet's cable and neighbours. All of the sheet's refusals, then 10, 11.
pub fn factor_in_sheet(sheet: &[u8], hours: &[u16; 24]) -> Result<Factor, Refusal> {
    factor_of(&read(sheet)?.group, hours)
}

fn factor_of(group: &Group, hours: &[u16; 24]) -> Result<Factor, Refusal> {
    if let Some(hour) = hours.iter().position(|&amperes| amperes > MOST_AMPERES) {
        return Err(Refusal {
            number: 10,
            place: Place::Hour(hour as u8),
        });
    }
    let squares = hours.map(|amperes| i64::from(amperes) * i64::from(amperes));
    // Y and μ are over the squared highest load of the day, whichever hour is the
    // reference.
    let highest = squares.iter().fold(0, |most, &square| most.max(square));
    if highest == 0 {
        return Err(Refusal::nowhere(11));
    }

    let all = squares.iter().sum();
    let shares = [1, 2, 3, 4, 5, 6].map(|hour| group.share(60 * hour));
    let (mut reference_hour, mut largest) = (0, f64::NEG_INFINITY);
    for hour in 0..24 {
        let sum = heating_sum(&squares, all, &shares, hour);
        if sum >= largest {
            (reference_hour, largest) = (hour, sum);
        }
    }
    Ok(Factor {
        sum_millionths: largest / (24 * highest) as f64,
        reference_hour,
    })
}

/// The emergency current after a preload of h percent of rated current, with a
/// limit of r percent of rated rise. Refusals 2, 3, 9, 12, 13.
pub fn current(c: &Cable, h: u32, r: u32, minutes: u32) -> Result<Current, Refusal> {
    check_cable(c)?;
    current_of(&Group::alone(c), h, r, minutes)
}

/// The same of a sheet's cable and neighbours. All of the sheet's refusals, then 9, 12, 13.
pub fn current_in_sheet(sheet: &[u8], h: u32, r: u32, minutes: u32) -> Result<Current, Refusal> {
    current_of(&read(sheet)?.group, h, r, minutes)
}

fn current_of(group: &Group, h: u32, r: u32, minutes: u32) -> Result<Current, Refusal> {
    check_minutes(minutes)?;
    for (input, fits) in [(1, h <= MOST_PERCENT), (2, (1..=MOST_PERCENT).contains(&r))] {
        if !fits {
            return Err(Refusal {
                number: 12,
                place: Place::Input(input),
            });
        }
    }
    if h * h > 100 * r {
        return Err(Refusal::nowhere(13));
    }
    let share_millionths = group.share(minutes);
    // (10,000·i² − h²·rated²)·G = (100·r − h²)·rated²·1,000,000, solved for i.
    let spare = f64::from(100 * r - h * h) * MILLION / share_millionths;
    let exact_amperes = f64::from(group.cable.rated) * (f64::from(h * h) + spare).sqrt() / 100.0;
    Ok(Current {
        exact_amperes,
        share_millionths,
    })
}
