//! The days that are drawn, under document 02, note 1: 'the reference hour becomes the one
//! with the largest rounded-up heating sum of all 24'. Many have a plateau and a short,
//! slightly higher peak elsewhere; most of those are hottest at another hour than that of
//! the highest load, and there a factor by the highest load's hour is told.

use compare::{judge, Input, Random, Trench};
use kechmowad::{share, Bounds, Cable};
use std::collections::BTreeSet;

const SEED: u64 = 1972;
const DRAWN: u64 = 8_000;

/// Days that must be hottest at another hour than that of the highest load, of those drawn.
const ENOUGH: usize = 1_000;

/// A cable and a day that are accepted.
type Day = (Cable, [u16; 24]);

/// The second program's heating of a day; nothing where it is refused.
fn heating((cable, hours): &Day) -> Option<second::Factor> {
    let &[d, l, s, k, w, fast, slow, rated] = cable.fields();
    let cable = second::Cable {
        d,
        l,
        s,
        k,
        w,
        fast,
        slow,
        rated,
    };
    second::factor(&cable, hours).ok()
}

/// The accepted ones of the drawn days.
fn days() -> Vec<Day> {
    let drawn = (0..DRAWN).map(|index| Input::any_factor(&mut Random::new(SEED, index)));
    let days = drawn.map(|input| match input {
        Input::Factor {
            trench: Trench::Alone(cable),
            hours,
        } => (cable, hours),
        other => panic!("not a day: {other}"),
    });
    days.filter(|day| heating(day).is_some()).collect()
}

/// Runs of hours around midnight of which each carries nine tenths of the highest load or
/// more: where each begins, and its loads.
fn runs(hours: &[u16; 24]) -> Vec<(usize, Vec<u16>)> {
    let highest = u32::from(*hours.iter().max().expect("24 hours"));
    let high = |hour: usize| 10 * u32::from(hours[hour % 24]) >= 9 * highest;
    let starts = (0..24).filter(|&hour| high(hour) && !high(hour + 23));
    let run = |start: usize| (start..start + 24).take_while(|&hour| high(hour));
    starts
        .map(|start| (start, run(start).map(|hour| hours[hour % 24]).collect()))
        .collect()
}

/// Where a plateau begins and the hours of it and of the peak, told by the loads alone: two
/// runs, one of an hour or two at the highest load, the other of three or more below it.
fn plateau_and_peak(hours: &[u16; 24]) -> Option<(usize, usize, usize)> {
    let highest = *hours.iter().max().expect("24 hours");
    let mut runs = runs(hours);
    runs.sort_by_key(|(_, loads)| loads.len());
    let [(_, peak), (start, plateau)] = &runs[..] else {
        return None;
    };
    let short = peak.len() <= 2 && peak.iter().all(|&load| load == highest);
    let long = plateau.len() >= 3 && plateau.iter().all(|&load| load < highest);
    (short && long).then_some((*start, plateau.len(), peak.len()))
}

/// The accepted days with a plateau and a peak.
fn plateau_days() -> Vec<Day> {
    let mut days = days();
    days.retain(|(_, hours)| plateau_and_peak(hours).is_some());
    days
}

/// The latest hour of the highest load.
fn highest_hour(hours: &[u16; 24]) -> usize {
    let highest = hours.iter().max();
    let at = hours.iter().rposition(|load| Some(load) == highest);
    at.expect("24 hours")
}

/// The rounded-up heating sum with that hour as the reference: the library's own share
/// after i hours is multiplied by Y(i−1) − Yi, after six by Y5 − μ, and all is times
/// 24 and the squared highest load.
fn rounded_sum((cable, hours): &Day, reference: usize) -> i128 {
    let square = |hour: usize| i128::from(hours[hour % 24]).pow(2);
    let scale = 24 * square(highest_hour(hours));
    let mean: i128 = (0..24).map(square).sum();
    let y = |i: usize| match i {
        6 => mean,
        _ => 24 * square(reference + 24 - i),
    };
    let shares = (1..=6).map(|i| {
        let Bounds { low, high } = share(cable, 60 * i as u32).expect("an accepted cable");
        let weight = y(i - 1) - y(i);
        weight * i128::from(if weight > 0 { high } else { low })
    });
    let sum = 1_000_000 * mean + shares.sum::<i128>();
    (sum + scale - 1).div_euclid(scale)
}

/// The largest whole m, at most 5,000, with m² times the sum at most 10^12.
fn factor_of(sum: i128) -> u32 {
    (1_000_000_000_000 / sum).isqrt().min(5_000) as u32
}

/// The factor of the largest of the 24 sums.
fn factor_of_hottest(day: &Day) -> u32 {
    let sums = (0..24).map(|hour| rounded_sum(day, hour));
    factor_of(sums.max().expect("24 hours"))
}

#[test]
fn plateaus_of_every_length_begin_at_every_hour() {
    let all = days();
    let shapes: Vec<_> = all
        .iter()
        .filter_map(|(_, hours)| plateau_and_peak(hours))
        .collect();
    // One of three is drawn so; days without one rarely look so.
    let (some, of) = (shapes.len(), all.len());
    assert!(4 * some >= of && 5 * some <= 2 * of, "{some} of {of}");
    let starts: BTreeSet<usize> = shapes.iter().map(|&(start, _, _)| start).collect();
    assert!(starts.into_iter().eq(0..24));
    let lengths: BTreeSet<usize> = shapes.iter().map(|&(_, long, _)| long).collect();
    assert!(lengths.into_iter().eq(3..=12));
    let peaks: BTreeSet<usize> = shapes.iter().map(|&(_, _, short)| short).collect();
    assert!(peaks.into_iter().eq(1..=2));
}

#[test]
fn most_plateaus_are_hotter_than_the_peak() {
    let days = plateau_days();
    let elsewhere = days.iter().filter(|day| {
        let hottest = heating(day).expect("an accepted day").reference_hour;
        // By more than the rounding of both sums.
        let [there, here] = [hottest, highest_hour(&day.1)].map(|hour| rounded_sum(day, hour));
        hottest != highest_hour(&day.1) && there > here + 1
    });
    let (some, of) = (elsewhere.count(), days.len());
    assert!(some >= ENOUGH && 2 * some >= of, "{some} of {of}");
}

#[test]
fn a_factor_by_the_highest_loads_hour_is_told() {
    let days = plateau_days();
    let mut told = 0;
    for day in &days {
        let (cable, hours) = day;
        let trench = Trench::Alone(*cable);
        let right = factor_of_hottest(day);
        assert_eq!(judge::factor(&trench, hours, Ok(right)), Ok(()));
        let wrong = factor_of(rounded_sum(day, highest_hour(hours)));
        let judged = judge::factor(&trench, hours, Ok(wrong));
        assert_eq!(judged.is_err(), wrong != right, "{day:?}: {judged:?}");
        told += usize::from(judged.is_err());
    }
    let of = days.len();
    assert!(told >= ENOUGH && 2 * told >= of, "{told} of {of}");
}

#[test]
fn the_largest_factors_stay_below_the_cap() {
    // The mean of the 24 sums is μ, and one hour of load makes it 1/24: 4,898 or less.
    let largest = days().iter().map(factor_of_hottest).max();
    let largest = largest.expect("accepted days");
    assert!((4_000..=4_898).contains(&largest), "{largest}");
}
