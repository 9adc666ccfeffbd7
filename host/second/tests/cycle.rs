//! The daily cycle under document 02, note 1: 'the reference hour becomes the one with
//! the largest rounded-up heating sum of all 24. The factor rule now speaks of the
//! largest exact sum'. What is expected was worked out to 60 digits with mpmath from the
//! formulas of document 000, sum by sum and not gathered.

mod common;

use common::A;
use second::{factor, share, Cable};

/// Largest whole m, at most 5,000, with m² times T at most 10^12.
fn whole_factor(t: f64) -> u32 {
    let fits = |m: &u32| f64::from(*m).powi(2) * t <= 1e12;
    (0..=5_000).rev().find(fits).expect("0 fits")
}

/// Sees that a day has this T, hour and factor.
fn assert_day(c: &Cable, hours: &[u16; 24], t: f64, hour: usize, m: u32) {
    let f = factor(c, hours).unwrap();
    assert!((f.sum_millionths - t).abs() < 1e-6, "{f:?}, not {t}");
    assert_eq!(f.reference_hour, hour);
    assert_eq!(whole_factor(f.sum_millionths), m);
}

/// 200 A all day, 400 A at hour 7 and 390 A at hours 17 to 22.
fn peak_and_plateau() -> [u16; 24] {
    let mut hours = [200; 24];
    hours[7] = 400;
    hours[17..=22].fill(390);
    hours
}

#[test]
fn the_end_of_the_plateau_is_hottest() {
    // mpmath; the sum at hour 7, of the highest load, is 584,833.47 and its factor 1,307.
    assert_day(&A, &peak_and_plateau(), 759_805.672_726_779_4, 22, 1_147);
}

#[test]
fn a_plateau_around_midnight() {
    // mpmath; at hour 23, the latest of the highest load, 598,781.90 and 1,292. All loads
    // are over the highest, so that their size says nothing.
    for amperes in [1, 300, 4_000] {
        let mut hours = [0; 24];
        for hour in [21, 22, 23, 0, 1, 2] {
            hours[hour] = amperes;
        }
        assert_day(&A, &hours, 710_422.772_395_997_8, 2, 1_186);
    }
}

#[test]
fn a_day_that_begins_at_another_hour() {
    let t = factor(&A, &peak_and_plateau()).unwrap().sum_millionths;
    for later in 0..24 {
        let mut hours = peak_and_plateau();
        hours.rotate_right(later);
        let f = factor(&A, &hours).unwrap();
        assert_eq!(f.sum_millionths, t);
        assert_eq!(f.reference_hour, (22 + later) % 24);
    }
}

/// The heating sum with that hour as the reference, as document 01 writes it.
fn ungathered(c: &Cable, hours: &[u16; 24], reference: usize) -> f64 {
    let highest = f64::from(*hours.iter().max().unwrap());
    let y = |i: usize| (f64::from(hours[(reference + 24 - i) % 24]) / highest).powi(2);
    let g = |hour: usize| match hour {
        0 => 0.0,
        _ => share(c, 60 * hour as u32).unwrap(),
    };
    let mean = (0..24).map(y).sum::<f64>() / 24.0;
    let near: f64 = (0..6).map(|i| y(i) * (g(i + 1) - g(i))).sum();
    near + mean * (1e6 - g(6))
}

#[test]
fn largest_of_the_sums_ungathered() {
    let mixed: [u16; 24] = std::array::from_fn(|i| match i {
        2 | 4 => 390,
        _ => ((i * i * 37 + 11 * i) % 390) as u16,
    });
    // T and hour by mpmath.
    assert_day(&A, &mixed, 697_213.338_163_183_3, 4, 1_197);
    for hours in [mixed, peak_and_plateau()] {
        let f = factor(&A, &hours).unwrap();
        let sums: [f64; 24] = std::array::from_fn(|hour| ungathered(&A, &hours, hour));
        let largest = sums.into_iter().fold(0.0, f64::max);
        assert!((f.sum_millionths - largest).abs() < 1e-6);
        assert!((sums[f.reference_hour] - largest).abs() < 1e-6);
    }
}
