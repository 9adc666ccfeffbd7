//! The paper's cases C1 to C12 and its small examples of refusals. Document 02, note 1:
//! 'C3 and C4 keep their answers.'

mod common;

use common::A;
use second::{current, factor, rise, share, sheet, Cable, Place, Refusal};

const B: Cable = Cable {
    k: 0,
    fast: 100_000,
    slow: 100_000,
    ..A
};

/// Its slow rate is above its fast one.
const SWAPPED: Cable = Cable {
    fast: 100,
    slow: 101,
    ..A
};

fn refused(number: u8, place: Place) -> Refusal {
    Refusal { number, place }
}

/// C1's 36 bytes as the paper prints them.
const C1: [u8; 36] = [
    0x00, 0x00, 0x01, 0xF4, 0x00, 0x00, 0x03, 0xE8, 0x00, 0x00, 0x01, 0xF4, 0x00, 0x09, 0x27, 0xC0,
    0x00, 0x07, 0xA1, 0x20, 0x00, 0x00, 0x03, 0xE8, 0x00, 0x00, 0x00, 0x64, 0x00, 0x00, 0x01, 0x90,
    0x01, 0x2C, 0x00, 0x00,
];

#[test]
fn c1_no_steps() {
    assert_eq!(sheet(&A, 300, 0, &[]), C1);
    let r = rise(&C1).unwrap();
    assert_eq!(r.exact_millionths, 562_500.0);
    assert_eq!((r.changes, r.rated, r.steps), (0, 400, 0));
}

#[test]
fn c2_steps_without_change() {
    let r = rise(&sheet(&A, 300, 1, &[(60, 300, 2), (30, 300, 0)])).unwrap();
    assert_eq!(r.exact_millionths, 562_500.0);
    assert_eq!((r.changes, r.steps), (0, 2));
}

#[test]
fn c3_even_day() {
    let f = factor(&A, &[200; 24]).unwrap();
    assert_eq!(f.sum_millionths, 1_000_000.0);
    // All 24 sums are equal.
    assert_eq!(f.reference_hour, 23);
}

#[test]
fn c4_one_hour() {
    for hour in 0..24 {
        let mut hours = [0; 24];
        hours[hour] = 400;
        let f = factor(&B, &hours).unwrap();
        assert_eq!(f.reference_hour, hour);
        let t = f.sum_millionths;
        assert!((t - 1_000_000.0).abs() < 1e-6);
        // 999 keeps its distances.
        assert!(999.0 * 999.0 * t <= 1e12);
        assert!(1_000.0 * 1_000.0 * (t + 301.0) >= 1e12 + 1.0);
    }
}

#[test]
fn c5_to_c8_emergency() {
    for minutes in [1, 30, 60, 360, 2_880] {
        assert_eq!(current(&A, 100, 100, minutes).unwrap().exact_amperes, 400.0);
        assert_eq!(current(&A, 50, 25, minutes).unwrap().exact_amperes, 200.0);
        let c7 = current(&A, 51, 25, minutes).unwrap_err();
        assert_eq!(c7, refused(13, Place::None));
        let odd = Cable { rated: 401, ..A };
        assert_eq!(current(&odd, 50, 25, minutes).unwrap().exact_amperes, 200.5);
    }
}

#[test]
fn c9_fast_cable() {
    let g = share(&B, 1).unwrap();
    assert!(997_521.0 < g && g < 997_522.0);
    assert!((g - 997_521.247_823_333_6).abs() < 1e-8); // 10^6 − 10^6·e^(−6)
}

#[test]
fn c10_slow_cable() {
    let slow = Cable {
        fast: 1,
        slow: 1,
        ..B
    };
    let g = share(&slow, 1).unwrap();
    assert!(59.0 < g && g < 60.0);
    assert!((g - 59.998_200_035_999_46).abs() < 1e-12); // 10^6·(1 − e^(−0.00006))
}

#[test]
fn c11_loop() {
    let looped = sheet(&A, 300, 1, &[(30, 300, 1)]);
    assert_eq!(rise(&looped).unwrap_err(), refused(8, Place::Record(1)));
}

#[test]
fn c12_lengths() {
    let mut longest = C1.to_vec();
    longest.resize(324, 0);
    assert!(rise(&longest).is_ok());
    for length in [0, 35, 37, 41, 43, 323, 325, 330] {
        let mut other = C1.to_vec();
        other.resize(length, 0);
        assert_eq!(rise(&other).unwrap_err(), refused(1, Place::None));
    }
}

#[test]
fn small_examples() {
    assert_eq!(rise(&C1[..35]).unwrap_err(), refused(1, Place::None));
    let thin = Cable { d: 99, ..A };
    assert_eq!(share(&thin, 60).unwrap_err(), refused(2, Place::Field(1)));
    assert_eq!(share(&SWAPPED, 60).unwrap_err(), refused(3, Place::None));
    let sheet_refusal = |start, first, records: &[(u16, u16, u16)]| {
        rise(&sheet(&A, start, first, records)).unwrap_err()
    };
    assert_eq!(sheet_refusal(4_001, 0, &[]), refused(4, Place::None));
    assert_eq!(sheet_refusal(300, 1, &[]), refused(5, Place::Record(0)));
    assert_eq!(
        sheet_refusal(300, 1, &[(0, 300, 0)]),
        refused(6, Place::Record(1))
    );
    assert_eq!(
        sheet_refusal(300, 1, &[(30, 4_001, 0)]),
        refused(7, Place::Record(1))
    );
    assert_eq!(
        sheet_refusal(300, 1, &[(30, 300, 2), (30, 300, 0)]),
        refused(8, Place::Record(2))
    );
    assert_eq!(share(&A, 2_881).unwrap_err(), refused(9, Place::None));
    let mut hours = [200; 24];
    hours[5] = 4_001;
    assert_eq!(factor(&A, &hours).unwrap_err(), refused(10, Place::Hour(5)));
    assert_eq!(factor(&A, &[0; 24]).unwrap_err(), refused(11, Place::None));
    assert_eq!(
        current(&A, 201, 25, 60).unwrap_err(),
        refused(12, Place::Input(1))
    );
    assert_eq!(
        current(&A, 51, 25, 60).unwrap_err(),
        refused(13, Place::None)
    );
}

#[test]
fn ranges_of_fields() {
    // Field, set by number; then lowest and highest accepted.
    let set = |field: usize, value: u32| {
        let mut c = Cable {
            fast: 100_000,
            slow: 1,
            ..A
        };
        match field {
            1 => c.d = value,
            2 => c.l = value,
            3 => c.s = value,
            4 => c.k = value,
            5 => c.w = value,
            6 => c.fast = value,
            7 => c.slow = value,
            _ => c.rated = value,
        }
        c
    };
    let ranges = [
        (100, 1_500),
        (300, 5_000),
        (100, 2_000),
        (0, 1_000_000),
        (0, 1_000_000),
        (1, 100_000),
        (1, 100_000),
        (50, 2_000),
    ];
    for (i, &(lowest, highest)) in ranges.iter().enumerate() {
        let field = i + 1;
        let told = refused(2, Place::Field(field as u8));
        let mut outside = vec![highest + 1, u32::MAX];
        if lowest > 0 {
            outside.push(lowest - 1);
        }
        for value in outside {
            let c = set(field, value);
            assert_eq!(share(&c, 60), Err(told));
            assert_eq!(factor(&c, &[200; 24]), Err(told));
            assert_eq!(current(&c, 0, 100, 60), Err(told));
            assert_eq!(rise(&sheet(&c, 0, 0, &[])), Err(told));
        }
        for value in [lowest, highest] {
            assert!(share(&set(field, value), 60).is_ok());
        }
    }
}

#[test]
fn zero_diffusivity_is_500() {
    let c = Cable { s: 0, ..A };
    assert_eq!(share(&c, 90), share(&A, 90));
    assert!(share(&Cable { s: 1, ..A }, 90).is_err());
    assert!(share(&Cable { s: 99, ..A }, 90).is_err());
}

#[test]
fn order_of_refusals() {
    let thin_and_swapped = Cable {
        d: 99,
        rated: 0,
        ..SWAPPED
    };
    let bad_hours = [4_001; 24];
    assert_eq!(
        share(&thin_and_swapped, 0).unwrap_err(),
        refused(2, Place::Field(1))
    );
    assert_eq!(share(&SWAPPED, 0).unwrap_err(), refused(3, Place::None));
    assert_eq!(share(&A, 0).unwrap_err(), refused(9, Place::None));
    assert_eq!(
        factor(&SWAPPED, &bad_hours).unwrap_err(),
        refused(3, Place::None)
    );
    assert_eq!(
        factor(&A, &bad_hours).unwrap_err(),
        refused(10, Place::Hour(0))
    );
    assert_eq!(
        current(&SWAPPED, 201, 0, 0).unwrap_err(),
        refused(3, Place::None)
    );
    let told = |h, r, minutes| current(&A, h, r, minutes).unwrap_err();
    assert_eq!(told(201, 0, 0), refused(9, Place::None));
    assert_eq!(told(201, 0, 1), refused(12, Place::Input(1)));
    assert_eq!(told(200, 0, 1), refused(12, Place::Input(2)));
    assert_eq!(told(200, 201, 1), refused(12, Place::Input(2)));
    assert_eq!(told(200, 200, 1), refused(13, Place::None));
    // Sheet: 2 and 3 come before 4, 4 before 5.
    assert_eq!(
        rise(&sheet(&SWAPPED, 4_001, 9, &[])).unwrap_err(),
        refused(3, Place::None)
    );
    assert_eq!(
        rise(&sheet(&A, 4_001, 9, &[])).unwrap_err(),
        refused(4, Place::None)
    );
    // Along the chain each record is taken whole before the link it holds.
    let told = |records: &[(u16, u16, u16)]| rise(&sheet(&A, 0, 1, records)).unwrap_err();
    assert_eq!(told(&[(2_881, 4_001, 9)]), refused(6, Place::Record(1)));
    assert_eq!(told(&[(2_880, 4_001, 9)]), refused(7, Place::Record(1)));
    assert_eq!(told(&[(2_880, 4_000, 9)]), refused(5, Place::Record(1)));
    assert_eq!(
        told(&[(30, 1, 2), (40, 4_001, 0)]),
        refused(7, Place::Record(2))
    );
    assert_eq!(
        told(&[(30, 1, 2), (40, 4_000, 3)]),
        refused(8, Place::Record(2))
    );
    assert_eq!(
        told(&[(30, 1, 2), (20, 1, 3)]),
        refused(5, Place::Record(2))
    );
}

#[test]
fn chain_out_of_number_order() {
    // 3, then 1; record 2 is off the chain and wholly out of range.
    let records = [(30, 100, 0), (0, 9_999, 77), (120, 500, 1)];
    let r = rise(&sheet(&A, 200, 3, &records)).unwrap();
    let (older, newer) = (share(&A, 120).unwrap(), share(&A, 30).unwrap());
    let by_hand = (40_000.0 * 1e6 + 210_000.0 * older - 240_000.0 * newer) / 160_000.0;
    assert!((r.exact_millionths - by_hand).abs() < 1e-6);
    assert_eq!((r.changes, r.steps), (450_000, 2));
    // A longer loop is caught where minutes rise.
    let loop_of_two = [(60, 1, 2), (30, 2, 1)];
    assert_eq!(
        rise(&sheet(&A, 0, 1, &loop_of_two)).unwrap_err(),
        refused(8, Place::Record(1))
    );
}

#[test]
fn longest_chain() {
    let records: Vec<(u16, u16, u16)> = (1..=48)
        .map(|i: u16| (2_881 - i, if i % 2 == 1 { 4_000 } else { 0 }, (i + 1) % 49))
        .collect();
    let r = rise(&sheet(&A, 0, 1, &records)).unwrap();
    assert_eq!((r.changes, r.steps), (48 * 16_000_000, 48));
}

#[test]
fn falling_step_mirrors_rising_step() {
    let down = rise(&sheet(&A, 400, 1, &[(60, 0, 0)])).unwrap();
    let up = rise(&sheet(&A, 0, 1, &[(60, 400, 0)])).unwrap();
    assert!((down.exact_millionths + up.exact_millionths - 1_000_000.0).abs() < 1e-6);
    assert!((up.exact_millionths - share(&A, 60).unwrap()).abs() < 1e-9);
    assert_eq!(down.changes, up.changes);
}

#[test]
fn emergency_rule_is_an_equality() {
    for (h, r, minutes) in [(0, 1, 1), (0, 100, 60), (75, 110, 90), (100, 200, 2_880)] {
        let now = current(&A, h, r, minutes).unwrap();
        let rated = f64::from(A.rated).powi(2);
        let preload = f64::from(h * h) * rated;
        let left = (1e4 * now.exact_amperes.powi(2) - preload) * now.share_millionths;
        let right = f64::from(100 * r - h * h) * rated * 1e6;
        assert!((left / right - 1.0).abs() < 1e-12);
        assert_eq!(now.share_millionths, share(&A, minutes).unwrap());
    }
}

#[test]
fn share_within_bounds_and_rising() {
    for k in [0, 600_000, 1_000_000] {
        for d in [100, 500, 1_500] {
            for l in [300, 5_000] {
                let c = Cable { d, l, k, ..A };
                let mut before = 0.0;
                for minutes in [1, 2, 10, 60, 600, 2_880] {
                    let g = share(&c, minutes).unwrap();
                    assert!(before < g && g < 1e6);
                    before = g;
                }
            }
        }
    }
}

#[test]
fn shares_at_the_ends_of_the_ranges() {
    // Values worked out to 40 digits with arbitrary-precision arithmetic.
    let end = |d, l, s, w, fast, slow| Cable {
        d,
        l,
        s,
        k: 1_000_000,
        w,
        fast,
        slow,
        rated: 50,
    };
    for (c, minutes, g) in [
        (end(1_500, 300, 100, 0, 1, 1), 1, 9.991_708_484_994_005e-104),
        (
            end(1_500, 5_000, 100, 1_000_000, 100_000, 1),
            1,
            7.060_058_534_760_38e-100,
        ),
        (
            end(100, 300, 2_000, 0, 100_000, 100_000),
            2_880,
            974_477.288_903_934_6,
        ),
    ] {
        assert!((share(&c, minutes).unwrap() / g - 1.0).abs() < 1e-13);
    }
}
