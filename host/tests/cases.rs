//! Document 01's cases C1 to C12 through the static library; what is expected stands there.
//! And days of document 02's note 1, 'The hottest hour', and trenches of its note 2.

mod common;

use common::A;
use kechmowad::{
    current, current_in_sheet, factor, factor_in_sheet, long_sheet, rise, share, share_in_sheet,
    sheet, Bounds, Cable, Place, Refusal,
};

const B: Cable = Cable {
    surface_ratio: 0,
    fast_rate: 100_000,
    slow_rate: 100_000,
    ..A
};

/// C1's and C2's rise.
const STEADY: Result<Bounds, Refusal> = Ok(Bounds {
    low: 562_500,
    high: 562_500,
});

/// Minutes to stand for any allowed ones.
const MINUTES: [u32; 6] = [1, 2, 60, 359, 1_440, 2_880];

#[test]
fn c1_and_c2_a_steady_load() {
    let c1: [u32; 9] = [
        0x000001F4,
        0x000003E8,
        0x000001F4,
        0x000927C0,
        0x0007A120,
        0x000003E8,
        0x00000064,
        0x00000190,
        0x012C_0000,
    ];
    let bytes: Vec<u8> = c1.iter().flat_map(|word| word.to_be_bytes()).collect();
    assert_eq!(rise(&bytes), STEADY);
    assert_eq!(sheet(&A, 300, 0, &[]), bytes);
    assert_eq!(
        rise(&sheet(&A, 300, 1, &[[60, 300, 2], [30, 300, 0]])),
        STEADY
    );
}

#[test]
fn c3_and_c4_factors() {
    assert_eq!(factor(&A, &[200; 24]), Ok(1_000));
    for hour in 0..24 {
        let mut hours = [0; 24];
        hours[hour] = 400;
        assert_eq!(factor(&B, &hours), Ok(999));
    }
}

#[test]
fn days_hottest_after_a_plateau() {
    // Document 02, note 1: 'the reference hour becomes the one with the largest rounded-up
    // heating sum of all 24'. Worked out to 60 digits with mpmath; every pair of shares that
    // document 01 allows gives these factors. By the hour of the highest load they would be
    // 1,307 and 1,292.
    let mut evening = [200; 24];
    evening[7] = 400;
    evening[17..=22].fill(390);
    assert_eq!(factor(&A, &evening), Ok(1_147));
    let mut midnight = [0; 24];
    for hour in [21, 22, 23, 0, 1, 2] {
        midnight[hour] = 400;
    }
    assert_eq!(factor(&A, &midnight), Ok(1_186));
    // Row F07 of reference.tsv, where the highest load's hour has 1,428.
    let mut f07 = [50; 24];
    f07[8] = 310;
    f07[14..=21].fill(300);
    assert_eq!(factor(&A, &f07), Ok(1_180));
}

#[test]
fn c5_to_c8_currents() {
    let a_401 = Cable { rated: 401, ..A };
    for minutes in MINUTES {
        assert_eq!(current(&A, 100, 100, minutes), Ok(400));
        assert_eq!(current(&A, 50, 25, minutes), Ok(200));
        let told = current(&A, 51, 25, minutes).unwrap_err();
        assert_eq!((told.number(), told.place), (13, Place::None));
        assert_eq!(current(&a_401, 50, 25, minutes), Ok(200));
    }
}

#[test]
fn c9_and_c10_shares() {
    let slow = Cable {
        fast_rate: 1,
        slow_rate: 1,
        ..B
    };
    for (cable, below, above) in [(B, 997_521, 997_522), (slow, 59, 60)] {
        let Bounds { low, high } = share(&cable, 1).unwrap();
        assert!(0 <= low && low <= below && above <= high);
        assert!(high <= 1_000_000 && high - low <= 50);
    }
}

#[test]
fn c11_and_c12_sheets() {
    let told = rise(&sheet(&A, 300, 1, &[[30, 300, 1]])).unwrap_err();
    assert_eq!((told.number(), told.place), (8, Place::Record(1)));
    let most = sheet(&A, 300, 0, &[[0; 3]; 48]);
    assert_eq!(most.len(), 324);
    assert_eq!(rise(&most), STEADY);
    let more = sheet(&A, 300, 0, &[[0; 3]; 49]);
    assert_eq!(more.len(), 330);
    assert_eq!(rise(&more).unwrap_err().number(), 1);
}

/// Cable A with neighbours 200 mm to either side at its depth.
fn three_cables() -> Vec<u8> {
    let neighbours = [[200, 1_000, 2], [-200i16 as u16, 1_000, 0]];
    long_sheet(&A, 300, 0, 1, &neighbours)
}

#[test]
fn three_cables_in_a_trench() {
    // Worked out to 60 digits with mpmath: 296,515.003, 507,980.719 and 704,203.133; alone
    // they would be 340,185.872, 613,897.030 and 792,960.416.
    let three = three_cables();
    for (minutes, below) in [(60, 296_515), (360, 507_980), (2_880, 704_203)] {
        let Bounds { low, high } = share_in_sheet(&three, minutes).unwrap();
        assert!(low <= below && below < high && high - low <= 50);
    }
    // The largest heating sum is 740,304.516, at hour 19; the amperes are 528.863. Every pair
    // of shares that document 01 allows gives these.
    let day = [
        120, 110, 100, 90, 90, 100, 150, 210, 260, 300, 320, 330, 340, 350, 360, 370, 380, 390,
        400, 400, 380, 300, 220, 160,
    ];
    assert_eq!(factor_in_sheet(&three, &day), Ok(1_162));
    assert_eq!(current_in_sheet(&three, 75, 100, 120), Ok(528));
}

#[test]
fn cases_that_neighbours_do_not_change() {
    let three = three_cables();
    assert_eq!(rise(&three), STEADY);
    assert_eq!(factor_in_sheet(&three, &[200; 24]), Ok(1_000));
    for minutes in MINUTES {
        assert_eq!(current_in_sheet(&three, 100, 100, minutes), Ok(400));
        assert_eq!(current_in_sheet(&three, 50, 25, minutes), Ok(200));
        let told = current_in_sheet(&three, 51, 25, minutes).unwrap_err();
        assert_eq!((told.number(), told.place), (13, Place::None));
    }
}

#[test]
fn sheets_without_neighbours_answer_as_the_cable_alone() {
    let records = [[60, 400, 2], [30, 100, 0], [9, 9, 9]];
    let day = std::array::from_fn(|hour| 40 * hour as u16 % 700);
    for bytes in [
        sheet(&A, 300, 1, &records),
        long_sheet(&A, 300, 1, 0, &records),
    ] {
        for minutes in MINUTES {
            assert_eq!(share_in_sheet(&bytes, minutes), share(&A, minutes));
            let asked = current_in_sheet(&bytes, 75, 110, minutes);
            assert_eq!(asked, current(&A, 75, 110, minutes));
        }
        assert_eq!(factor_in_sheet(&bytes, &day), factor(&A, &day));
        assert_eq!(rise(&bytes), rise(&sheet(&A, 300, 1, &records)));
    }
}

#[test]
fn lengths_of_a_long_header() {
    let most = long_sheet(&A, 300, 0, 0, &[[0; 3]; 48]);
    assert_eq!(most.len(), 326);
    assert_eq!(rise(&most), STEADY);
    let more = long_sheet(&A, 300, 0, 0, &[[0; 3]; 49]);
    assert_eq!(more.len(), 332);
    assert_eq!(rise(&more).unwrap_err().number(), 1);
    let bytes = long_sheet(&A, 300, 0, 0, &[]);
    assert_eq!(rise(&bytes), STEADY);
    assert_eq!(rise(&bytes[..37]).unwrap_err().number(), 1);
}
