//! The small examples of document 01's table 'When the desk is told no' and of document
//! 02's note 2, through the static library. Number, place and condition are theirs.

mod common;

use common::A;
use kechmowad::{
    current, current_in_sheet, factor, factor_in_sheet, long_sheet, rise, share, share_in_sheet,
    sheet, Cable, Condition, Place, Refusal,
};

/// Cable A with one or two fields changed.
fn changed(change: impl FnOnce(&mut Cable)) -> Cable {
    let mut cable = A;
    change(&mut cable);
    cable
}

/// What a sheet of cable A is told.
fn told(start: u16, first_link: u16, records: &[[u16; 3]]) -> Option<Refusal> {
    rise(&sheet(&A, start, first_link, records)).err()
}

/// What a sheet of cable A with neighbours alone is told.
fn told_trench(second_link: u16, records: &[[u16; 3]]) -> Option<Refusal> {
    rise(&long_sheet(&A, 300, 0, second_link, records)).err()
}

/// The refusal of each number from 1, in their order.
fn small_examples() -> [Option<Refusal>; 16] {
    let thin = changed(|cable| cable.diameter = 99);
    let crossed = changed(|cable| (cable.fast_rate, cable.slow_rate) = (100, 101));
    let mut hours = [200; 24];
    hours[5] = 4_001;
    [
        rise(&sheet(&A, 300, 0, &[])[..35]).err(),
        share(&thin, 60).err(),
        share(&crossed, 60).err(),
        told(4_001, 0, &[]),
        told(300, 1, &[]),
        told(300, 1, &[[0, 300, 0]]),
        told(300, 1, &[[30, 4_001, 0]]),
        told(300, 1, &[[30, 300, 2], [30, 300, 0]]),
        share(&A, 2_881).err(),
        factor(&A, &hours).err(),
        factor(&A, &[0; 24]).err(),
        current(&A, 201, 100, 60).err(),
        current(&A, 51, 25, 60).err(),
        told_trench(1, &[]),
        told_trench(1, &[[3_001, 1_000, 0]]),
        told_trench(1, &[[200, 1_000, 2], [49, 1_000, 0]]),
    ]
}

#[test]
fn each_is_told_its_number_and_place() {
    let places = [
        Place::None,
        Place::Field(1),
        Place::None,
        Place::None,
        Place::Record(0),
        Place::Record(1),
        Place::Record(1),
        Place::Record(2),
        Place::None,
        Place::Hour(5),
        Place::None,
        Place::Input(1),
        Place::None,
        Place::Record(0),
        Place::Record(1),
        Place::Record(2),
    ];
    for ((told, place), number) in small_examples().into_iter().zip(places).zip(1..) {
        assert_eq!(told.map(Refusal::number), Some(number));
        assert_eq!(told.map(|refusal| refusal.place), Some(place));
    }
}

#[test]
fn each_has_words() {
    let words = small_examples().map(|told| told.expect("a refusal").to_string());
    assert_eq!(
        words[0],
        "refused 1: length is neither 36 + 6n nor 38 + 6n, n 0 to 48"
    );
    assert_eq!(words[4], "refused 5 at record 0: link above n");
    assert_eq!(
        words[9],
        "refused 10 at hour 5: hour above 4,000 A, first such"
    );
    assert_eq!(words[12], "refused 13: h² above 100·r");
    assert_eq!(
        words[13],
        "refused 14 at record 0: \
         neighbour's link above n or, unless 0, not above the record holding it"
    );
    assert_eq!(
        words[14],
        "refused 15 at record 1: \
         neighbour's offset beyond 3,000 mm either way, or depth outside 300 to 5,000"
    );
    assert_eq!(words[15], "refused 16 at record 2: neighbour's c below d");
}

#[test]
fn a_field_is_told_by_every_call() {
    let cables = [
        changed(|cable| cable.diameter = 1_501),
        changed(|cable| cable.depth = 299),
        changed(|cable| cable.diffusivity = 99),
        changed(|cable| cable.surface_ratio = 1_000_001),
        changed(|cable| cable.fast_weight = u32::MAX),
        changed(|cable| cable.fast_rate = 0),
        changed(|cable| cable.slow_rate = 0),
        changed(|cable| cable.rated = 2_001),
    ];
    for (cable, field) in cables.iter().zip(1..) {
        let place = Place::Field(field);
        let condition = Condition::Field;
        let told = Some(Refusal { condition, place });
        assert_eq!(share(cable, 0).err(), told);
        assert_eq!(rise(&sheet(cable, 300, 0, &[])).err(), told);
        assert_eq!(factor(cable, &[0; 24]).err(), told);
        assert_eq!(current(cable, 201, 0, 0).err(), told);
        asked_of_sheet(&long_sheet(cable, 4_001, 9, 9, &[]), told);
    }
}

/// Share, factor and current of a sheet, asked for what is itself refused.
fn asked_of_sheet(sheet: &[u8], told: Option<Refusal>) {
    assert_eq!(share_in_sheet(sheet, 0).err(), told);
    assert_eq!(factor_in_sheet(sheet, &[0; 24]).err(), told);
    assert_eq!(current_in_sheet(sheet, 201, 0, 0).err(), told);
}

#[test]
fn a_sheets_refusals_precede_those_of_what_is_asked() {
    for bytes in [
        vec![0; 37],
        sheet(&A, 4_001, 0, &[]),
        // A bad load chain, though no step is used.
        sheet(&A, 300, 1, &[[30, 300, 1]]),
        long_sheet(&A, 300, 0, 1, &[]),
        long_sheet(&A, 300, 0, 1, &[[200, 299, 0]]),
        long_sheet(&A, 300, 0, 1, &[[49, 1_000, 0]]),
        // Both chains: the load chain's last link comes first.
        long_sheet(&A, 300, 1, 2, &[[30, 300, 7], [0, 0, 0]]),
    ] {
        let told = rise(&bytes).err();
        assert!(told.is_some());
        asked_of_sheet(&bytes, told);
    }
}

#[test]
fn an_accepted_sheet_is_told_what_is_asked_of_it() {
    let three = [[200, 1_000, 2], [-200i16 as u16, 1_000, 0]];
    let three = long_sheet(&A, 300, 0, 1, &three);
    let seen = |told: Option<Refusal>| told.map(|refusal| (refusal.number(), refusal.place));
    let mut hours = [200; 24];
    hours[5] = 4_001;
    let hour = Some((10, Place::Hour(5)));
    assert_eq!(seen(factor_in_sheet(&three, &hours).err()), hour);
    let none = Some((11, Place::None));
    assert_eq!(seen(factor_in_sheet(&three, &[0; 24]).err()), none);
    let late = Some((9, Place::None));
    assert_eq!(seen(share_in_sheet(&three, 2_881).err()), late);
    let told = |h, r, minutes| seen(current_in_sheet(&three, h, r, minutes).err());
    assert_eq!(told(201, 0, 0), late);
    assert_eq!(told(201, 0, 60), Some((12, Place::Input(1))));
    assert_eq!(told(51, 25, 60), Some((13, Place::None)));
}

#[test]
fn no_bytes_at_all() {
    let told = rise(&[]).err();
    assert_eq!(told.map(Refusal::number), Some(1));
    asked_of_sheet(&[], told);
}
