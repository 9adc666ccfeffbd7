//! Sheets that say the same: they are made as they should be, and answers that tell them
//! apart are told.

use compare::twins::{of_rise, of_trench, other_header, other_order};
use compare::{cable_a, History, Trench};
use kechmowad::{long_sheet, sheet};

const STEPS: [[u16; 3]; 2] = [[60, 400, 2], [30, 200, 0]];

/// Two steps, and three neighbours in records 3, 5 and 6; record 4 is on no chain.
fn trench() -> Vec<u8> {
    let neighbours = [
        [200, 1_000, 5],
        [9, 9, 9],
        [-200_i16 as u16, 1_000, 6],
        [0, 1_400, 0],
    ];
    long_sheet(&cable_a(), 300, 1, 3, &[&STEPS[..], &neighbours].concat())
}

#[test]
fn the_other_header_has_a_second_link_of_0() {
    let short = sheet(&cable_a(), 300, 1, &STEPS);
    let long = long_sheet(&cable_a(), 300, 1, 0, &STEPS);
    assert_eq!(other_header(&short), Some(long.clone()));
    assert_eq!(other_header(&long), Some(short.clone()));
    // Refused sheets have one as well, but for those of no allowed length.
    assert_eq!(other_header(&[255; 36]).map(|other| other.len()), Some(38));
    for none in [&[][..], &[0; 30], &[0; 32], &[0; 37], &trench()] {
        assert_eq!(other_header(none), None);
    }
}

#[test]
fn the_other_order_holds_the_same_neighbours() {
    let history = History::of(&trench());
    assert_eq!(history.neighbours.len(), 3);
    let sorted = |sheet: &[u8]| {
        let mut neighbours = History::of(sheet).neighbours;
        neighbours.sort();
        neighbours
    };
    let other = other_order(&trench(), true).expect("it fits");
    assert_eq!(sorted(&other), sorted(&trench()));
    assert_eq!(History::of(&other).steps, history.steps);
    assert_eq!(second::rise(&other).map(|r| r.neighbours), Ok(3));
    let no_steps = other_order(&trench(), false).expect("it fits");
    assert!(History::of(&no_steps).steps.is_empty());
    assert_eq!(sorted(&no_steps), sorted(&trench()));
    assert_eq!(other_order(&sheet(&cable_a(), 300, 1, &STEPS), true), None);
}

#[test]
fn an_order_that_48_records_do_not_hold() {
    let record = |i: u16| [2_881 - i, 300 + i, (i + 1) % 49];
    let shared: Vec<[u16; 3]> = (1..=48).map(record).collect();
    let shared = long_sheet(&cable_a(), 300, 1, 1, &shared);
    assert_eq!(other_order(&shared, true), None);
    let laid = other_order(&shared, false).expect("48 neighbours");
    assert_eq!(History::of(&laid).neighbours.len(), 48);
}

#[test]
fn neighbours_come_in_another_order() {
    for start in 0..50 {
        let records = [[200, 1_000, 2], [300, 1_000, 3], [400, 1_000, 0]];
        let sheet = long_sheet(&cable_a(), start, 0, 1, &records);
        let other = other_order(&sheet, true).expect("it fits");
        assert_ne!(
            History::of(&other).neighbours,
            History::of(&sheet).neighbours
        );
    }
}

/// Whether a trench whose answers are these is told.
fn told<T: PartialEq + std::fmt::Debug>(sheet: Vec<u8>, ask: impl Fn(&Trench) -> T) -> bool {
    let trench = Trench::Sheet(sheet);
    let said = ask(&trench);
    of_trench(&trench, said, ask).is_err()
}

#[test]
fn answers_that_depend_on_more_than_is_said() {
    let short = || sheet(&cable_a(), 300, 1, &STEPS);
    let long = || long_sheet(&cable_a(), 300, 1, 0, &STEPS);
    // The library's own answers are alike.
    for sheet in [short(), long(), trench()] {
        assert!(!told(sheet.clone(), |trench| trench.share(60)));
        assert!(!told(sheet.clone(), |trench| trench.factor(&[200; 24])));
        assert!(!told(sheet.clone(), |trench| trench.current(75, 100, 60)));
        assert_eq!(
            of_rise(&sheet, kechmowad::rise(&sheet), kechmowad::rise),
            Ok(())
        );
    }
    // By the length of the header, by where the cable is taken from, by the records' order.
    for sheet in [short(), long()] {
        assert!(told(sheet.clone(), |trench| trench.bytes().len()));
        assert!(told(sheet, |trench| matches!(trench, Trench::Alone(_))));
    }
    let first = |trench: &Trench| History::of(&trench.bytes()).neighbours;
    assert!(told(trench(), first));
    // The steps are no part of a share, but of a rise.
    let steps = |trench: &Trench| History::of(&trench.bytes()).steps;
    assert!(told(trench(), steps));
    let steps = |sheet: &[u8]| History::of(sheet).steps;
    assert_eq!(of_rise(&trench(), steps(&trench()), steps), Ok(()));
    let order = |sheet: &[u8]| History::of(sheet).neighbours;
    assert!(of_rise(&trench(), order(&trench()), order).is_err());
    let length = |sheet: &[u8]| sheet.len();
    assert!(of_rise(&short(), length(&short()), length).is_err());
}

#[test]
fn a_cable_alone_has_no_twin() {
    let alone = Trench::Alone(cable_a());
    let said = std::cell::Cell::new(0);
    let ask = |_: &Trench| said.replace(said.get() + 1);
    assert_eq!(of_trench(&alone, 0, ask), Ok(()));
    assert_eq!(said.get(), 0);
}
