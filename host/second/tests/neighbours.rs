//! Document 02, note 2: the long header, the chain of neighbours, its refusals and their
//! order. What is expected stands in the note; values were worked out to 60 digits with
//! mpmath from the separate-source form of document 000.

mod common;

use common::A;
use second::{
    current, current_in_sheet, factor, factor_in_sheet, long_sheet, rise, share, share_in_sheet,
    sheet, Cable, Neighbour, Place, Refusal,
};

/// A record's three numbers, as a sheet holds them.
type Record = (u16, u16, u16);

/// A neighbour's record: the offset in two's complement.
fn beside(offset: i16, depth: u16, next: u16) -> Record {
    (offset as u16, depth, next)
}

fn refused(number: u8, record: u8) -> Refusal {
    Refusal {
        number,
        place: Place::Record(record),
    }
}

/// A long sheet of cable A with no steps, whose second link is 1.
fn trench(records: &[Record]) -> Vec<u8> {
    long_sheet(&A, 300, 0, 1, records)
}

/// Neighbours 200 mm to either side at cable A's depth.
fn three_cables() -> Vec<u8> {
    trench(&[beside(200, 1_000, 2), beside(-200, 1_000, 0)])
}

/// What a sheet is told; nothing where it is accepted.
fn told(bytes: &[u8]) -> Option<Refusal> {
    rise(bytes).err()
}

#[test]
fn worked_shares() {
    let three = three_cables();
    // Minutes, share of the three, and share of cable A alone.
    let worked = [
        (60, 296_515.002_668_201_4, 340_185.872_328_480_9),
        (360, 507_980.718_844_249_3, 613_897.029_861_330_3),
        (2_880, 704_203.133_357_106_8, 792_960.416_133_229_5),
    ];
    for (minutes, group, alone) in worked {
        let close = |g: f64, expected: f64| (g - expected).abs() < 1e-8;
        assert!(close(share_in_sheet(&three, minutes).unwrap(), group));
        assert!(close(share(&A, minutes).unwrap(), alone));
    }
    let g = share_in_sheet(&three, 60).unwrap();
    assert!(296_514.0 < g && g < 296_516.0);
    let g = share_in_sheet(&three, 2_880).unwrap();
    assert!(704_203.0 < g && g < 704_204.0);
}

#[test]
fn worked_factor_current_and_rise() {
    let three = three_cables();
    let day = [
        120, 110, 100, 90, 90, 100, 150, 210, 260, 300, 320, 330, 340, 350, 360, 370, 380, 390,
        400, 400, 380, 300, 220, 160,
    ];
    let f = factor_in_sheet(&three, &day).unwrap();
    assert!((f.sum_millionths - 740_304.516_256_595_7).abs() < 1e-8);
    assert_eq!(f.reference_hour, 19);
    let i = current_in_sheet(&three, 75, 100, 120).unwrap();
    assert!((i.exact_amperes - 528.862_698_079_863_1).abs() < 1e-10);
    assert_eq!(i.share_millionths, share_in_sheet(&three, 120).unwrap());
    let steps = [
        (1_440, 400, 2),
        (720, 200, 3),
        (360, 450, 4),
        (60, 0, 5),
        (5, 500, 0),
        beside(200, 1_000, 7),
        beside(-200, 1_000, 0),
    ];
    let r = rise(&long_sheet(&A, 250, 1, 6, &steps)).unwrap();
    assert!((r.exact_millionths - 577_763.941_867_474_3).abs() < 1e-6);
    assert_eq!((r.steps, r.neighbours), (5, 2));
}

#[test]
fn many_near_and_far_neighbours() {
    // 48 touching ones in turn; one at the farthest corner; one 30 mm aside and 40 above.
    let touching: Vec<Record> = (2..=49).map(|next| beside(50, 1_000, next % 49)).collect();
    let rows = [
        (trench(&touching), 2_880, 755_397.046_200_227_6),
        (
            trench(&[beside(3_000, 5_000, 0)]),
            60,
            334_831.725_353_291_4,
        ),
        (trench(&[beside(30, 960, 0)]), 60, 320_366.728_681_787_4),
    ];
    for (bytes, minutes, expected) in rows {
        let g = share_in_sheet(&bytes, minutes).unwrap();
        assert!((g - expected).abs() < 1e-8, "{g}, not {expected}");
    }
}

#[test]
fn lengths_of_both_headers() {
    let no_length = Refusal {
        number: 1,
        place: Place::None,
    };
    let mut accepted = Vec::new();
    for length in 0..=340 {
        let mut bytes = sheet(&A, 300, 0, &[]);
        bytes.resize(length, 0);
        match told(&bytes) {
            None => accepted.push(length),
            Some(refusal) => assert_eq!(refusal, no_length),
        }
    }
    let mut expected: Vec<usize> = (0..=48).flat_map(|n| [36 + 6 * n, 38 + 6 * n]).collect();
    expected.sort();
    assert_eq!(accepted, expected);
    for length in [0, 2, 32, 37, 40, 330, 332] {
        assert_eq!(told(&vec![0; length]), Some(no_length));
    }
}

#[test]
fn a_long_header_without_neighbours_is_the_short_one() {
    let records = [(60, 400, 2), (30, 100, 0), (9, 9, 9)];
    let short = sheet(&A, 250, 1, &records);
    let long = long_sheet(&A, 250, 1, 0, &records);
    assert_eq!(long.len(), short.len() + 2);
    assert_eq!(rise(&short), rise(&long));
    assert_eq!(share_in_sheet(&short, 90), share(&A, 90));
    assert_eq!(share_in_sheet(&long, 90), share(&A, 90));
    let day = std::array::from_fn(|hour| 10 * hour as u16);
    assert_eq!(factor_in_sheet(&short, &day), factor(&A, &day));
    assert_eq!(factor_in_sheet(&long, &day), factor(&A, &day));
    assert_eq!(
        current_in_sheet(&short, 75, 110, 90),
        current(&A, 75, 110, 90)
    );
    assert_eq!(
        current_in_sheet(&long, 75, 110, 90),
        current(&A, 75, 110, 90)
    );
    // Whatever its records hold, a short header has no neighbours.
    assert_eq!(told(&sheet(&A, 300, 0, &[(0, 0, 9)])), None);
}

#[test]
fn links_of_neighbours() {
    let n = |offset| beside(offset, 1_000, 0);
    assert_eq!(told(&long_sheet(&A, 300, 0, 1, &[])), Some(refused(14, 0)));
    assert_eq!(
        told(&long_sheet(&A, 300, 0, 2, &[n(200)])),
        Some(refused(14, 0))
    );
    assert_eq!(
        told(&long_sheet(&A, 300, 0, u16::MAX, &[n(200)])),
        Some(refused(14, 0))
    );
    // To itself, backward, above n.
    assert_eq!(
        told(&trench(&[beside(200, 1_000, 1)])),
        Some(refused(14, 1))
    );
    let back = [n(200), beside(-200, 1_000, 1)];
    assert_eq!(
        told(&long_sheet(&A, 300, 0, 2, &back)),
        Some(refused(14, 2))
    );
    assert_eq!(
        told(&trench(&[beside(200, 1_000, 3), n(1)])),
        Some(refused(14, 1))
    );
    // The header may skip records, and so may a neighbour.
    let skips = [(9, 9, 9), beside(-200, 1_000, 4), (9, 9, 9), n(200)];
    let r = rise(&long_sheet(&A, 300, 0, 2, &skips)).unwrap();
    assert_eq!(r.neighbours, 2);
}

#[test]
fn offsets_and_depths() {
    for (offset, depth, number) in [
        (3_000, 1_000, None),
        (-3_000, 1_000, None),
        (3_001, 1_000, Some(15)),
        (-3_001, 1_000, Some(15)),
        (i16::MAX, 1_000, Some(15)),
        (i16::MIN, 1_000, Some(15)),
        (200, 300, None),
        (200, 5_000, None),
        (200, 299, Some(15)),
        (200, 5_001, Some(15)),
        (200, 0, Some(15)),
        (200, u16::MAX, Some(15)),
        (-1, 700, None),
        (-1, 1_000, Some(16)),
    ] {
        let expected = number.map(|number| refused(number, 1));
        assert_eq!(told(&trench(&[beside(offset, depth, 0)])), expected);
    }
}

#[test]
fn distances_from_the_axis() {
    // d in 0.1 mm, offset and depth in mm beside a cable 1,000 mm deep.
    for (d, offset, depth, accepted) in [
        (500, 50, 1_000, true),
        (500, -50, 1_000, true),
        (500, 49, 1_000, false),
        (500, 0, 1_050, true),
        (500, 0, 951, false),
        (500, 30, 960, true),
        (500, -30, 1_040, true),
        (500, 29, 960, false),
        (500, 0, 1_000, false),
        (505, 50, 1_000, false),
        (505, 51, 1_000, true),
        (1_500, 150, 1_000, true),
        (1_500, 149, 1_000, false),
        (100, 10, 1_000, true),
        (100, 9, 1_000, false),
    ] {
        let c = Cable { d, ..A };
        let bytes = long_sheet(&c, 300, 0, 1, &[beside(offset, depth, 0)]);
        let expected = (!accepted).then_some(refused(16, 1));
        assert_eq!(told(&bytes), expected, "{d} {offset} {depth}");
    }
    // Neighbours may coincide with each other, and touch each other.
    let same = [
        beside(200, 1_000, 2),
        beside(200, 1_000, 3),
        beside(201, 1_000, 0),
    ];
    assert_eq!(rise(&trench(&same)).unwrap().neighbours, 3);
    let n = Neighbour {
        offset: -200,
        depth: 700,
    };
    assert_eq!(n.squared_distances(&A), (130_000, 2_930_000));
}

#[test]
fn order_of_the_neighbours_refusals() {
    // 15 before 16 at one record; a record before the link that it holds; one neighbour
    // before the next.
    let shallow = Cable { l: 300, ..A };
    let both = long_sheet(&shallow, 300, 0, 1, &[beside(0, 299, 0)]);
    assert_eq!(told(&both), Some(refused(15, 1)));
    assert_eq!(told(&trench(&[beside(0, 1_000, 1)])), Some(refused(16, 1)));
    assert_eq!(
        told(&trench(&[beside(3_001, 1_000, 9)])),
        Some(refused(15, 1))
    );
    let two = [beside(0, 1_000, 2), beside(3_001, 1_000, 0)];
    assert_eq!(told(&trench(&two)), Some(refused(16, 1)));
    let two = [beside(200, 1_000, 2), beside(3_001, 1_000, 9)];
    assert_eq!(told(&trench(&two)), Some(refused(15, 2)));
}

#[test]
fn the_load_chain_comes_first() {
    // Its last link too, and every check of the header before both.
    let rows: [(u16, u16, &[Record], Refusal); 5] = [
        (1, 9, &[(30, 300, 1)], refused(8, 1)),
        (1, 9, &[(30, 300, 7)], refused(5, 1)),
        (1, 1, &[(0, 200, 0)], refused(6, 1)),
        (2, 1, &[beside(3_001, 0, 0), (30, 4_001, 0)], refused(7, 2)),
        (2, 1, &[beside(3_001, 0, 0), (30, 4_000, 0)], refused(15, 1)),
    ];
    for (first, second, records, expected) in rows {
        let bytes = long_sheet(&A, 300, first, second, records);
        assert_eq!(told(&bytes), Some(expected));
    }
    let hot = long_sheet(&A, 4_001, 9, 9, &[]);
    assert_eq!(told(&hot).map(|refusal| refusal.number), Some(4));
    let thin = long_sheet(&Cable { d: 99, ..A }, 4_001, 9, 9, &[]);
    assert_eq!(told(&thin).map(|refusal| refusal.number), Some(2));
}

#[test]
fn records_on_both_chains() {
    // 1,000 minutes or mm, 400 A or mm; one next link for both.
    let r = rise(&long_sheet(&A, 300, 1, 1, &[(1_000, 400, 0)])).unwrap();
    assert_eq!((r.steps, r.neighbours), (1, 1));
    let two = [(1_000, 400, 2), (900, 500, 0)];
    let r = rise(&long_sheet(&A, 300, 1, 1, &two)).unwrap();
    assert_eq!((r.steps, r.neighbours), (2, 2));
    // 200 A is a load and no depth.
    let shallow = long_sheet(&A, 300, 1, 1, &[(1_000, 200, 0)]);
    assert_eq!(told(&shallow), Some(refused(15, 1)));
    // A chain may join the other: steps 1, 3; neighbours 2, 3.
    let joined = [(2_000, 300, 3), beside(-200, 5_000, 3), (1_500, 700, 0)];
    let r = rise(&long_sheet(&A, 300, 1, 2, &joined)).unwrap();
    assert_eq!((r.steps, r.neighbours), (2, 2));
    let all: Vec<Record> = (1..=48)
        .map(|i: u16| (2_881 - i, 300 + i, (i + 1) % 49))
        .collect();
    let r = rise(&long_sheet(&A, 300, 1, 1, &all)).unwrap();
    assert_eq!((r.steps, r.neighbours), (48, 48));
}

#[test]
fn a_sheets_refusals_precede_those_of_what_is_asked() {
    let bad_hours = [4_001; 24];
    for bytes in [
        vec![0; 37],
        sheet(&Cable { d: 99, ..A }, 300, 0, &[]),
        sheet(&A, 4_001, 0, &[]),
        // A bad load chain, though no step is used.
        sheet(&A, 300, 1, &[(30, 300, 1)]),
        trench(&[beside(3_001, 1_000, 0)]),
        trench(&[beside(49, 1_000, 0)]),
        long_sheet(&A, 300, 0, 1, &[]),
    ] {
        let first = told(&bytes).expect("a refused sheet");
        assert_eq!(share_in_sheet(&bytes, 0), Err(first));
        assert_eq!(factor_in_sheet(&bytes, &bad_hours), Err(first));
        assert_eq!(current_in_sheet(&bytes, 201, 0, 0), Err(first));
    }
}

#[test]
fn refusals_of_what_is_asked_of_an_accepted_sheet() {
    let refused = |number, place| Refusal { number, place };
    let three = three_cables();
    let mut hours = [200; 24];
    hours[5] = 4_001;
    let hour = refused(10, Place::Hour(5));
    assert_eq!(factor_in_sheet(&three, &hours), Err(hour));
    let none = refused(11, Place::None);
    assert_eq!(factor_in_sheet(&three, &[0; 24]), Err(none));
    for minutes in [0, 2_881] {
        let late = refused(9, Place::None);
        assert_eq!(share_in_sheet(&three, minutes), Err(late));
        assert_eq!(current_in_sheet(&three, 201, 0, minutes), Err(late));
    }
    let told = |h, r| current_in_sheet(&three, h, r, 60).unwrap_err();
    assert_eq!(told(201, 0), refused(12, Place::Input(1)));
    assert_eq!(told(200, 0), refused(12, Place::Input(2)));
    assert_eq!(told(51, 25), refused(13, Place::None));
}

#[test]
fn the_order_of_neighbours_does_not_matter() {
    let ns = [(200, 1_000), (-350, 700), (0, 1_400), (2_999, 300)];
    let chained = |order: [usize; 4]| {
        let record = |(i, &at): (usize, &usize)| {
            let (offset, depth) = ns[at];
            beside(offset, depth, (i as u16 + 2) % 5)
        };
        trench(&order.iter().enumerate().map(record).collect::<Vec<_>>())
    };
    let one = share_in_sheet(&chained([0, 1, 2, 3]), 600).unwrap();
    for order in [[3, 2, 1, 0], [1, 3, 0, 2]] {
        let other = share_in_sheet(&chained(order), 600).unwrap();
        assert!((one - other).abs() < 1e-8);
    }
    // To which side says nothing.
    let mirrored = |offset| share_in_sheet(&trench(&[beside(offset, 900, 0)]), 600);
    assert_eq!(mirrored(350), mirrored(-350));
}

#[test]
fn cases_with_neighbours() {
    // C1, C3 and C5 do not depend on the share.
    let three = three_cables();
    assert_eq!(rise(&three).unwrap().exact_millionths, 562_500.0);
    let even = factor_in_sheet(&three, &[200; 24]).unwrap();
    assert_eq!(even.sum_millionths, 1_000_000.0);
    for minutes in [1, 60, 2_880] {
        let i = current_in_sheet(&three, 100, 100, minutes).unwrap();
        assert_eq!(i.exact_amperes, 400.0);
    }
    // A zero diffusivity stands for 500 here too.
    let c = Cable { s: 0, ..A };
    let zero = long_sheet(&c, 300, 0, 1, &[beside(200, 1_000, 0)]);
    let usual = trench(&[beside(200, 1_000, 0)]);
    assert_eq!(share_in_sheet(&zero, 90), share_in_sheet(&usual, 90));
}
