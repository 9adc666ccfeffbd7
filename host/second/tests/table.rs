//! Table 1 of source document 000 (CIGRE 1972): Φ0 to Φ5 and 1 − β(6) for a
//! depth of 1 m and a diffusivity of 0.5·10^-6 m²/s. The last digit printed
//! may be one out.

use second::{share, Cable};

/// β at a whole hour, as the share of a cable with k = 1 and no lag within. No diameter
/// above 0.150 m is accepted: there a cable of half the diameter, at half the depth in soil
/// of a quarter of the diffusivity, has the same β.
fn beta(d: u32, hour: u32) -> f64 {
    let (d, l, s) = match d {
        ..=1_500 => (d, 1_000, 500),
        _ => (d / 2, 500, 125),
    };
    let c = Cable {
        d,
        l,
        s,
        k: 1_000_000,
        w: 1_000_000,
        fast: 100_000,
        slow: 100_000,
        rated: 400,
    };
    share(&c, 60 * hour).unwrap() / 1e6
}

/// Row 0 to 5 for Φ, 6 for 1 − β(6).
fn entry(d: u32, row: u32) -> f64 {
    match row {
        0 => beta(d, 1),
        6 => 1.0 - beta(d, 6),
        i => beta(d, i + 1) - beta(d, i),
    }
}

/// Rows of the table: lines 1392 to 1398 for the diameters 0.030 to 0.100 m (line 1391),
/// each lengthened by lines 1404 to 1410 for 0.105 to 0.175 m (line 1403) and by lines 1416
/// to 1422 for 0.180 to 0.250 m (line 1415).
const ROWS: &str = include_str!("table-1.txt");

/// Two entries are misprints: Φ0 at 0.100 m (line 1392: 0.100, below its right
/// neighbour; the column adds up to 0.991) and 1 − β(6) at 0.095 m (line 1398:
/// 0.667 twice running; the column adds up to 0.991).
fn misprint(d: u32, row: u32) -> bool {
    (d, row) == (1_000, 0) || (d, row) == (950, 6)
}

/// The diameter, the row and the value of each entry, as printed.
fn printed() -> Vec<(u32, u32, f64)> {
    let mut entries = Vec::new();
    for (row, values) in (0..).zip(ROWS.lines()) {
        for (i, value) in (0..).zip(values.split(' ')) {
            entries.push((300 + 50 * i, row, value.parse().unwrap()));
        }
    }
    assert_eq!(entries.len(), 7 * 45);
    entries
}

#[test]
fn table_1() {
    for (d, row, value) in printed() {
        let apart = (entry(d, row) - value).abs();
        if misprint(d, row) {
            assert!((0.008..0.009).contains(&apart));
        } else {
            assert!(apart < 0.001, "d {d} row {row}: {apart}");
        }
    }
}

#[test]
fn columns_add_up_to_one_but_for_the_misprints() {
    for d in (300..=2_500).step_by(50) {
        let column = printed().into_iter().filter(|entry| entry.0 == d);
        let sum: f64 = column.map(|(_, _, value)| value).sum();
        let (expected, most) = match (0..7).any(|row| misprint(d, row)) {
            true => (0.991, 0.0),
            false => (1.0, 0.002),
        };
        assert!((sum - expected).abs() < most + 1e-9, "d {d}: {sum}");
    }
}
