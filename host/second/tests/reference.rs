//! The reference's rows: values at 60 digits or by the rules alone, computed by no code of
//! this project. A row of reference.tsv asks about a cable alone or about a sheet, one of
//! reference-notes.tsv about a sheet, most of them with neighbours.

use second::{
    current, current_in_sheet, factor, factor_in_sheet, rise, share, share_in_sheet, Cable,
    Current, Factor, Place, Refusal,
};

const REFERENCE: &str = include_str!("../../../crates/reference_rows/data/reference.tsv");
const NOTES: &str = include_str!("../../../crates/reference_rows/data/reference-notes.tsv");

/// A row of the data.
struct Row<'a> {
    id: &'a str,
    inputs: &'a str,
    results: &'a str,
}

impl Row<'_> {
    /// The sheet's bytes.
    fn sheet(&self) -> Vec<u8> {
        let hex = value(self.inputs, "sheet_hex").as_bytes();
        let byte = |pair: &[u8]| {
            let digits = std::str::from_utf8(pair).expect("digits");
            u8::from_str_radix(digits, 16).expect("hexadecimal")
        };
        hex.chunks(2).map(byte).collect()
    }

    fn cable(&self) -> Cable {
        Cable {
            d: self.input("d"),
            l: self.input("l"),
            s: self.input("s"),
            k: self.input("k"),
            w: self.input("w"),
            fast: self.input("fast"),
            slow: self.input("slow"),
            rated: self.input("rated"),
        }
    }

    fn hours(&self) -> [u16; 24] {
        let mut hours = value(self.inputs, "hours").split(',').map(str::parse);
        std::array::from_fn(|_| hours.next().expect("24 hours").expect("amperes"))
    }

    fn input(&self, name: &str) -> u32 {
        value(self.inputs, name).parse().expect("a whole number")
    }

    fn result(&self, name: &str) -> f64 {
        value(self.results, name).parse().expect("a number")
    }

    /// Holds a share to the exact one.
    fn holds_share(&self, g: f64) {
        let exact = self.result("G_millionths");
        let apart = (g - exact).abs();
        assert!(apart < 1e-8 && apart <= 1e-12 * exact, "{}: {g}", self.id);
    }

    /// Holds the factors of two columns to the distance of document 01, since the rules round
    /// the sum up. Where they allow one factor alone, it is the largest that the sum allows, or
    /// 999 where the sum is one in all digits that are known: rounded up it may pass one.
    fn holds_factors(&self, said: Factor, names: [&str; 2]) {
        let t = said.sum_millionths;
        let [least, most] = names.map(|name| self.result(name));
        let largest = (1e12 / t).sqrt().floor().min(5000.0);
        let rounded_past_one = (t - 1e6).abs() < 1e-6 && most == 999.0;
        assert!(
            least < most || most == largest || rounded_past_one,
            "{}: {t}",
            self.id
        );
        for m in [least, most] {
            assert!(m * m * (t - 1e-6) <= 1e12, "{}: {t}", self.id);
            let next = (m + 1.0) * (m + 1.0);
            assert!(next * (t + 301.0) >= 1e12 + 1.0, "{}: {t}", self.id);
        }
    }

    /// Holds the currents of two columns to the distance of document 01, since the rules take
    /// the high share.
    fn holds_currents(&self, said: Current, rated: u32, names: [&str; 2]) {
        self.holds_share(said.share_millionths);
        let [h, r, rated] = [self.input("h"), self.input("r"), rated].map(f64::from);
        let preload = h * h * rated * rated;
        let right = (100.0 * r - h * h) * rated * rated * 1e6;
        let left = |i: f64, g: f64| (1e4 * i * i - preload) * g;
        for i in names.map(|name| self.result(name)) {
            assert!(i <= said.exact_amperes, "{}: {said:?}", self.id);
            let broken = left(i + 1.0, said.share_millionths + 50.0);
            assert!(broken >= right + 1.0, "{}: {said:?}", self.id);
        }
    }
}

/// The value of a name in a cell of `name=value` with semicolons between.
fn value<'a>(cell: &'a str, name: &str) -> &'a str {
    let named = |pair: &'a str| pair.strip_prefix(name)?.strip_prefix('=');
    cell.split(';').find_map(named).expect("a value of the row")
}

/// The rows of a kind, of which there are so many.
fn rows(table: &'static str, kind: &str, count: usize) -> Vec<Row<'static>> {
    let cells = |line: &'static str| line.split('\t').collect::<Vec<_>>();
    let all = table.lines().map(cells).filter(|cells| cells[0] == kind);
    let row = |cells: Vec<&'static str>| Row {
        id: cells[1],
        inputs: cells[2],
        results: cells[3],
    };
    let rows: Vec<Row> = all.map(row).collect();
    assert_eq!(rows.len(), count, "{kind}");
    rows
}

/// A refusal as the rows have it: its number and that of its place, 0 where there is none.
fn told(refusal: Refusal) -> String {
    let place = match refusal.place {
        Place::None => 0,
        Place::Field(n) | Place::Record(n) | Place::Hour(n) | Place::Input(n) => n,
    };
    format!("{} {place}", refusal.number)
}

#[test]
fn every_row_is_of_a_kind_that_is_run() {
    assert_eq!(REFERENCE.lines().count(), 1 + 20 + 5 + 5 + 5 + 12);
    assert_eq!(NOTES.lines().count(), 1 + 18 + 8 + 8 + 10);
}

#[test]
fn shares() {
    for row in rows(REFERENCE, "share", 20) {
        row.holds_share(share(&row.cable(), row.input("minutes")).expect(row.id));
    }
    for row in rows(NOTES, "share_in_sheet", 18) {
        row.holds_share(share_in_sheet(&row.sheet(), row.input("minutes")).expect(row.id));
    }
}

#[test]
fn rises() {
    let exact = |row: &Row, name| {
        let r = rise(&row.sheet()).expect(row.id);
        let apart = (r.exact_millionths - row.result(name)).abs();
        assert!(apart < 1e-5, "{}: {r:?}", row.id);
        r
    };
    for row in rows(REFERENCE, "rise", 5) {
        let r = exact(&row, "exact_rise_millionths");
        assert_eq!(r.changes as f64, row.result("D"), "{}", row.id);
        assert_eq!(f64::from(r.rated).powi(2), row.result("rated2"));
    }
    for row in rows(NOTES, "rise", 8) {
        exact(&row, "rise");
    }
}

#[test]
fn factors() {
    // The rows name the earliest of equal hours (0, 7, 13, 19, 1), this program the latest.
    let latest = [23, 7, 17, 21, 1];
    for (row, hour) in rows(REFERENCE, "factor", 5).into_iter().zip(latest) {
        let hours = row.hours();
        let f = factor(&row.cable(), &hours).expect(row.id);
        let apart = (f.sum_millionths - row.result("note1_T")).abs();
        assert!(apart < 1e-6, "{}: {f:?}", row.id);
        row.holds_factors(f, ["note1_m_rule_min", "note1_m_rule_max"]);
        assert_eq!(f.reference_hour, hour, "{}", row.id);
        let earliest = row.result("note1_ref") as usize;
        assert!(earliest <= hour, "{}", row.id);
        assert_eq!(hours[earliest], hours[hour], "{}", row.id);
    }
    for row in rows(NOTES, "factor_in_sheet", 8) {
        let f = factor_in_sheet(&row.sheet(), &row.hours()).expect(row.id);
        row.holds_factors(f, ["factor_min", "factor_max"]);
    }
}

#[test]
fn currents() {
    let asked = |row: &Row| ["h", "r", "minutes"].map(|name| row.input(name));
    for row in rows(REFERENCE, "current", 5) {
        let [h, r, minutes] = asked(&row);
        let i = current(&row.cable(), h, r, minutes).expect(row.id);
        let exact = row.result("exact_amperes");
        assert!((i.exact_amperes / exact - 1.0).abs() < 1e-12, "{}", row.id);
        row.holds_currents(i, row.cable().rated, ["i_rule_min", "i_rule_max"]);
    }
    for row in rows(NOTES, "current_in_sheet", 10) {
        let [h, r, minutes] = asked(&row);
        match current_in_sheet(&row.sheet(), h, r, minutes) {
            Err(refusal) => assert_eq!(row.results, format!("refused={}", told(refusal))),
            Ok(i) => {
                let rated = rise(&row.sheet()).expect(row.id).rated;
                row.holds_currents(i, rated, ["current_min", "current_max"]);
            }
        }
    }
}

#[test]
fn lines_of_a_program() {
    for row in rows(REFERENCE, "program", 12) {
        let line = value(row.results, "stdout");
        match (rise(&row.sheet()), line.strip_prefix("rise ")) {
            (Ok(r), Some(pair)) => {
                let mut ends = pair.split(' ').map(|end| end.parse::<f64>());
                let mut end = || ends.next().expect("two ends").expect("a number");
                let (low, high) = (end(), end());
                let exact = r.exact_millionths;
                assert!(low <= exact && exact <= high, "{}: {r:?}", row.id);
            }
            (said, _) => {
                let refusal = said.expect_err(row.id);
                assert_eq!(line, format!("refused {}", told(refusal)), "{}", row.id);
            }
        }
    }
}
