//! Stands in for the built programs: what `rating explain` has to print, written out from
//! document 01's tables and document 02's note 2.

use compare::pages::{Programs, Said};
use compare::program::line_of;
use compare::Input;

/// Words of `rating explain`, and what is printed and complained of for them.
pub type Fault = (&'static [u8], &'static str, &'static str);

/// The programs, with a fault or none.
pub struct Stub(pub Option<Fault>);

const CONDITIONS: [&str; 16] = [
    "length is neither 36 + 6n nor 38 + 6n, n 0 to 48",
    "field outside its range, first such",
    "slow rate above fast",
    "starting current above 4,000",
    "link above n",
    "record's minutes out of range",
    "record's amperes above 4,000",
    "minutes not below the record before",
    "minutes asked outside 1 to 2,880",
    "hour above 4,000 A, first such",
    "all hours 0",
    "h outside 0 to 200, or r outside 1 to 200",
    "h² above 100·r",
    "neighbour's link above n or, unless 0, not above the record holding it",
    "neighbour's offset beyond 3,000 mm either way, or depth outside 300 to 5,000",
    "neighbour's c below d",
];

const FIELDS: [&str; 8] = [
    "outer diameter, 0.1 mm, 100 to 1,500",
    "depth of axis, mm, 300 to 5,000",
    "soil diffusivity, 10^-9 m²/s, 100 to 2,000, or 0 for 500",
    "surface ratio, millionths, 0 to 1,000,000",
    "fast weight, millionths, 0 to 1,000,000",
    "fast rate, millionths per second, 1 to 100,000",
    "slow rate, millionths per second, 1 to 100,000",
    "rated current, A, 50 to 2,000",
];

/// What a place is, where the condition has it.
fn place(number: u8, place: u8) -> Option<String> {
    let record = |words: &str| format!("record {place}: {words}");
    Some(match (number, place) {
        (2, 1..=8) => format!("field {place}: {}", FIELDS[usize::from(place) - 1]),
        (5, 0) => record("the header's first link"),
        (5, 1..=48) => record("its next link"),
        (6, 1..=48) => record("its minutes, 1 to 2,880"),
        (7, 1..=48) => record("its amperes, 0 to 4,000"),
        (8, 1..=48) => record("its minutes, below those of the record before"),
        (10, 0..=23) => format!("hour {place}: its amperes, 0 to 4,000"),
        (12, 1) => "input 1: preload, percent of the rated current, 0 to 200".to_string(),
        (12, 2) => "input 2: limit, percent of the rated rise, 1 to 200".to_string(),
        (14, 0) => record("the header's second link"),
        (14, 1..=48) => record("its next link"),
        (15, 1..=48) => {
            record("its offset, 3,000 mm either way at most, and depth, 300 to 5,000 mm")
        }
        (16, 1..=48) => {
            record("its distance from the cable's axis, not below the cable's diameter")
        }
        (1 | 3 | 4 | 9 | 11 | 13, 0) => "no place is named".to_string(),
        _ => return None,
    })
}

/// What is said with these words.
pub fn explain(words: &[u8]) -> Said {
    let condition = CONDITIONS[usize::from(words[0]) - 1];
    let second = words.get(1).map(|at| place(words[0], *at));
    let (second, complaint) = match second {
        None => (String::new(), ""),
        Some(None) => (String::new(), "rating: there is no such place\n"),
        Some(Some(line)) => (format!("{line}\n"), ""),
    };
    Said {
        printed: format!("{condition}\n{second}"),
        complaint: complaint.to_string(),
    }
}

impl Programs for Stub {
    fn explain(&self, words: &[u8]) -> Result<Said, String> {
        match self.0 {
            Some((faulty, printed, complaint)) if faulty == words => Ok(Said {
                printed: printed.to_string(),
                complaint: complaint.to_string(),
            }),
            _ => Ok(explain(words)),
        }
    }

    fn rise(&self, sheet: &[u8]) -> Result<String, String> {
        Ok(line_of(&Input::Rise {
            sheet: sheet.to_vec(),
        }))
    }
}
