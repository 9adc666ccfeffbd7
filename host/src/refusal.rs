//! Refusals: a condition and a place.

use std::fmt;

/// Where a refusal points. Later versions may have more kinds of places, so a match on one
/// needs an arm for the rest:
///
/// ```compile_fail
/// fn number(place: kechmowad::Place) -> u8 {
///     use kechmowad::Place::*;
///     match place {
///         None => 0,
///         Field(n) | Record(n) | Hour(n) | Input(n) => n,
///     }
/// }
/// ```
#[derive(Debug, Clone, Copy, PartialEq, Eq)]
#[non_exhaustive]
pub enum Place {
    /// Nowhere in particular.
    None,
    /// A field of the cable, 1 to 8.
    Field(u8),
    /// A record of the sheet, from 1; 0 for the sheet's header.
    Record(u8),
    /// An hour of the day, 0 to 23.
    Hour(u8),
    /// 1 the preload h, 2 the limit r.
    Input(u8),
}

impl Place {
    /// The place of a kind and a number as they cross, or nothing where no such place is.
    pub(crate) fn read(kind: i64, number: i64) -> Option<Place> {
        let number = u8::try_from(number).ok()?;
        match (kind, number) {
            (0, 0) => Some(Place::None),
            (1, 1..=8) => Some(Place::Field(number)),
            (2, 0..=48) => Some(Place::Record(number)),
            (3, 0..=23) => Some(Place::Hour(number)),
            (4, 1..=2) => Some(Place::Input(number)),
            _ => None,
        }
    }

    /// The number of the place, 0 for none: what the program `rise` prints.
    pub fn number(self) -> u8 {
        match self {
            Place::None => 0,
            Place::Field(n) | Place::Record(n) | Place::Hour(n) | Place::Input(n) => n,
        }
    }
}

/// Why a calculation is refused: the conditions of the paper's table 'When the desk is told
/// no' and of note 2, by their numbers. Later versions may have more, so a match on one
/// needs an arm for the rest:
///
/// ```compile_fail
/// fn of_a_cable(condition: kechmowad::Condition) -> bool {
///     use kechmowad::Condition::*;
///     match condition {
///         Field | Rates => true,
///         Length | StartingCurrent | Link | RecordMinutes | RecordAmperes | Order => false,
///         Minutes | Hour | NoLoad | Percent | TooHot => false,
///         NeighbourLink | NeighbourPosition | TooNear => false,
///     }
/// }
/// ```
#[derive(Debug, Clone, Copy, PartialEq, Eq)]
#[non_exhaustive]
#[repr(u8)]
pub enum Condition {
    /// Length is neither 36 + 6n nor 38 + 6n, n 0 to 48.
    Length = 1,
    /// Field outside its range, first such.
    Field = 2,
    /// Slow rate above fast.
    Rates = 3,
    /// Starting current above 4,000.
    StartingCurrent = 4,
    /// Link above n.
    Link = 5,
    /// Record's minutes out of range.
    RecordMinutes = 6,
    /// Record's amperes above 4,000.
    RecordAmperes = 7,
    /// Minutes not below the record before.
    Order = 8,
    /// Minutes asked outside 1 to 2,880.
    Minutes = 9,
    /// Hour above 4,000 A, first such.
    Hour = 10,
    /// All hours 0.
    NoLoad = 11,
    /// h outside 0 to 200, or r outside 1 to 200.
    Percent = 12,
    /// h² above 100·r.
    TooHot = 13,
    /// Neighbour's link above n or, unless 0, not above the record holding it.
    NeighbourLink = 14,
    /// Neighbour's offset beyond 3,000 mm either way, or depth outside 300 to 5,000.
    NeighbourPosition = 15,
    /// Neighbour's c below d: its axis nearer to the cable's than the cable's diameter.
    TooNear = 16,
}

/// Each condition as the paper words it, in the order of the numbers.
const CONDITIONS: [(Condition, &str); 16] = [
    (
        Condition::Length,
        "length is neither 36 + 6n nor 38 + 6n, n 0 to 48",
    ),
    (Condition::Field, "field outside its range, first such"),
    (Condition::Rates, "slow rate above fast"),
    (Condition::StartingCurrent, "starting current above 4,000"),
    (Condition::Link, "link above n"),
    (Condition::RecordMinutes, "record's minutes out of range"),
    (Condition::RecordAmperes, "record's amperes above 4,000"),
    (Condition::Order, "minutes not below the record before"),
    (Condition::Minutes, "minutes asked outside 1 to 2,880"),
    (Condition::Hour, "hour above 4,000 A, first such"),
    (Condition::NoLoad, "all hours 0"),
    (
        Condition::Percent,
        "h outside 0 to 200, or r outside 1 to 200",
    ),
    (Condition::TooHot, "h² above 100·r"),
    (
        Condition::NeighbourLink,
        "neighbour's link above n or, unless 0, not above the record holding it",
    ),
    (
        Condition::NeighbourPosition,
        "neighbour's offset beyond 3,000 mm either way, or depth outside 300 to 5,000",
    ),
    (Condition::TooNear, "neighbour's c below d"),
];

impl Condition {
    /// The condition of a number, or nothing where the paper has none.
    pub fn of(number: u8) -> Option<Condition> {
        let row = usize::from(number).checked_sub(1)?;
        CONDITIONS.get(row).map(|&(condition, _)| condition)
    }

    /// Its number, 1 to 16 as yet.
    pub fn number(self) -> u8 {
        self as u8
    }

    /// The paper's words.
    pub fn words(self) -> &'static str {
        CONDITIONS[usize::from(self.number()) - 1].1
    }
}

/// A refusal: a condition of the paper, and its place.
#[derive(Debug, Clone, Copy, PartialEq, Eq)]
pub struct Refusal {
    /// Which condition holds, the first in the paper's order.
    pub condition: Condition,
    /// Where.
    pub place: Place,
}

impl Refusal {
    /// The condition's number, 1 to 16 as yet: what the programs print.
    pub fn number(self) -> u8 {
        self.condition.number()
    }
}

impl fmt::Display for Place {
    fn fmt(&self, f: &mut fmt::Formatter<'_>) -> fmt::Result {
        let kind = match self {
            Place::None => return write!(f, "no place"),
            Place::Field(_) => "field",
            Place::Record(_) => "record",
            Place::Hour(_) => "hour",
            Place::Input(_) => "input",
        };
        write!(f, "{kind} {}", self.number())
    }
}

impl fmt::Display for Refusal {
    fn fmt(&self, f: &mut fmt::Formatter<'_>) -> fmt::Result {
        write!(f, "refused {}", self.number())?;
        if self.place != Place::None {
            write!(f, " at {}", self.place)?;
        }
        write!(f, ": {}", self.condition.words())
    }
}

impl std::error::Error for Refusal {}

#[cfg(test)]
mod tests {
    use super::*;

    #[test]
    fn numbers_and_conditions_belong_together() {
        for (row, (condition, words)) in CONDITIONS.into_iter().enumerate() {
            assert_eq!(usize::from(condition.number()), row + 1);
            assert_eq!(Condition::of(condition.number()), Some(condition));
            assert_eq!(condition.words(), words);
        }
        assert_eq!([0, 17, 255].map(Condition::of), [None; 3]);
    }
}
