//! What a cell says: numbers, ranges, places of bytes, refusals.

use kechmowad::Place;

/// A number with a comma before each three of its digits.
pub fn written(number: u32) -> String {
    let digits = number.to_string();
    let mut text = String::new();
    for (i, digit) in digits.chars().enumerate() {
        if i > 0 && (digits.len() - i) % 3 == 0 {
            text.push(',');
        }
        text.push(digit);
    }
    text
}

/// The number that is written there.
pub fn number(text: &str) -> Result<u32, String> {
    let read = text.replace(',', "").parse().ok();
    read.filter(|number| written(*number) == text)
        .ok_or_else(|| format!("no whole number: {text:?}"))
}

/// The numbers among words, in their order.
pub fn numbers_in(text: &str) -> Result<Vec<u32>, String> {
    text.split(|c: char| !c.is_ascii_digit() && c != ',')
        .map(|run| run.trim_matches(','))
        .filter(|run| !run.is_empty())
        .map(number)
        .collect()
}

/// What stands between two phrases of a text.
pub fn between<'a>(text: &'a str, before: &str, after: &str) -> Result<&'a str, String> {
    text.split_once(before)
        .and_then(|(_, rest)| rest.split_once(after))
        .map(|(found, _)| found)
        .ok_or_else(|| format!("it should say \"{before}..{after}\", but says {text:?}"))
}

/// `A to B`, or `A to B, or V for W`.
#[derive(Debug, Clone, Copy, PartialEq, Eq)]
pub struct Range {
    pub first: u32,
    pub last: u32,
    /// A value beside the range, and the one that it stands for.
    pub instead: Option<(u32, u32)>,
}

impl Range {
    /// The range that a cell writes.
    pub fn of(cell: &str) -> Result<Range, String> {
        let told = || format!("no range: {cell:?}");
        let (ends, instead) = match cell.split_once(", or ") {
            None => (cell, None),
            Some((ends, rest)) => (ends, Some(rest.split_once(" for ").ok_or_else(told)?)),
        };
        let (first, last) = ends.split_once(" to ").ok_or_else(told)?;
        let instead = match instead {
            None => None,
            Some((value, meant)) => Some((number(value)?, number(meant)?)),
        };
        let (first, last) = (number(first)?, number(last)?);
        Ok(Range {
            first,
            last,
            instead,
        })
    }

    /// Values at its ends and beyond them, each with whether it is accepted. `most` is
    /// the highest that can be handed over.
    pub fn edges(&self, most: u32) -> Vec<(u32, bool)> {
        let instead = self.instead.map(|(value, _)| value);
        let inside = [self.first, self.last].into_iter().chain(instead);
        let below = [self.first.saturating_sub(1), 0];
        let below = below.into_iter().filter(|value| *value < self.first);
        let above = [self.last.saturating_add(1), most];
        let beyond = below.chain(above).filter(|value| Some(*value) != instead);
        let inside = inside.map(|value| (value, true));
        inside.chain(beyond.map(|value| (value, false))).collect()
    }
}

/// `-A to A`: as far below 0 as above it.
#[derive(Debug, Clone, Copy, PartialEq, Eq)]
pub struct EitherWay {
    pub most: i16,
}

impl EitherWay {
    /// The range that a cell writes.
    pub fn of(cell: &str) -> Result<EitherWay, String> {
        let told = || format!("no range either way: {cell:?}");
        let ends = cell
            .strip_prefix('-')
            .and_then(|ends| ends.split_once(" to "));
        let (below, above) = ends.ok_or_else(told)?;
        let most = number(above)?;
        match i16::try_from(most) {
            Ok(most) if below == above => Ok(EitherWay { most }),
            _ => Err(told()),
        }
    }

    /// Values at its ends and beyond them, each with whether it is accepted.
    pub fn edges(&self) -> [(i16, bool); 6] {
        let most = self.most;
        [
            (most, true),
            (-most, true),
            (most.saturating_add(1), false),
            (-most.saturating_add(1), false),
            (i16::MAX, false),
            (i16::MIN, false),
        ]
    }
}

/// Where bytes stand: `A to B`, or `A and B` for two.
#[derive(Debug, Clone, Copy, PartialEq, Eq)]
pub struct Span {
    pub first: usize,
    pub length: usize,
}

impl Span {
    /// The bytes that a cell names.
    pub fn of(cell: &str) -> Result<Span, String> {
        let told = || format!("no bytes: {cell:?}");
        let two = cell.split_once(" and ");
        let ends = two.or_else(|| cell.split_once(" to ")).ok_or_else(told)?;
        let (first, last) = (number(ends.0)? as usize, number(ends.1)? as usize);
        if last <= first || two.is_some() && last != first + 1 {
            return Err(told());
        }
        Ok(Span {
            first,
            length: last - first + 1,
        })
    }
}

/// The kind of place that documents 01 and 02 name for each refusal, from 1.
const KINDS: [&str; 16] = [
    "none", "field", "none", "none", "record", "record", "record", "record", "none", "hour",
    "none", "input", "none", "record", "record", "record",
];

/// A place of a kind.
pub fn place(kind: &str, number: u8) -> Result<Place, String> {
    match (kind, number) {
        ("none", 0) => Ok(Place::None),
        ("field", _) => Ok(Place::Field(number)),
        ("record", _) => Ok(Place::Record(number)),
        ("hour", _) => Ok(Place::Hour(number)),
        ("input", _) => Ok(Place::Input(number)),
        _ => Err(format!("no place: {kind} {number}")),
    }
}

/// A refusal's number and place.
pub type Refused = (u8, Place);

/// `refused NUMBER PLACE`, the place a number or a word that stands for one.
#[derive(Debug, Clone, Copy)]
pub struct Told<'a> {
    pub number: u8,
    place: &'a str,
}

impl<'a> Told<'a> {
    /// The refusal that a cell writes.
    pub fn of(cell: &'a str) -> Result<Told<'a>, String> {
        let told = || format!("no refusal: {cell:?}");
        let words = cell.strip_prefix("`refused ");
        let words = words.and_then(|words| words.strip_suffix('`'));
        let (number, place) = words.and_then(|w| w.split_once(' ')).ok_or_else(told)?;
        let number = number.parse().map_err(|_| told())?;
        match number {
            1..=16 => Ok(Told { number, place }),
            _ => Err(told()),
        }
    }

    /// The refusal, where its place is a number.
    pub fn refusal(&self) -> Result<Refused, String> {
        let told = |_| format!("no number of a place: {:?}", self.place);
        self.at(self.place.parse().map_err(told)?)
    }

    /// The refusal, where its place may be a word that stands for a number.
    pub fn with(&self, word: &str, number: u8) -> Result<Refused, String> {
        if self.place == word {
            self.at(number)
        } else {
            self.refusal()
        }
    }

    fn at(&self, number: u8) -> Result<Refused, String> {
        let kind = KINDS[usize::from(self.number) - 1];
        Ok((self.number, place(kind, number)?))
    }
}

#[cfg(test)]
mod tests {
    use super::*;

    #[test]
    fn numbers_are_written_with_commas() {
        let read = ["0", "50", "1,500", "1,000,000"].map(number);
        assert_eq!(read, [Ok(0), Ok(50), Ok(1_500), Ok(1_000_000)]);
        for text in [
            "1500",
            "1,50",
            ",500",
            "01",
            "",
            "1.5",
            "-1",
            "5,000,000,000",
        ] {
            assert!(number(text).is_err(), "{text:?}");
        }
        let words = "at most 5,000, or 2 + 50·D/rated², and 301";
        assert_eq!(numbers_in(words), Ok(vec![5_000, 2, 50, 301]));
    }

    #[test]
    fn a_range_is_tried_at_both_ends() {
        let tried = |cell: &str| Range::of(cell).map(|range| range.edges(9_999));
        let inside = [(100, true), (2_000, true)];
        let beyond = [(99, false), (0, false), (2_001, false), (9_999, false)];
        let plain = [&inside[..], &beyond].concat();
        assert_eq!(tried("100 to 2,000"), Ok(plain));
        let beyond = [(0, true), (99, false), (2_001, false), (9_999, false)];
        let or_0 = [&inside[..], &beyond].concat();
        assert_eq!(tried("100 to 2,000, or 0 for 500"), Ok(or_0));
        let from_0 = [(0, true), (7, true), (8, false), (9_999, false)];
        assert_eq!(tried("0 to 7"), Ok(from_0.to_vec()));
        for cell in ["", "100", "100 to", "100 - 2,000", "1 to 2, or 0"] {
            assert!(Range::of(cell).is_err(), "{cell:?}");
        }
    }

    #[test]
    fn a_range_either_way_is_tried_on_both_sides() {
        let range = EitherWay::of("-3,000 to 3,000").unwrap();
        let beyond = [3_001, -3_001, 32_767, -32_768].map(|value| (value, false));
        let ends = [(3_000, true), (-3_000, true)];
        assert_eq!(range.edges()[..2], ends);
        assert_eq!(range.edges()[2..], beyond);
        for cell in [
            "0 to 3,000",
            "-3,000 to 2,999",
            "-3000 to 3000",
            "-3,000",
            "-1 to",
        ] {
            assert!(EitherWay::of(cell).is_err(), "{cell:?}");
        }
    }

    #[test]
    fn bytes_and_refusals_are_read() {
        let span = |first, length| Ok(Span { first, length });
        assert_eq!(Span::of("0 to 31"), span(0, 32));
        assert_eq!(Span::of("34 and 35"), span(34, 2));
        for cell in ["", "all", "34", "34 and 36", "35 and 34", "31 to 0"] {
            assert!(Span::of(cell).is_err(), "{cell:?}");
        }
        let read = |cell| Told::of(cell).and_then(|told| told.with("HOUR", 7));
        assert_eq!(read("`refused 10 HOUR`"), Ok((10, Place::Hour(7))));
        assert_eq!(read("`refused 5 0`"), Ok((5, Place::Record(0))));
        assert_eq!(read("`refused 9 0`"), Ok((9, Place::None)));
        for cell in [
            "refused 9 0",
            "`refused 9 1`",
            "`refused 17 0`",
            "`refused 10 DAY`",
        ] {
            assert!(read(cell).is_err(), "{cell:?}");
        }
    }
}
