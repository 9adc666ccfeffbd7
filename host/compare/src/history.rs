//! What an accepted sheet says, in whole numbers: the steps of its load and its neighbours.

use kechmowad::{long_sheet, Cable};

/// Most records of a sheet.
pub const MOST_RECORDS: usize = 48;

/// An accepted sheet's history, and its neighbours.
#[derive(Debug, Clone)]
pub struct History {
    pub cable: Cable,
    /// Amperes before the first step.
    pub start: u16,
    /// Minutes before now and amperes from then on, oldest first.
    pub steps: Vec<[u16; 2]>,
    /// Offset and depth of each, as they stand in the sheet.
    pub neighbours: Vec<[u16; 2]>,
}

/// The two bytes at a place, as a number.
fn two(sheet: &[u8], at: usize) -> u16 {
    u16::from(sheet[at]) << 8 | u16::from(sheet[at + 1])
}

/// Bytes before the records. Document 02, note 2: 'lengths 36 + 6n and 38 + 6n are told
/// apart by their remainder by 6'.
pub fn head(sheet: &[u8]) -> usize {
    match sheet.len() % 6 {
        2 => 38,
        _ => 36,
    }
}

/// The first two numbers of each record on the chain that begins with a link. No chain is
/// longer than the most records: one that leads back would never end.
fn chain(sheet: &[u8], mut link: u16) -> Vec<[u16; 2]> {
    let mut records = Vec::new();
    while link != 0 && records.len() <= MOST_RECORDS {
        let at = head(sheet) + 6 * (usize::from(link) - 1);
        records.push([two(sheet, at), two(sheet, at + 2)]);
        link = two(sheet, at + 4);
    }
    records
}

impl History {
    /// Reads a sheet that both programs accept; of another it may panic.
    pub fn of(sheet: &[u8]) -> History {
        let fields = std::array::from_fn(|i| {
            let high = u32::from(two(sheet, 4 * i)) << 16;
            high | u32::from(two(sheet, 4 * i + 2))
        });
        let second_link = match head(sheet) {
            38 => two(sheet, 36),
            _ => 0,
        };
        History {
            cable: Cable::from(fields),
            start: two(sheet, 32),
            steps: chain(sheet, two(sheet, 34)),
            neighbours: chain(sheet, second_link),
        }
    }

    /// Minutes of each step, and amperes² less the previous amperes².
    pub fn squared_steps(&self) -> Vec<(u32, i64)> {
        let square = |amperes: u16| i64::from(amperes) * i64::from(amperes);
        let mut before = square(self.start);
        let mut steps = Vec::new();
        for &[minutes, amperes] in &self.steps {
            let now = square(amperes);
            steps.push((u32::from(minutes), now - before));
            before = now;
        }
        steps
    }

    /// D: the sum of the sizes of the changes.
    pub fn changes(&self) -> u64 {
        let steps = self.squared_steps();
        steps.iter().map(|(_, change)| change.unsigned_abs()).sum()
    }

    /// A sheet that says the same: a long header, the steps, then the neighbours, each
    /// record linked to the next. Nothing where 48 records do not hold them.
    pub fn written(&self) -> Option<Vec<u8>> {
        let (steps, all) = (self.steps.len(), self.steps.len() + self.neighbours.len());
        // The first record of a chain, 0 where it is empty.
        let first = |from: usize, end: usize| if from < end { from as u16 + 1 } else { 0 };
        let numbers = self.steps.iter().chain(&self.neighbours).zip(1..);
        let records = numbers.map(|(&[one, two], number): (&[u16; 2], usize)| {
            let last = number == steps || number == all;
            [one, two, if last { 0 } else { number as u16 + 1 }]
        });
        let records: Vec<[u16; 3]> = records.collect();
        (all <= MOST_RECORDS).then(|| {
            let links = (first(0, steps), first(steps, all));
            long_sheet(&self.cable, self.start, links.0, links.1, &records)
        })
    }
}
