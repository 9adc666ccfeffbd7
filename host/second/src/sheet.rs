//! The load sheet: its bytes, its two chains, and the rise after its history.

use crate::group::{Group, Neighbour};
use crate::integral::Sum;
use crate::{check_cable, Cable, Place, Refusal, MILLION};

/// Bytes before the records, without and with a second link.
const HEAD: usize = 36;
const LONG_HEAD: usize = 38;
/// Bytes of a record.
const RECORD: usize = 6;
/// Most records of a sheet.
const MOST_RECORDS: usize = 48;
/// Highest current of a history or a cycle, in amperes.
pub(crate) const MOST_AMPERES: u16 = 4_000;
/// Longest time asked or recorded, in minutes.
pub(crate) const MOST_MINUTES: u32 = 2_880;

/// The rise at the end of a sheet's history.
#[derive(Debug, Clone, Copy, PartialEq)]
pub struct Rise {
    /// Exact rise in millionths of the rated steady rise.
    pub exact_millionths: f64,
    /// D: sum over the chain's steps of the size of amperes² − previous amperes².
    pub changes: u64,
    /// Rated current in amperes.
    pub rated: u32,
    /// Steps on the load chain.
    pub steps: usize,
    /// Neighbours on the other chain.
    pub neighbours: usize,
}

/// A change of the load: so many minutes before now, to so many amperes.
struct Step {
    minutes: u16,
    amperes: u16,
}

/// What an accepted sheet says.
pub(crate) struct Read {
    pub group: Group,
    start: u16,
    steps: Vec<Step>,
}

fn two(sheet: &[u8], at: usize) -> u16 {
    u16::from_be_bytes([sheet[at], sheet[at + 1]])
}

fn four(sheet: &[u8], at: usize) -> u32 {
    u32::from_be_bytes([sheet[at], sheet[at + 1], sheet[at + 2], sheet[at + 3]])
}

fn at_record(number: u8, record: usize) -> Refusal {
    Refusal {
        number,
        place: Place::Record(record as u8),
    }
}

fn square(amperes: u16) -> i64 {
    i64::from(amperes) * i64::from(amperes)
}

/// The records of a sheet whose length is one of those allowed.
struct Records<'a> {
    sheet: &'a [u8],
    head: usize,
    count: usize,
}

impl<'a> Records<'a> {
    /// Document 02, note 2: 'lengths 36 + 6n and 38 + 6n are told apart by their remainder
    /// by 6'. Nothing for other lengths.
    fn of(sheet: &'a [u8]) -> Option<Records<'a>> {
        let head = match sheet.len() % RECORD {
            0 => HEAD,
            2 => LONG_HEAD,
            _ => return None,
        };
        let count = sheet.len().checked_sub(head)? / RECORD;
        (count <= MOST_RECORDS).then_some(Records { sheet, head, count })
    }

    /// The three numbers of a record: what they mean is for the chain to say that leads
    /// there.
    fn record(&self, number: usize) -> [u16; 3] {
        let at = self.head + RECORD * (number - 1);
        [0, 2, 4].map(|byte| two(self.sheet, at + byte))
    }

    fn first_link(&self) -> usize {
        usize::from(two(self.sheet, 34))
    }

    /// A short header has no second link, and so no neighbours.
    fn second_link(&self) -> usize {
        match self.head {
            LONG_HEAD => usize::from(two(self.sheet, 36)),
            _ => 0,
        }
    }
}

/// The steps, oldest first. Refusals 5 to 8, for each record in turn.
fn steps(records: &Records) -> Result<Vec<Step>, Refusal> {
    let mut steps: Vec<Step> = Vec::new();
    let mut holder = 0; // record holding the link, 0 for the header
    let mut link = records.first_link();
    while link != 0 {
        if link > records.count {
            return Err(at_record(5, holder));
        }
        let [minutes, amperes, next] = records.record(link);
        if minutes < 1 || u32::from(minutes) > MOST_MINUTES {
            return Err(at_record(6, link));
        }
        if amperes > MOST_AMPERES {
            return Err(at_record(7, link));
        }
        if steps.last().is_some_and(|before| minutes >= before.minutes) {
            return Err(at_record(8, link));
        }
        steps.push(Step { minutes, amperes });
        (holder, link) = (link, usize::from(next));
    }
    Ok(steps)
}

/// The neighbours of an accepted cable. Document 02, note 2: 'for each neighbour in turn,
/// 14 for a link above n or, unless 0, not above the record holding it (place that record,
/// 0 for the header), and with the neighbour's record as place 15 .. and 16'.
fn neighbours(records: &Records, cable: &Cable) -> Result<Vec<Neighbour>, Refusal> {
    let mut neighbours = Vec::new();
    let mut holder = 0;
    let mut link = records.second_link();
    while link != 0 {
        if link > records.count || link <= holder {
            return Err(at_record(14, holder));
        }
        let [offset, depth, next] = records.record(link);
        // Two's complement.
        let offset = offset as i16;
        let neighbour = Neighbour { offset, depth };
        if let Some(number) = neighbour.refused(cable) {
            return Err(at_record(number, link));
        }
        neighbours.push(neighbour);
        (holder, link) = (link, usize::from(next));
    }
    Ok(neighbours)
}

/// Reads a sheet and checks all of it. Refusals 1, 2, 3, 4, then those of the load chain,
/// then those of the neighbours.
pub(crate) fn read(sheet: &[u8]) -> Result<Read, Refusal> {
    let records = Records::of(sheet).ok_or(Refusal::nowhere(1))?;
    let [d, l, s, k, w, fast, slow, rated] = std::array::from_fn(|i| four(sheet, 4 * i));
    let cable = Cable {
        d,
        l,
        s,
        k,
        w,
        fast,
        slow,
        rated,
    };
    check_cable(&cable)?;
    let start = two(sheet, 32);
    if start > MOST_AMPERES {
        return Err(Refusal::nowhere(4));
    }
    let steps = steps(&records)?;
    let neighbours = neighbours(&records, &cable)?;
    let group = Group { cable, neighbours };
    Ok(Read {
        group,
        start,
        steps,
    })
}

/// Reads a sheet, walks its chains and gives the rise. Refusals 1 to 8, 14 to 16.
pub fn rise(sheet: &[u8]) -> Result<Rise, Refusal> {
    let Read {
        group,
        start,
        steps,
    } = read(sheet)?;
    // Start² in millionths, then one signed step after another.
    let mut heat = Sum::default();
    heat.add(square(start) as f64 * MILLION);
    let mut changes: u64 = 0;
    let mut before = start;
    for step in &steps {
        let change = square(step.amperes) - square(before);
        heat.add(change as f64 * group.share(u32::from(step.minutes)));
        changes += change.unsigned_abs();
        before = step.amperes;
    }
    let rated = group.cable.rated;
    let rated_squared = f64::from(rated) * f64::from(rated);
    Ok(Rise {
        exact_millionths: heat.value() / rated_squared,
        changes,
        rated,
        steps: steps.len(),
        neighbours: group.neighbours.len(),
    })
}

/// Writes a sheet's bytes: the cable, the starting current, the first link, and
/// records of three numbers each. Nothing is checked.
pub fn sheet(c: &Cable, start: u16, first: u16, records: &[(u16, u16, u16)]) -> Vec<u8> {
    written(c, &[start, first], records)
}

/// The same with a second link behind the first: a long header.
pub fn long_sheet(
    c: &Cable,
    start: u16,
    first: u16,
    second: u16,
    records: &[(u16, u16, u16)],
) -> Vec<u8> {
    written(c, &[start, first, second], records)
}

fn written(c: &Cable, rest: &[u16], records: &[(u16, u16, u16)]) -> Vec<u8> {
    let mut bytes = Vec::with_capacity(LONG_HEAD + RECORD * records.len());
    for field in [c.d, c.l, c.s, c.k, c.w, c.fast, c.slow, c.rated] {
        bytes.extend_from_slice(&field.to_be_bytes());
    }
    let records = records
        .iter()
        .flat_map(|&(one, two, next)| [one, two, next]);
    for number in rest.iter().copied().chain(records) {
        bytes.extend_from_slice(&number.to_be_bytes());
    }
    bytes
}
