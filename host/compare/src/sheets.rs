//! Load sheets: accepted ones with chains in any order and neighbours, and damaged ones of
//! every kind.

use crate::history::MOST_RECORDS;
use crate::numbers::{accepted_cable, damaged_cable, inside};
use crate::random::Random;
use crate::trenches::{any_neighbour, any_shared, edge_neighbour};
use kechmowad::{long_sheet, sheet, Cable};
use std::collections::BTreeSet;

/// What a sheet is written from, and the record numbers of its two chains: the steps,
/// oldest first, and the neighbours.
struct Draft {
    cable: Cable,
    start: u16,
    first_link: u16,
    /// Of a long header.
    second_link: Option<u16>,
    records: Vec<[u16; 3]>,
    chain: Vec<u16>,
    laid: Vec<u16>,
}

impl Draft {
    fn bytes(&self) -> Vec<u8> {
        let (cable, first, records) = (&self.cable, self.first_link, &self.records);
        match self.second_link {
            None => sheet(cable, self.start, first, records),
            Some(second) => long_sheet(cable, self.start, first, second, records),
        }
    }

    /// The record of that number.
    fn record(&mut self, number: u16) -> &mut [u16; 3] {
        &mut self.records[usize::from(number) - 1]
    }

    /// The place that holds the link to a step of the chain; past the last step, the
    /// place of the link that ends it.
    fn link_to(&mut self, step: usize) -> &mut u16 {
        match step.checked_sub(1) {
            None => &mut self.first_link,
            Some(before) => &mut self.records[usize::from(self.chain[before]) - 1][2],
        }
    }

    /// The same for a neighbour. The header becomes a long one.
    fn link_to_neighbour(&mut self, place: usize) -> &mut u16 {
        match place.checked_sub(1) {
            None => self.second_link.get_or_insert(0),
            Some(before) => &mut self.records[usize::from(self.laid[before]) - 1][2],
        }
    }
}

/// How many records: any number to 48, mostly few, since each step costs a share.
fn record_count(random: &mut Random) -> usize {
    if random.once_in(40) {
        return MOST_RECORDS;
    }
    let most = random.below(MOST_RECORDS + 1);
    let fewer = random.below(most + 1);
    random.below(fewer + 1)
}

/// Minutes for so many steps, falling.
fn falling_minutes(random: &mut Random, steps: usize) -> Vec<u16> {
    let mut minutes = BTreeSet::new();
    while minutes.len() < steps {
        minutes.insert(inside(random, (1, 2_880)) as u16);
    }
    minutes.into_iter().rev().collect()
}

/// Record numbers in the order of a chain: rising, falling (each link leads backward) or any.
fn chain_of(random: &mut Random, records: usize) -> Vec<u16> {
    let mut chain: Vec<u16> = (1..=records as u16).collect();
    match random.below(3) {
        0 => {}
        1 => chain.reverse(),
        _ => random.shuffle(&mut chain),
    }
    if !random.once_in(4) {
        chain.truncate(random.below(records + 1));
    }
    chain
}

/// How many of the chain's last steps may be neighbours too: their numbers rise.
fn rising_steps(chain: &[u16]) -> usize {
    let falls = chain.windows(2).rposition(|two| two[0] >= two[1]);
    chain.len() - falls.map_or(0, |at| at + 1)
}

/// Record numbers of neighbours before those that are steps too: some of the records off
/// the chain with lower numbers, mostly few.
fn free_records(random: &mut Random, draft: &Draft, shared: &[u16]) -> Vec<u16> {
    let end = shared
        .first()
        .map_or(draft.records.len() as u16 + 1, |at| *at);
    let mut free: Vec<u16> = (1..end).filter(|at| !draft.chain.contains(at)).collect();
    if !random.once_in(8) {
        random.shuffle(&mut free);
        free.truncate(1 + random.below(5));
        free.sort();
    }
    free
}

/// Some of the chain's last steps, made such that they are neighbours too.
fn shared_steps(random: &mut Random, draft: &mut Draft) -> Vec<u16> {
    let most = rising_steps(&draft.chain);
    let count = random.below(most + 1);
    let shared = draft.chain[draft.chain.len() - count..].to_vec();
    for &number in &shared {
        let minutes = draft.record(number)[0];
        draft.record(number)[1] = any_shared(random, &draft.cable, minutes);
    }
    shared
}

/// Gives an accepted sheet a long header and neighbours, now and then with steps among them.
fn lay(random: &mut Random, draft: &mut Draft) {
    let shared = if random.once_in(3) {
        shared_steps(random, draft)
    } else {
        let more = random.below(4).min(MOST_RECORDS - draft.records.len());
        draft.records.extend(vec![[0; 3]; more]);
        Vec::new()
    };
    let free = free_records(random, draft, &shared);
    draft.second_link = Some(0);
    draft.laid = [free.clone(), shared].concat();
    for (place, &number) in draft.laid.clone().iter().enumerate() {
        *draft.link_to_neighbour(place) = number;
        if place < free.len() {
            let [offset, depth] = any_neighbour(random, &draft.cable);
            *draft.record(number) = [offset, depth, 0];
        }
    }
}

/// A sheet that is accepted, every second one with a long header.
fn accepted(random: &mut Random) -> Draft {
    let mut draft = with_steps(random);
    if random.once_in(2) {
        lay(random, &mut draft);
    }
    draft
}

/// A sheet that is accepted, with a short header, records off its chain holding anything.
fn with_steps(random: &mut Random) -> Draft {
    let records = record_count(random);
    let mut draft = Draft {
        cable: accepted_cable(random),
        start: inside(random, (0, 4_000)) as u16,
        first_link: 0,
        second_link: None,
        records: (0..records)
            .map(|_| [random.short(), random.short(), random.short()])
            .collect(),
        chain: chain_of(random, records),
        laid: Vec::new(),
    };
    let minutes = falling_minutes(random, draft.chain.len());
    let mut amperes = draft.start;
    for (step, minutes) in minutes.into_iter().enumerate() {
        // A step without a change of load now and then.
        if !random.once_in(8) {
            amperes = inside(random, (0, 4_000)) as u16;
        }
        let number = draft.chain[step];
        *draft.link_to(step) = number;
        *draft.record(number) = [minutes, amperes, 0];
    }
    draft
}

/// An accepted sheet of the last few minutes of a cable so thick, in so slow a soil, that
/// next to nothing is attained: the rise is about 0, and low may fall below it.
fn brief(random: &mut Random) -> Vec<u8> {
    let mut draft = with_steps(random);
    draft.cable.diameter = 1_500;
    draft.cable.diffusivity = 100;
    draft.cable.surface_ratio = 1_000_000;
    draft.start = 0;
    for (number, minutes) in draft.chain.clone().into_iter().rev().zip(1..) {
        draft.record(number)[0] = minutes;
    }
    draft.bytes()
}

/// Puts one number of the load at or beyond an edge that is refused.
fn damage_load(random: &mut Random, draft: &mut Draft) {
    let count = draft.records.len() as u16;
    let step = random.below(draft.chain.len() + 1);
    let beyond = random.one_of(&[4_000, 4_001, u16::MAX]);
    if random.once_in(4) {
        *draft.link_to(step) = random.one_of(&[count, count + 1, u16::MAX]);
    } else if step == draft.chain.len() {
        draft.start = beyond;
    } else {
        let number = draft.chain[step];
        let [minutes, amperes, _] = *draft.record(number);
        let before = step.checked_sub(1).map_or(2_880, |before| {
            let number = draft.chain[before];
            draft.record(number)[0]
        });
        let wrong = random.one_of(&[0, 2_881, u16::MAX, before, before + 1, before - 1]);
        let (minutes, amperes) =
            random.one_of(&[(minutes, beyond), (wrong, amperes), (wrong, beyond)]);
        draft.record(number)[..2].copy_from_slice(&[minutes, amperes]);
    }
}

/// A sheet with one number of the load at or beyond an edge that is refused.
fn at_an_edge(random: &mut Random) -> Vec<u8> {
    let mut draft = accepted(random);
    damage_load(random, &mut draft);
    draft.bytes()
}

/// Puts a neighbour, or a link that leads to one or ends the chain, at or beyond an edge
/// that is refused.
fn damage_trench(random: &mut Random, draft: &mut Draft) {
    let count = draft.records.len() as u16;
    let place = random.below(draft.laid.len() + 1);
    if place == draft.laid.len() || random.once_in(3) {
        // Above n, to the record that holds it, backward, or to any record.
        let holder = place.checked_sub(1).map_or(0, |before| draft.laid[before]);
        let back = random.from_to(0, u32::from(holder)) as u16;
        let any = random.below(usize::from(count) + 1) as u16;
        let link = [count, count + 1, u16::MAX, holder, back, any];
        *draft.link_to_neighbour(place) = random.one_of(&link);
    } else {
        let number = draft.laid[place];
        let [offset, depth] = edge_neighbour(random, &draft.cable);
        draft.record(number)[..2].copy_from_slice(&[offset, depth]);
    }
}

/// A sheet whose neighbours are damaged, and now and then its load chain too: then the load
/// chain's refusal comes first.
fn trench_at_an_edge(random: &mut Random) -> Vec<u8> {
    let mut draft = with_steps(random);
    lay(random, &mut draft);
    damage_trench(random, &mut draft);
    if random.once_in(4) {
        damage_load(random, &mut draft);
    }
    draft.bytes()
}

/// A sheet whose chain leads back into itself.
fn looping(random: &mut Random) -> Vec<u8> {
    let mut draft = accepted(random);
    if draft.chain.is_empty() {
        draft.first_link = 1;
        draft.records.insert(0, [30, 300, 1]);
    } else {
        let back = random.one_of(&draft.chain);
        *draft.link_to(draft.chain.len()) = back;
    }
    draft.bytes()
}

/// An accepted sheet with some of its bits turned over, more often in few places.
fn bits_turned(random: &mut Random) -> Vec<u8> {
    let mut bytes = accepted(random).bytes();
    for _ in 0..1 << random.below(5) {
        let bit = random.below(8 * bytes.len());
        bytes[bit / 8] ^= 1 << (bit % 8);
    }
    bytes
}

/// An accepted sheet cut short or lengthened, by whole records or anyhow.
fn other_length(random: &mut Random) -> Vec<u8> {
    let mut bytes = accepted(random).bytes();
    let length = match random.below(4) {
        0 => bytes.len() - random.from_to(1, 6) as usize,
        1 => bytes.len() + random.from_to(1, 6) as usize,
        2 => random.one_of(&[0, 2, 32, 35, 36, 37, 38, 40, 324, 325, 326, 330, 332]),
        _ => random.below(400),
    };
    bytes.resize(length, random.word() as u8);
    bytes
}

/// An accepted cable before records that hold anything.
fn wild_records(random: &mut Random) -> Vec<u8> {
    let mut bytes = accepted(random).bytes();
    let records = random.below(MOST_RECORDS + 1);
    let mut link = || (random.below(records + 2) as u16).to_be_bytes();
    let links = [link(), link()];
    // A step too is seldom accepted: mostly the neighbours alone are looked at.
    let first = random.one_of(&[links[0], [0, 0]]);
    bytes.truncate(34);
    bytes.extend(first);
    bytes.extend(random.one_of(&[&links[1][..], &[]]));
    bytes.extend(random.bytes(6 * records));
    bytes
}

/// A sheet of any kind, half of them accepted.
pub fn any_sheet(random: &mut Random) -> Vec<u8> {
    match random.below(20) {
        0 | 1 => bits_turned(random),
        2 => other_length(random),
        3 => looping(random),
        4 | 5 => at_an_edge(random),
        6 => wild_records(random),
        7 => {
            let mut draft = accepted(random);
            draft.cable = damaged_cable(random);
            draft.bytes()
        }
        8 => {
            let length = random.below(401);
            random.bytes(length)
        }
        9 => brief(random),
        10 | 11 => trench_at_an_edge(random),
        _ => accepted(random).bytes(),
    }
}

/// A sheet that is mostly accepted, so that what is asked of it is answered.
pub fn mostly_accepted(random: &mut Random) -> Vec<u8> {
    if random.once_in(4) {
        any_sheet(random)
    } else {
        accepted(random).bytes()
    }
}
