//! Cables, minutes, days and emergencies: accepted ones, with the ends of the ranges and
//! usual values more often than chance, and ones at or beyond a refusal's edge.

use crate::random::Random;
use kechmowad::Cable;

/// Lowest and highest value of each field of the paper's table.
const LOWEST: [u32; 8] = [100, 300, 100, 0, 0, 1, 1, 50];
const HIGHEST: [u32; 8] = [
    1_500, 5_000, 2_000, 1_000_000, 1_000_000, 100_000, 100_000, 2_000,
];

/// The range of the field at that place.
fn range_of(place: usize) -> (u32, u32) {
    (LOWEST[place], HIGHEST[place])
}

/// The paper's cable A.
pub const USUAL: [u32; 8] = [500, 1_000, 500, 600_000, 500_000, 1_000, 100, 400];

/// The same as a cable.
pub fn cable_a() -> Cable {
    Cable::from(USUAL)
}

/// Places of the soil's diffusivity, the fast and the slow rate among the fields.
const DIFFUSIVITY: usize = 2;
const FAST_RATE: usize = 5;
const SLOW_RATE: usize = 6;

/// A number of a range: an end, one spread by size, or any.
pub fn inside(random: &mut Random, (lowest, highest): (u32, u32)) -> u32 {
    match random.below(8) {
        0 => lowest,
        1 => highest,
        2 | 3 => {
            let size = highest >> random.below(20);
            random.from_to(lowest, size.max(lowest))
        }
        _ => random.from_to(lowest, highest),
    }
}

/// A number at or beyond the edges of a range, or extreme; now and then it is inside.
fn outside(random: &mut Random, (lowest, highest): (u32, u32)) -> u32 {
    let any = random.word() as u32;
    random.one_of(&[0, 1, lowest.wrapping_sub(1), highest + 1, u32::MAX, any])
}

/// Mostly a number of the range, else one outside.
fn mostly_inside(random: &mut Random, range: (u32, u32)) -> u32 {
    if random.once_in(12) {
        outside(random, range)
    } else {
        inside(random, range)
    }
}

/// A cable that is accepted.
pub fn accepted_cable(random: &mut Random) -> Cable {
    let mut fields = std::array::from_fn(|place| inside(random, range_of(place)));
    for (field, usual) in fields.iter_mut().zip(USUAL) {
        if random.once_in(4) {
            *field = usual;
        }
    }
    if random.once_in(6) {
        fields[DIFFUSIVITY] = 0;
    }
    if fields[SLOW_RATE] > fields[FAST_RATE] {
        fields.swap(FAST_RATE, SLOW_RATE);
    }
    Cable::from(fields)
}

/// A cable of which one or several fields are outside, or the rates change places.
pub fn damaged_cable(random: &mut Random) -> Cable {
    let mut fields = *accepted_cable(random).fields();
    if random.once_in(3) {
        fields.swap(FAST_RATE, SLOW_RATE);
    } else {
        for _ in 0..random.from_to(1, 3) {
            let field = random.below(8);
            fields[field] = outside(random, range_of(field));
        }
    }
    Cable::from(fields)
}

/// Mostly an accepted cable.
pub fn any_cable(random: &mut Random) -> Cable {
    if random.once_in(8) {
        damaged_cable(random)
    } else {
        accepted_cable(random)
    }
}

/// Mostly minutes that may be asked.
pub fn any_minutes(random: &mut Random) -> u32 {
    if random.once_in(4) {
        60 * random.from_to(1, 48)
    } else {
        mostly_inside(random, (1, 2_880))
    }
}

/// A cable so thick and shallow that its one hour of load heats the conductor most some
/// hours later, and such a day. Its factor is among the largest.
pub fn late_day(random: &mut Random) -> (Cable, [u16; 24]) {
    let cable = Cable::from([1_500, 300, 100, 1_000_000, 0, 100_000, 100_000, 400]);
    (cable, one_hour(random))
}

fn one_hour(random: &mut Random) -> [u16; 24] {
    let mut hours = [0; 24];
    hours[random.below(24)] = random.from_to(1, 4_000) as u16;
    hours
}

/// Lengths of a plateau and of a peak, in hours. At least an hour parts them on each side.
const PLATEAU_HOURS: (u32, u32) = (3, 12);
const PEAK_HOURS: (u32, u32) = (1, 2);
/// The peak, in amperes, and how much of it a plateau may be lower: a tenth or less.
const PEAK: (u32, u32) = (10, 4_000);
const LOWER_BY: u32 = 10;

/// A plateau and, elsewhere, a short and slightly higher peak. Document 02, note 1: 'The
/// conductor is hottest at the end of the plateau', as it is on most of these days.
fn plateau_and_peak(random: &mut Random) -> [u16; 24] {
    let peak = inside(random, PEAK);
    let lowest = random.from_to(peak - peak / LOWER_BY, peak - 1);
    // Even, or each hour for itself.
    let highest = random.one_of(&[lowest, peak - 1]);
    let rest = random.from_to(0, lowest / 2);
    let mut hours = [0; 24].map(|_| random.from_to(0, rest) as u16);
    let long = random.from_to(PLATEAU_HOURS.0, PLATEAU_HOURS.1) as usize;
    let short = random.from_to(PEAK_HOURS.0, PEAK_HOURS.1) as usize;
    let between = 1 + random.below(23 - long - short);
    // The plateau begins at hour 0, until the day is turned round the clock.
    for hour in &mut hours[..long] {
        *hour = random.from_to(lowest, highest) as u16;
    }
    hours[long + between..][..short].fill(peak as u16);
    hours.rotate_right(random.below(24));
    hours
}

/// Even, with one hour of load, with several highest hours, all zero or any.
fn any_shape(random: &mut Random) -> [u16; 24] {
    let highest = inside(random, (1, 4_000));
    let mut hours = match random.below(12) {
        0 => [0; 24],
        1 => [highest as u16; 24],
        2 => one_hour(random),
        _ => [0; 24].map(|_| random.from_to(0, highest) as u16),
    };
    if random.once_in(3) {
        for _ in 0..random.below(6) {
            hours[random.below(24)] = highest as u16;
        }
    }
    hours
}

/// A day: one of three with a plateau and a peak, the others of any shape; now and then
/// with an hour above 4,000.
pub fn any_hours(random: &mut Random) -> [u16; 24] {
    let mut hours = if random.once_in(3) {
        plateau_and_peak(random)
    } else {
        any_shape(random)
    };
    if random.once_in(10) {
        let above = random.from_to(4_002, 65_535) as u16;
        hours[random.below(24)] = random.one_of(&[4_000, 4_001, 4_001, u16::MAX, above]);
    }
    hours
}

/// A preload h and a limit r: where h² is 100·r, one percent beside that, anywhere below
/// it, or at and beyond the ends of what may be asked.
pub fn any_emergency(random: &mut Random) -> (u32, u32) {
    let r = inside(random, (1, 200));
    let most = (100 * r).isqrt();
    match random.below(10) {
        0 => {
            let tens = random.from_to(0, 15);
            (10 * tens, tens * tens)
        }
        1 | 2 => ((most + random.from_to(0, 2)).saturating_sub(1), r),
        3 => (outside(random, (0, 200)), r),
        4 => (inside(random, (0, 200)), mostly_inside(random, (1, 200))),
        5 => (most, outside(random, (1, 200))),
        _ => (random.from_to(0, most), r),
    }
}
