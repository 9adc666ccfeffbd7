//! Neighbours in the trench: accepted ones of every kind, and ones at or beyond the edges
//! that document 02's note 2 names.

use crate::numbers::inside;
use crate::random::Random;
use kechmowad::Cable;

/// Farthest offset and the ends of the depths, in mm.
pub const MOST_OFFSET: i16 = 3_000;
const DEPTHS: (u32, u32) = (300, 5_000);

/// A neighbour's offset and depth in mm.
type Position = (i16, u16);

/// The numbers of a record, the offset in two's complement.
fn numbers((offset, depth): Position) -> [u16; 2] {
    [offset as u16, depth]
}

/// Whether a neighbour in the ranges is no nearer than the cable's diameter: c in mm, d in
/// 0.1 mm.
fn apart(cable: &Cable, (offset, depth): Position) -> bool {
    let [offset, depth, l] = [i64::from(offset), depth.into(), cable.depth.into()];
    let squared = offset * offset + (l - depth) * (l - depth);
    100 * squared >= i64::from(cable.diameter).pow(2)
}

/// The least whole distance in mm that is no less than the diameter.
fn touching(cable: &Cable) -> i16 {
    cable.diameter.div_ceil(10) as i16
}

/// To one side or the other.
fn either_side(random: &mut Random, offset: i16) -> i16 {
    random.one_of(&[offset, -offset])
}

/// A position in the ranges: touching, in a row with the cable, above or below it, at an
/// end, or anywhere.
fn any_position(random: &mut Random, cable: &Cable) -> Position {
    let any_offset = inside(random, (0, MOST_OFFSET as u32)) as i16;
    let any_depth = inside(random, DEPTHS) as u16;
    let level = cable.depth as u16;
    let close = touching(cable);
    let (offset, depth) = match random.below(8) {
        0 => (close, level),
        1 => (200 * random.from_to(1, 15) as i16, level),
        2 => (close * random.from_to(1, 6) as i16, level),
        3 => (0, any_depth),
        4 => (MOST_OFFSET, random.one_of(&[300, level, 5_000])),
        _ => (any_offset, any_depth),
    };
    (either_side(random, offset), depth)
}

/// A neighbour that is accepted beside an accepted cable.
pub fn any_neighbour(random: &mut Random, cable: &Cable) -> [u16; 2] {
    loop {
        let position = any_position(random, cable);
        if apart(cable, position) {
            return numbers(position);
        }
    }
}

/// Amperes of a step that are a depth as well, where its minutes are the offset: a record
/// may serve both chains.
pub fn any_shared(random: &mut Random, cable: &Cable, minutes: u16) -> u16 {
    let depth = inside(random, (300, 4_000)) as u16;
    // No diameter is above 150 mm.
    let far = if cable.depth > 2_000 { 300 } else { 4_000 };
    if apart(cable, (minutes as i16, depth)) {
        depth
    } else {
        far
    }
}

/// A neighbour at or beyond an edge: its offset, its depth, or its distance from the axis.
pub fn edge_neighbour(random: &mut Random, cable: &Cable) -> [u16; 2] {
    let close = touching(cable);
    let near = random.one_of(&[close, close - 1, close - 1, 0]);
    let level = cable.depth as u16;
    let offset = random.one_of(&[MOST_OFFSET, MOST_OFFSET + 1, i16::MAX]);
    let beyond = either_side(random, offset);
    let beyond = random.one_of(&[beyond, beyond, i16::MIN]);
    let deep = random.one_of(&[299, 300, 5_000, 5_001, 0, u16::MAX]);
    numbers(match random.below(5) {
        0 => (beyond, level),
        1 => (200, deep),
        2 => (beyond, deep),
        3 => (0, level.wrapping_add_signed(either_side(random, near))),
        _ => (either_side(random, near), level),
    })
}
