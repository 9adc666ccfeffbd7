//! A cable with its neighbours in the trench, and the exact share of the group.

use crate::integral::{integral_between, Sum};
use crate::{Cable, MILLION};

/// Soil diffusivity that a 0 stands for, in 10^-9 m²/s.
const USUAL_DIFFUSIVITY: u32 = 500;

/// Farthest that a neighbour may lie to either side, in mm.
const MOST_OFFSET: u16 = 3_000;

/// A cable in the trench of the rated one, with losses equal to its.
#[derive(Debug, Clone, Copy, PartialEq, Eq)]
pub struct Neighbour {
    /// To the side of the rated cable, mm.
    pub offset: i16,
    /// Depth of its axis, mm.
    pub depth: u16,
}

impl Neighbour {
    /// c² and m²: the squared distances from the rated cable's axis to that of the
    /// neighbour and to its image above ground, mm².
    pub fn squared_distances(&self, c: &Cable) -> (i64, i64) {
        let [offset, depth, l] = [i64::from(self.offset), self.depth.into(), c.l.into()];
        let side = offset * offset;
        (
            side + (l - depth) * (l - depth),
            side + (l + depth) * (l + depth),
        )
    }

    /// The number of the refusal beside an accepted cable, where there is one: 15 or 16.
    pub(crate) fn refused(&self, c: &Cable) -> Option<u8> {
        let deep = (300..=5_000).contains(&self.depth);
        if self.offset.unsigned_abs() > MOST_OFFSET || !deep {
            return Some(15);
        }
        // c is in mm and d in 0.1 mm.
        let (near, _) = self.squared_distances(c);
        (100 * near < i64::from(c.d) * i64::from(c.d)).then_some(16)
    }
}

/// A cable that is accepted, and its neighbours.
pub(crate) struct Group {
    pub cable: Cable,
    pub neighbours: Vec<Neighbour>,
}

impl Group {
    /// A cable without neighbours.
    pub fn alone(cable: &Cable) -> Group {
        Group {
            cable: *cable,
            neighbours: Vec::new(),
        }
    }

    /// G in millionths, for minutes already checked.
    pub fn share(&self, minutes: u32) -> f64 {
        let c = &self.cable;
        // The surface part is left out for k = 0, where it weighs nothing.
        let mut ground = f64::from(1_000_000 - c.k);
        if c.k > 0 {
            ground += f64::from(c.k) * self.surface_attainment(minutes);
        }
        ground * conductor_attainment(c, minutes) / MILLION
    }

    /// β: attainment of the cable surface, a fraction of one. Document 02, note 2: 'β then
    /// has as numerator J plus, for each neighbour, the integral of e^(−u)/u from
    /// c²/(4tδ) to m²/(4tδ), and as divisor ln(1,600·l²/d²) plus each ln(m²/c²)'.
    fn surface_attainment(&self, minutes: u32) -> f64 {
        let c = &self.cable;
        let spread = spread(c, minutes);
        let (d, l) = (f64::from(c.d), f64::from(c.l));
        // De²/(16tδ) and L²/(tδ).
        let (p, q) = (5.0 * d * d / (8.0 * spread), 1_000.0 * l * l / spread);
        let [mut heating, mut steady] = [Sum::default(); 2];
        heating.add(integral_between(p, q));
        steady.add((1_600.0 * l * l / (d * d)).ln());
        for neighbour in &self.neighbours {
            let (near, image) = neighbour.squared_distances(c);
            // mm² over 4tδ: 10^-6 m² over 10^-9 m²/s.
            let limit = |square: i64| 250.0 * square as f64 / spread;
            heating.add(integral_between(limit(near), limit(image)));
            // m² − c² is a whole number, so that a ratio near 1 loses nothing.
            steady.add(((image - near) as f64 / near as f64).ln_1p());
        }
        heating.value() / steady.value()
    }
}

/// Seconds times 10^-9 m²/s; every whole number here is exact in f64.
fn spread(c: &Cable, minutes: u32) -> f64 {
    let diffusivity = if c.s == 0 { USUAL_DIFFUSIVITY } else { c.s };
    f64::from(60 * minutes) * f64::from(diffusivity)
}

/// Attainment of the conductor over the surface, in millionths.
fn conductor_attainment(c: &Cable, minutes: u32) -> f64 {
    let seconds = u64::from(60 * minutes);
    // 1 − e^(−rate·t), without loss where the exponent is small.
    let attained = |rate: u32| -(-((u64::from(rate) * seconds) as f64) / MILLION).exp_m1();
    f64::from(c.w) * attained(c.fast) + f64::from(1_000_000 - c.w) * attained(c.slow)
}
