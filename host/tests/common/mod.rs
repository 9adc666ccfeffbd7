//! What several tests take.

use kechmowad::Cable;

/// Cable A of the cases.
pub const A: Cable = Cable {
    diameter: 500,
    depth: 1_000,
    diffusivity: 500,
    surface_ratio: 600_000,
    fast_weight: 500_000,
    fast_rate: 1_000,
    slow_rate: 100,
    rated: 400,
};
