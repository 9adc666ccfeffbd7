//! What several tests take.

use second::Cable;

/// The paper's cable A.
pub const A: Cable = Cable {
    d: 500,
    l: 1_000,
    s: 500,
    k: 600_000,
    w: 500_000,
    fast: 1_000,
    slow: 100,
    rated: 400,
};
