//! Document 01's certifying rule, in whole numbers.

/// The numbers of an emergency that the rule uses.
#[derive(Debug, Clone, Copy)]
pub struct Emergency {
    pub h: u32,
    pub r: u32,
    pub rated: u32,
}

impl Emergency {
    /// (10,000·i² − h²·rated²)·g − (100·r − h²)·rated²·1,000,000: at most 0 where i is
    /// certified. The share g is `share / scale` millionths, and all is times `scale`.
    pub fn excess(&self, i: u32, share: i128, scale: i128) -> i128 {
        let [i, h, r, rated] = [i, self.h, self.r, self.rated].map(i128::from);
        let left = (10_000 * i * i - h * h * rated * rated) * share;
        left - (100 * r - h * h) * rated * rated * 1_000_000 * scale
    }
}
