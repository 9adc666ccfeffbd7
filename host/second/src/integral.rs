//! The exponential integral, and a sum that keeps its rounding losses.

use std::sync::LazyLock;

/// Euler's constant.
const EULER: f64 = 0.577_215_664_901_532_9;

/// Up to here the power series is used, above it the continued fraction.
const SERIES_LIMIT: f64 = 1.0;

/// A running sum that carries the rounding loss of each addition.
#[derive(Debug, Clone, Copy, Default)]
pub(crate) struct Sum {
    total: f64,
    lost: f64,
}

impl Sum {
    pub(crate) fn add(&mut self, term: f64) {
        let next = self.total + term;
        self.lost += if self.total.abs() >= term.abs() {
            (self.total - next) + term
        } else {
            (term - next) + self.total
        };
        self.total = next;
    }

    pub(crate) fn value(&self) -> f64 {
        self.total + self.lost
    }
}

/// x − x²/(2·2!) + x³/(3·3!) − …, the integral of (1 − e^(−u))/u from 0 to x.
fn power_series(x: f64) -> f64 {
    let mut sum = Sum::default();
    let mut power = 1.0; // x^j / j!, signs alternating
    let mut j = 0.0;
    loop {
        j += 1.0;
        power *= if j == 1.0 { x } else { -x / j };
        let term = power / j;
        sum.add(term);
        if term.abs() <= 1e-18 * sum.value().abs() {
            return sum.value();
        }
    }
}

/// e^x times the integral of e^(−u)/u from x to infinity, by the continued
/// fraction 1/(x+1 − 1/(x+3 − 4/(x+5 − …))), for x from 1.
fn continued_fraction(x: f64) -> f64 {
    let mut b = x + 1.0;
    let mut c = f64::MAX;
    let mut d = 1.0 / b;
    let mut value = d;
    let mut j = 0.0;
    for _ in 0..1000 {
        j += 1.0;
        let a = -j * j;
        b += 2.0;
        d = 1.0 / (a * d + b);
        c = b + a / c;
        let ratio = c * d;
        value *= ratio;
        if (ratio - 1.0).abs() <= f64::EPSILON / 2.0 {
            break;
        }
    }
    value
}

/// −Ei(−x): the integral of e^(−u)/u from x to infinity, x above 0.
pub fn exponential_integral(x: f64) -> f64 {
    if x <= SERIES_LIMIT {
        let mut sum = Sum::default();
        sum.add(-EULER);
        sum.add(-x.ln());
        sum.add(power_series(x));
        sum.value()
    } else {
        (-x).exp() * continued_fraction(x)
    }
}

/// J: the integral of e^(−u)/u from p to q, for 0 < p ≤ q.
///
/// For an accepted cable q is at least 64 times p, so that neither difference below
/// cancels. For a neighbour it may be 1.04 times p: limits that are near each other are
/// served by Gauss's rule, and where they are more than 1 apart E1(q) is less than half of
/// E1(p).
pub fn integral_between(p: f64, q: f64) -> f64 {
    if q <= 2.0 * p && q - p <= 1.0 {
        near_limits(p, q)
    } else if q <= SERIES_LIMIT {
        // Euler's constant drops out.
        let mut sum = Sum::default();
        sum.add((q / p).ln());
        sum.add(power_series(p));
        sum.add(-power_series(q));
        sum.value()
    } else {
        exponential_integral(p) - exponential_integral(q)
    }
}

/// J by Gauss's rule of sixteen points, for q ≤ 2p and q − p ≤ 1.
fn near_limits(p: f64, q: f64) -> f64 {
    let half = (q - p) / 2.0;
    let middle = p + half;
    let height = |u: f64| (-u).exp() / u;
    let mut sum = Sum::default();
    for &(root, weight) in ROOTS.iter() {
        sum.add(weight * height(middle - half * root));
        sum.add(weight * height(middle + half * root));
    }
    half * sum.value()
}

/// Points of Gauss's rule.
const POINTS: usize = 16;

/// The positive roots of the Legendre polynomial of sixteen points, and their weights.
static ROOTS: LazyLock<[(f64, f64); POINTS / 2]> = LazyLock::new(|| std::array::from_fn(root));

/// The polynomial and its slope.
fn legendre(z: f64) -> (f64, f64) {
    let (mut now, mut before) = (1.0, 0.0);
    for j in 1..=POINTS {
        let k = j as f64;
        (now, before) = (((2.0 * k - 1.0) * z * now - (k - 1.0) * before) / k, now);
    }
    (now, POINTS as f64 * (z * now - before) / (z * z - 1.0))
}

/// Root and weight of that number, by Newton's rule.
fn root(i: usize) -> (f64, f64) {
    let mut z = (std::f64::consts::PI * (i as f64 + 0.75) / (POINTS as f64 + 0.5)).cos();
    for _ in 0..20 {
        let (value, slope) = legendre(z);
        z -= value / slope;
    }
    let (_, slope) = legendre(z);
    (z, 2.0 / ((1.0 - z * z) * slope * slope))
}
