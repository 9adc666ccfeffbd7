//! Checks of the exponential integral.

use second::{exponential_integral, integral_between};

fn close(value: f64, expected: f64, relative: f64) {
    assert!(
        (value / expected - 1.0).abs() <= relative,
        "{value:e} for {expected:e}"
    );
}

/// J by Simpson's rule on u = p·e^v, many parts, with no use of series or
/// continued fraction.
fn slow_quadrature(p: f64, q: f64) -> f64 {
    const PARTS: usize = 200_000;
    // Beyond p + 50 nothing is left at this precision.
    let end = (q.min(p + 50.0) / p).ln();
    let width = end / PARTS as f64;
    // e^(−u), with e^(−p) taken out.
    let height = |i: usize| (-p * (i as f64 * width).exp_m1()).exp();
    let mut odd = 0.0;
    let mut even = 0.0;
    for i in 1..PARTS {
        if i % 2 == 1 {
            odd += height(i);
        } else {
            even += height(i);
        }
    }
    (-p).exp() * width / 3.0 * (height(0) + 4.0 * odd + 2.0 * even + height(PARTS))
}

#[test]
fn known_values() {
    close(exponential_integral(1.0), 0.219_383_934_395_520, 1e-14);
    close(exponential_integral(0.1), 1.822_923_958_419_391, 1e-14);
    close(exponential_integral(10.0), 4.156_968_929_685_324e-6, 1e-14);
}

#[test]
fn both_methods_meet() {
    // Series at 1, continued fraction just above it; the slope there is −1/e.
    let below = exponential_integral(1.0);
    let above = exponential_integral(1.0 + 1e-9);
    close(above, below - 1e-9 * (-1.0f64).exp(), 1e-15);
}

#[test]
fn accepted_limits_against_quadrature() {
    // Corners and middles of the accepted cables and minutes.
    for d in [100.0, 500.0, 1_500.0] {
        for l in [300.0, 1_000.0, 5_000.0] {
            for s in [100.0, 500.0, 2_000.0] {
                for minutes in [1.0, 7.0, 60.0, 360.0, 2_880.0] {
                    let spread = 60.0 * minutes * s;
                    let p = 5.0 * d * d / (8.0 * spread);
                    let q = 1_000.0 * l * l / spread;
                    assert!(q >= 63.999_999 * p);
                    close(integral_between(p, q), slow_quadrature(p, q), 1e-12);
                }
            }
        }
    }
}

#[test]
fn limits_of_neighbours_against_quadrature() {
    // c² and m² of neighbours that touch, lie across a trench, or lie as far and as shallow
    // as may be, so that m² is 1.04 times c².
    for (near, image) in [
        (100.0, 1e8 + 100.0),
        (2_500.0, 4_002_500.0),
        (40_000.0, 4_040_000.0),
        (9e6, 9.36e6),
        (3.109e7, 3.709e7),
        (9e6, 1.09e8),
    ] {
        for s in [100.0, 500.0, 2_000.0] {
            for minutes in [1.0, 7.0, 60.0, 360.0, 2_880.0] {
                let spread = 60.0 * minutes * s;
                let (p, q) = (250.0 * near / spread, 250.0 * image / spread);
                // Of less than e^(−600) nothing is left.
                if p < 600.0 {
                    close(integral_between(p, q), slow_quadrature(p, q), 1e-12);
                }
            }
        }
    }
}

#[test]
fn tiny_and_near_limits() {
    for (p, q) in [
        (1e-12, 2e-12),
        (1e-9, 1.000_001e-9),
        (1e-6, 1e-3),
        (0.5, 0.500_001),
        (0.5, 1.5),
        (0.9, 1.1),
        (1.0, 2.0),
        (3.0, 3.1),
        (50.0, 51.0),
        (200.0, 230.0),
    ] {
        close(integral_between(p, q), slow_quadrature(p, q), 1e-10);
    }
    assert_eq!(integral_between(0.3, 0.3), 0.0);
    // For tiny limits J is ln(q/p) − (q − p) to first order.
    let (p, q) = (1e-10, 3e-10);
    close(integral_between(p, q), 3f64.ln() - (q - p), 1e-15);
}

#[test]
fn additive() {
    for (p, m, q) in [(0.001, 0.5, 40.0), (0.2, 0.26, 16.0), (0.9, 1.6, 70.0)] {
        let parts = integral_between(p, m) + integral_between(m, q);
        close(parts, integral_between(p, q), 1e-14);
    }
}

/// The paper's bounds of order n for e^(−x), run in f64.
fn bounds_of_exponential(x: f64, n: usize) -> (f64, f64) {
    if (n as f64) < 2.0 * x {
        return (0.0, 1.0);
    }
    let (mut power, mut sum) = (1.0, 1.0);
    for j in 1..=n {
        power *= x / j as f64;
        sum += power;
        if power < 1e-300 {
            break;
        }
    }
    let next = power * x / (n + 1) as f64;
    (1.0 / (sum + 2.0 * next), 1.0 / sum)
}

#[test]
fn the_papers_bounds_of_j_and_ln() {
    const ORDER: usize = 20_000;
    // Cable A of the paper at 2,880 minutes, and three more.
    for (p, q) in [
        (125.0 / 69_120.0, 1e6 / 86_400.0),
        (0.1, 6.4),
        (0.004, 0.26),
        (0.5, 40.0),
    ] {
        let width = (q - p) / ORDER as f64;
        let (mut lower, mut upper) = (0.0, 0.0);
        for i in 0..ORDER {
            let left = p + width * i as f64;
            let right = left + width;
            upper += width * bounds_of_exponential(left, ORDER).1 / left;
            lower += width * bounds_of_exponential(right, ORDER).0 / right;
        }
        let j = integral_between(p, q);
        assert!(lower < j && j < upper);
        assert!(upper - lower <= 1.01 * width / p);
    }
    for r in [64.0f64, 640.0] {
        let width = (r - 1.0) / ORDER as f64;
        let (mut lower, mut upper) = (0.0, 0.0);
        for i in 0..ORDER {
            let left = 1.0 + width * i as f64;
            upper += width / left;
            lower += width / (left + width);
        }
        assert!(lower < r.ln() && r.ln() < upper);
    }
}
