//! What twin.rs and argmin.rs answer: 01's eight curves, one after the other, and how many answers they give.

pub type Curve = [f64; 5];

const TABLE: &[[i8; 5]] = &[
    [1, -2, 1, 0, 0],
    [9, -6, 1, 0, 0],
    [0, -1, 0, 0, 0],
    [0, 0, 0, 0, 0],
    [0, -8, 0, 0, 1],
    [2, -3, 0, 1, 0],
    [5, -4, -2, 0, 1],
    [0, 1, -1, 0, 0],
];

/// The curve of the n-th search, from 0.
pub fn curve(n: usize) -> Curve {
    TABLE[n % TABLE.len()].map(f64::from)
}

pub fn value(c: &Curve, x: f64) -> f64 {
    (((c[4] * x + c[3]) * x + c[2]) * x + c[1]) * x + c[0]
}

pub fn slope(c: &Curve, x: f64) -> f64 {
    ((4.0 * c[4] * x + 3.0 * c[3]) * x + 2.0 * c[2]) * x + c[1]
}

/// 50 million answers with an argument, a thousand without one.
pub fn turns() -> u64 {
    if std::env::args().count() > 1 { 50_000_000 } else { 1000 }
}
