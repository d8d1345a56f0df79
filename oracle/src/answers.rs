//! What is answered at a step: cost and slope, a function of the step's bits alone.

use crate::random::{Random, BAD};

const FEW: [f64; 9] = [-2.0, -1.0, -0.5, -0.0, 0.0, 0.5, 1.0, 2.0, 3.0];

pub enum Shape {
    /// Coefficients from the constant up; value and slope by Horner's forms.
    Polynomial(Vec<f64>),
    /// Few values: many ties, both zeros.
    Few,
    /// Few costs, and slopes that differ.
    Ties,
    /// Few costs, and small whole slopes.
    Whole,
    /// Numbers with exponents of two in a range.
    Sized(i32, i32),
    /// Any finite bits.
    Any,
    /// The slope is negative below a step and not from there on; costs lie around L, and below it at `low`.
    Split { low: f64, at: f64, level: f64 },
    /// Rising slopes in a window alone and from `end` on; low costs below the window, costs above L behind it.
    Window { low: f64, high: f64, end: f64, level: f64 },
    /// With bounds of 0 and 8 units S1's trial is 2 units, U3 begins there, and its first step is 1 unit. Few values
    /// elsewhere.
    Close { unit: f64 },
    /// Costs and slopes on the edge of Goldstein's condition, or of the others and the verdict, or a float beside it;
    /// also on edges that another grouping of the products would have.
    Edge { goldstein: bool, f0: f64, s0: f64, c1: f64, c2: f64, level: f64 },
}

/// What is wrong with the answers.
pub enum Damage {
    None,
    /// One answer's cost or slope is not finite.
    Cost(usize),
    Slope(usize),
    /// No slope is finite: for the conditions that read none.
    Slopes,
}

pub struct Model {
    pub shape: Shape,
    pub damage: Damage,
    pub salt: u64,
}

impl Model {
    pub fn answer(&self, nth: usize, x: f64) -> (f64, f64) {
        let r = &mut Random::new(self.salt ^ x.to_bits());
        let (f, g) = self.shape.answer(r, x);
        match self.damage {
            Damage::Cost(n) if n == nth => (r.pick(&BAD), g),
            Damage::Slope(n) if n == nth => (f, r.pick(&BAD)),
            Damage::Slopes => (f, r.pick(&BAD)),
            _ => (f, g),
        }
    }
}

impl Shape {
    pub fn answer(&self, r: &mut Random, x: f64) -> (f64, f64) {
        match *self {
            Shape::Polynomial(ref c) => polynomial(c, x),
            Shape::Few => (r.pick(&FEW), r.pick(&FEW)),
            Shape::Ties => (r.pick(&FEW), r.signed(-4, 4)),
            Shape::Whole => (r.pick(&FEW), r.pick(&[-3.0, -2.0, -1.0, 1.0, 2.0, 3.0])),
            Shape::Sized(low, high) => (r.signed(low, high), r.signed(low, high)),
            Shape::Any => (r.finite(), r.finite()),
            Shape::Split { low, at, level } => {
                let size = r.sized(-6, 6);
                let f = match r.below(5) {
                    0 if x > low => r.near(level),
                    1 | 2 if x > low => level + size,
                    _ => level - size,
                };
                let g = r.sized(-6, 6);
                (f, if x < at { -g } else if r.one_in(12) { r.pick(&[0.0, -0.0]) } else { g })
            }
            Shape::Window { low, high, end, level } => {
                let (size, g) = (r.sized(-6, 6), r.sized(-6, 6));
                if x < low {
                    (r.pick(&[level, level - size]), -g)
                } else if x < high {
                    (r.pick(&[level - size, level + size]), r.pick(&[g, g, g, g, 0.0, -0.0]))
                } else if x < end {
                    (level + size, -g)
                } else {
                    (level + size, g)
                }
            }
            Shape::Close { unit } => {
                let inner = r.pick(&[(0.5, -1.0), (9.0, 2.0)]);
                let known = [(0.0, (1.0, -2.0)), (8.0, (9.0, 6.0)), (2.0, (9.0, -1.0)), (1.0, inner)];
                match known.iter().find(|(units, _)| units * unit == x) {
                    Some((_, answer)) => *answer,
                    None => (r.pick(&FEW), r.pick(&FEW)),
                }
            }
            Shape::Edge { goldstein, f0, s0, c1, c2, level } => {
                let c = if goldstein && r.one_in(2) { 1.0 - c1 } else { c1 };
                let costs = [f0 + (c * x) * s0, f0 + c * (x * s0), if goldstein { f0 } else { level }];
                let slopes = [c2 * s0, -(c2 * s0), (2.0 * c1 - 1.0) * s0, 2.0 * c1 * s0 - s0, r.pick(&[0.0, -0.0])];
                let (f, g) = (r.pick(&costs), r.pick(&slopes));
                (r.near(f), r.near(g))
            }
        }
    }
}

fn polynomial(c: &[f64], x: f64) -> (f64, f64) {
    let horner = |terms: &[f64]| terms.iter().rev().copied().reduce(|sum, term| sum * x + term).unwrap_or(0.0);
    let slopes: Vec<f64> = c.iter().enumerate().skip(1).map(|(i, term)| i as f64 * term).collect();
    (horner(c), horner(&slopes))
}
