//! Makes the searches: a start, a model of its answers, and the most answers it is given.

use crate::answers::{Damage, Model, Shape};
use crate::cases::{Backtracking, Condition, HagerZhang, Start};
use crate::random::{Random, BAD, TINY};

pub struct Search {
    pub kind: &'static str,
    /// What was done to the start, where it was spoiled.
    pub spoiled: Option<(u64, u64)>,
    pub start: Start,
    pub model: Model,
    pub most: usize,
}

/// 01's eight curves.
const CURVES: [[f64; 5]; 8] = [
    [1.0, -2.0, 1.0, 0.0, 0.0],
    [9.0, -6.0, 1.0, 0.0, 0.0],
    [0.0, -1.0, 0.0, 0.0, 0.0],
    [0.0, 0.0, 0.0, 0.0, 0.0],
    [0.0, -8.0, 0.0, 0.0, 1.0],
    [2.0, -3.0, 0.0, 1.0, 0.0],
    [5.0, -4.0, -2.0, 0.0, 1.0],
    [0.0, 1.0, -1.0, 0.0, 0.0],
];

/// Just below 1.
const BELOW_ONE: f64 = 1.0 - f64::EPSILON / 2.0;

/// Numbers on and beside the ends of the parameters' ranges.
const ENDS: [f64; 14] = [
    0.0, -0.0, TINY, -TINY, -1.0, 0.5, 0.5 - f64::EPSILON / 4.0, 1.0, BELOW_ONE, 1.0 + f64::EPSILON, 2.0, 1e5,
    f64::MAX, f64::MIN,
];

fn bounds(r: &mut Random) -> (f64, f64) {
    let (low, high) = match r.below(16) {
        0 | 1 => (f64::EPSILON, 1e5),
        2 | 3 => (r.below(3) as f64, (3 + r.below(10)) as f64),
        4 | 5 => (r.pick(&[0.0, -0.0]), r.sized(-20, 20)),
        6 => (0.0, f64::from_bits(1 + r.below(1000))),
        7 => (r.sized(-1022, 1022), r.sized(1000, 1023)),
        // narrower than EPS, where S2 and S3 hold together, and a few times as wide
        8 if r.one_in(2) => (r.unit() * f64::EPSILON / 2.0, r.unit() * f64::EPSILON),
        8 => (0.0, (1 + r.below(8)) as f64 * f64::EPSILON),
        // a few floats apart
        9 => {
            let low = r.sized(-5, 5);
            (low, f64::from_bits(low.to_bits() + 1 + r.below(6)))
        }
        _ => (r.unit() * 0.1, 1.0 + r.unit() * 9.0),
    };
    (low, if low < high { high } else { f64::from_bits(low.abs().to_bits() + 1) })
}

fn first_step(r: &mut Random, min: f64, max: f64) -> f64 {
    match r.below(9) {
        0 | 1 => 1.0,
        2 | 3 => min + (max - min) * r.unit(),
        4 => r.pick(&[min, max]),
        5 => -10.0 * r.unit(),
        6 => r.pick(&[0.0, -0.0]),
        7 => r.signed(-10, 10),
        _ => r.finite(),
    }
}

fn between_zero_and_one(r: &mut Random, usual: f64) -> f64 {
    match r.below(8) {
        0..=2 => usual,
        3 => r.pick(&[TINY, BELOW_ONE, f64::EPSILON, 0.01, 0.99]),
        4 => r.pick(&[0.25, 0.5, 0.75]),
        _ => r.unit(),
    }
}

/// A start within the ranges; f0 and s0 are set later.
fn hager_zhang(r: &mut Random) -> HagerZhang {
    let (min, max) = bounds(r);
    let delta = between_zero_and_one(r, 0.1);
    let sigma = match r.below(4) {
        0 => delta,
        1 => BELOW_ONE,
        2 => 0.9,
        _ => delta + (1.0 - delta) * r.unit(),
    };
    HagerZhang {
        delta,
        sigma: sigma.clamp(delta, BELOW_ONE),
        epsilon: match r.below(8) {
            0 | 1 => 1e-6,
            2 => r.pick(&[0.0, -0.0]),
            3 => r.sized(-3, 6),
            4 => r.sized(-1022, 900),
            _ => r.unit(),
        },
        theta: between_zero_and_one(r, 0.5),
        gamma: between_zero_and_one(r, 0.66),
        eta: r.pick(&[0.01, TINY, f64::MAX, 1.0]),
        min,
        max,
        step: first_step(r, min, max),
        f0: 0.0,
        s0: 0.0,
        budget: count(r, 1000),
        limit: count(r, 10000),
    }
}

fn count(r: &mut Random, most: u32) -> u32 {
    match r.below(6) {
        0 | 1 => 100,
        2 => 1 + r.below(3) as u32,
        3 => 1 + r.below(60) as u32,
        4 => 1 + r.below(most as u64) as u32,
        _ => r.pick(&[1, most]),
    }
}

fn level(h: &HagerZhang) -> f64 {
    h.f0 + h.epsilon * h.f0.abs()
}

/// Cost and slope at the start: mostly the shape's own at 0.
fn at_start(r: &mut Random, shape: &Shape) -> (f64, f64) {
    match r.below(8) {
        0 => (r.signed(-4, 4), r.signed(-4, 4)),
        1 => (r.finite(), r.finite()),
        2 => (r.pick(&[0.0, -0.0, 1.0]), r.pick(&[0.0, -0.0, -1.0])),
        // few slopes reach that: such a search goes on
        3 => (r.signed(-4, 4), 1e300),
        _ => shape.answer(r, 0.0),
    }
}

fn curve(r: &mut Random) -> Shape {
    Shape::Polynomial(r.pick(&CURVES).to_vec())
}

fn random_polynomial(r: &mut Random) -> Shape {
    let terms = 2 + r.below(6);
    let whole = r.one_in(3);
    Shape::Polynomial((0..terms).map(|_| if whole { r.below(19) as f64 - 9.0 } else { r.signed(-4, 4) }).collect())
}

fn hashed(r: &mut Random) -> Shape {
    match r.below(5) {
        0 => Shape::Few,
        1 => Shape::Ties,
        2 => Shape::Sized(-8, 8),
        3 => Shape::Sized(-300, 300),
        _ => Shape::Any,
    }
}

fn on(r: &mut Random, kind: fn(&mut Random) -> Shape) -> (HagerZhang, Shape) {
    let shape = kind(r);
    let (f0, s0) = at_start(r, &shape);
    (HagerZhang { f0, s0, ..hager_zhang(r) }, shape)
}

fn split(r: &mut Random) -> (HagerZhang, Shape) {
    let h = HagerZhang { f0: r.signed(-4, 4), s0: r.pick(&[-1.0, -0.001, 10.0, 100.0]), ..hager_zhang(r) };
    let at = h.min + (h.max - h.min) * r.unit();
    let (low, level) = (h.min, level(&h));
    (h, Shape::Split { low, at, level })
}

/// U3 halves its way to a window that may be very narrow, or closed.
fn deep(r: &mut Random) -> (HagerZhang, Shape) {
    let mut h = HagerZhang { f0: r.signed(-4, 4), s0: r.pick(&[1.0, 100.0, -0.001]), ..hager_zhang(r) };
    h.epsilon = r.pick(&[0.0, 1e-6, 0.5]);
    h.step = h.max + h.max;
    if r.one_in(2) {
        h.budget = 1 + r.below(70) as u32;
    }
    if !h.step.is_finite() {
        h.step = 1.0;
    }
    let width = h.max - h.min;
    let low = h.min + width * r.unit() / (1u64 << r.below(50)) as f64;
    let high = if r.one_in(4) { low } else { low + width / (1u64 << r.below(60)) as f64 };
    let (end, level) = (h.max, level(&h));
    (h, Shape::Window { low, high, end, level })
}

/// A slope that is mostly negative.
fn falling(r: &mut Random) -> f64 {
    r.pick(&[-1.0, -1.0, -1.0, 1.0]) * r.sized(-3, 3)
}

fn edge(r: &mut Random) -> (HagerZhang, Shape) {
    let h = HagerZhang { f0: r.signed(-3, 3), s0: falling(r), ..hager_zhang(r) };
    let (f0, s0, c1, c2, level) = (h.f0, h.s0, h.delta, h.sigma, level(&h));
    (h, Shape::Edge { goldstein: false, f0, s0, c1, c2, level })
}

/// Steps that are whole numbers of EPS, or of 1, and quarters: S2, S3 and L2 meet their bounds exactly.
fn exact(r: &mut Random) -> (HagerZhang, Shape) {
    let mut h = HagerZhang { f0: r.below(3) as f64, s0: r.pick(&[-1.0, 2.0, 4.0]), ..hager_zhang(r) };
    let unit = r.pick(&[f64::EPSILON, 1.0]);
    (h.min, h.max) = (r.below(2) as f64 * unit, (2 + r.below(7)) as f64 * unit);
    h.step = r.below(10) as f64 * unit;
    h.theta = r.pick(&[0.25, 0.5, 0.75]);
    h.gamma = r.pick(&[0.25, 0.5, 0.75]);
    (h, Shape::Whole)
}

/// Every parameter at or near an end of its range.
fn corner(r: &mut Random) -> (HagerZhang, Shape) {
    let kind = r.pick(&[curve as fn(&mut Random) -> Shape, random_polynomial, hashed]);
    let (mut h, shape) = on(r, kind);
    h.delta = r.pick(&[TINY, 0.1, 0.5, BELOW_ONE]);
    h.sigma = r.pick(&[h.delta, BELOW_ONE]);
    h.epsilon = r.pick(&[0.0, -0.0, TINY, 1e-6, 1.0, 1e300]);
    h.theta = r.pick(&[TINY, f64::EPSILON, 0.5, BELOW_ONE]);
    h.gamma = r.pick(&[TINY, f64::EPSILON, 0.5, BELOW_ONE]);
    h.eta = r.pick(&[TINY, f64::MAX]);
    h.step = r.pick(&[h.min, h.max, 0.0, -0.0, TINY, f64::MIN, f64::MAX]);
    h.budget = r.pick(&[1, 2, 1000]);
    h.limit = r.pick(&[1, 2, 10000]);
    (h, shape)
}

fn backtracking(r: &mut Random, condition: Condition) -> (Backtracking, Shape) {
    let c1 = match (r.below(6), condition) {
        (0, Condition::Goldstein) => r.pick(&[TINY, 0.5 - f64::EPSILON / 4.0]),
        (_, Condition::Goldstein) => r.unit() / 2.0,
        (0, Condition::Armijo) => r.pick(&[TINY, BELOW_ONE]),
        (1..=3, _) => 1e-4,
        _ => r.unit() * 0.99,
    };
    let c2 = match (r.below(4), condition) {
        // not read
        (0, Condition::Armijo | Condition::Goldstein) => r.pick(&BAD),
        (0, _) => f64::from_bits(c1.to_bits() + 1),
        (1, _) => BELOW_ONE,
        _ => c1 + (BELOW_ONE - c1) * r.unit(),
    };
    let c2 = if c1 >= c2 { BELOW_ONE } else { c2 };
    let (f0, s0, shape) = match r.below(6) {
        n @ 0..=2 => {
            let shape = [curve, random_polynomial, hashed][n as usize](r);
            let (f0, s0) = at_start(r, &shape);
            (f0, s0, shape)
        }
        _ => {
            let (f0, s0) = (r.signed(-3, 3), falling(r));
            (f0, s0, Shape::Edge { goldstein: condition == Condition::Goldstein, f0, s0, c1, c2, level: f0 })
        }
    };
    let b = Backtracking {
        condition,
        c1,
        c2,
        rho: between_zero_and_one(r, 0.9),
        alpha: match r.below(6) {
            0 | 1 => 1.0,
            2 => r.pick(&[TINY, f64::MAX, f64::MIN_POSITIVE]),
            3 => r.sized(-1022, 1023),
            _ => r.sized(-4, 8),
        },
        f0,
        s0,
        limit: count(r, 10000),
    };
    (b, shape)
}

/// One number of the start is not finite, or on or past an end of its range: which, and what stands there.
fn spoil(r: &mut Random, start: &mut Start) -> (u64, u64) {
    let which = r.below((ENDS.len() + BAD.len()) as u64);
    let bad = [&ENDS[..], &BAD].concat()[which as usize];
    let count = [0, 1, 1000, 1001, 10000, 10001, u32::MAX][which as usize % 7];
    let at = match start {
        Start::HagerZhang(h) => {
            let at = r.below(16);
            match at {
                0 => h.delta = bad,
                1 => h.sigma = bad,
                2 => h.epsilon = bad,
                3 => h.theta = bad,
                4 => h.gamma = bad,
                5 => h.eta = bad,
                6 => h.min = bad,
                7 => h.max = bad,
                8 => h.step = bad,
                9 => h.f0 = bad,
                10 => h.s0 = bad,
                11 => h.budget = count,
                12 => h.limit = count,
                13 => h.sigma = f64::from_bits(h.delta.to_bits().wrapping_sub(1)),
                14 => h.max = h.min,
                _ => (h.epsilon, h.f0) = (r.sized(1000, 1023), r.signed(1, 60)),
            }
            at
        }
        Start::Backtracking(b) => {
            let at = r.below(8);
            match at {
                0 => b.c1 = bad,
                1 => b.c2 = bad,
                2 => b.rho = bad,
                3 => b.alpha = bad,
                4 => b.f0 = bad,
                5 => b.s0 = bad,
                6 => b.limit = count,
                _ => b.c2 = b.c1,
            }
            at + 16 * b.condition as u64
        }
    };
    (at, which)
}

/// A search in which U3 brings an end to EPS from S1's trial, or a float nearer or farther. Few slopes reach its s0.
pub fn close(r: &mut Random) -> Search {
    let unit = f64::from_bits(f64::EPSILON.to_bits() - 1 + r.below(3));
    let base = hager_zhang(r);
    let h = HagerZhang { f0: 1.0, s0: 1e300, epsilon: 0.0, theta: 0.5, min: 0.0, max: 8.0 * unit, ..base };
    let model = Model { shape: Shape::Close { unit }, damage: Damage::None, salt: r.word() };
    Search { kind: "close", spoiled: None, start: Start::HagerZhang(h), model, most: 60 }
}

/// A search whose kind goes by its number.
pub fn search(r: &mut Random, nth: u64) -> Search {
    let hz = |(h, shape): (HagerZhang, Shape)| (Start::HagerZhang(h), shape);
    let bt = |(b, shape): (Backtracking, Shape)| (Start::Backtracking(b), shape);
    let condition = r.pick(&[Condition::Armijo, Condition::Goldstein, Condition::Wolfe, Condition::StrongWolfe]);
    let (kind, (mut start, shape)) = match nth % 23 {
        0..=2 => ("curve", hz(on(r, curve))),
        3..=5 => ("polynomial", hz(on(r, random_polynomial))),
        6..=8 => ("hash", hz(on(r, hashed))),
        9 | 10 => ("split", hz(split(r))),
        11 => ("deep-U3", hz(deep(r))),
        12 | 13 => ("edge", hz(edge(r))),
        14 => ("exact", hz(exact(r))),
        15 => ("corner", hz(corner(r))),
        16 => ("armijo", bt(backtracking(r, Condition::Armijo))),
        17 => ("goldstein", bt(backtracking(r, Condition::Goldstein))),
        18 => ("wolfe", bt(backtracking(r, Condition::Wolfe))),
        19 => ("strong-wolfe", bt(backtracking(r, Condition::StrongWolfe))),
        20 => ("bad-start", hz(on(r, hashed))),
        21 => ("bad-start", bt(backtracking(r, condition))),
        _ => match r.below(4) {
            0 => ("bad-answer", bt(backtracking(r, condition))),
            1 => ("bad-answer", hz(split(r))),
            2 => ("bad-answer", hz(deep(r))),
            _ => ("bad-answer", hz(on(r, hashed))),
        },
    };
    let mut spoiled = None;
    let mut damage = Damage::None;
    match kind {
        "bad-start" => {
            spoiled = Some(spoil(r, &mut start));
            if r.one_in(2) {
                spoil(r, &mut start);
            }
        }
        "bad-answer" => damage = r.pick(&[Damage::Cost, Damage::Slope])(r.below(14) as usize),
        "armijo" | "goldstein" if r.one_in(4) => damage = Damage::Slopes,
        _ => {}
    }
    let most = match (r.below(1000), kind) {
        (0, _) => 40000,
        (1..=20, _) | (_, "deep-U3") => 1200,
        _ => 60,
    };
    Search { kind, spoiled, start, model: Model { shape, damage, salt: r.word() }, most }
}
