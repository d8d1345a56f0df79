// Hager-Zhang in plain Rust, in place, with the same tests and the same answers: what crates/bench is timed against.
//   rustc -C opt-level=3 bench/twin.rs && ./twin [any argument: 50 million answers instead of a thousand]

mod curves;

use curves::{curve, slope, turns, value, Curve};

#[derive(Clone, Copy)]
struct Point {
    x: f64,
    f: f64,
    g: f64,
}

#[derive(Clone, Copy)]
struct Params {
    delta: f64,
    sigma: f64,
    epsilon: f64,
    theta: f64,
    gamma: f64,
    eta: f64,
    min: f64,
    max: f64,
    start: f64,
}

#[derive(Clone, Copy)]
enum Rule {
    S1,
    S4,
    L2,
}

#[derive(Clone, Copy)]
enum Stage {
    Low,
    High,
    Start,
    Trial(Rule),
    Between(Rule),
    Over,
}

enum Outcome {
    Ask(f64),
    Stop(f64),
    Limit(f64),
    Refused(u32),
}

struct Search {
    p: Params,
    budget: u32,
    limit: u32,
    f0: f64,
    s0: f64,
    level: f64,
    a: Point,
    b: Point,
    c: Point,
    best: Point,
    new_a: Point,
    new_b: Point,
    trial: f64,
    h: Point,
    k: f64,
    left: u32,
    evaluations: u32,
    iterations: u32,
    asked: f64,
    stage: Stage,
}

const O: Point = Point { x: 0.0, f: 0.0, g: 0.0 };

fn secant(p: Point, q: Point) -> f64 {
    (p.x * q.g - q.x * p.g) / (q.g - p.g)
}

fn accepted(p: &Params, budget: u32, limit: u32, f0: f64, s0: f64) -> bool {
    let supplied = [p.delta, p.sigma, p.epsilon, p.theta, p.gamma, p.eta, p.min, p.max, p.start, f0, s0];
    supplied.iter().all(|x| x.is_finite())
        && 0.0 < p.delta
        && p.delta < 1.0
        && p.delta <= p.sigma
        && p.sigma < 1.0
        && 0.0 <= p.epsilon
        && 0.0 < p.theta
        && p.theta < 1.0
        && 0.0 < p.gamma
        && p.gamma < 1.0
        && 0.0 < p.eta
        && 0.0 <= p.min
        && p.min < p.max
        && (1..=1000).contains(&budget)
        && (1..=10000).contains(&limit)
}

impl Search {
    fn start(p: Params, budget: u32, limit: u32, f0: f64, s0: f64) -> Option<Search> {
        if !accepted(&p, budget, limit, f0, s0) {
            return None;
        }
        let epsilon_k = p.epsilon * f0.abs();
        let level = f0 + epsilon_k;
        if !epsilon_k.is_finite() || !level.is_finite() {
            return None;
        }
        let (asked, stage) = (p.min, Stage::Low);
        Some(Search {
            p, budget, limit, f0, s0, level, a: O, b: O, c: O, best: O, new_a: O, new_b: O, trial: 0.0, h: O, k: 0.0,
            left: 0, evaluations: 0, iterations: 0, asked, stage,
        })
    }

    fn over(&mut self, o: Outcome) -> Outcome {
        self.stage = Stage::Over;
        o
    }

    fn ask(&mut self, stage: Stage, x: f64) -> Outcome {
        self.stage = stage;
        self.asked = x;
        Outcome::Ask(x)
    }

    fn attempt(&mut self, rule: Rule, x: f64) -> Outcome {
        if !x.is_finite() {
            return self.over(Outcome::Refused(5));
        }
        self.trial = x;
        self.ask(Stage::Trial(rule), x)
    }

    fn probe(&mut self, rule: Rule) -> Outcome {
        if self.left == 0 {
            return self.over(Outcome::Refused(6));
        }
        let d = (1.0 - self.p.theta) * self.h.x + self.p.theta * self.k;
        if !d.is_finite() {
            return self.over(Outcome::Refused(5));
        }
        if !(self.h.x < d && d < self.k) {
            return self.over(Outcome::Refused(7));
        }
        self.left -= 1;
        self.ask(Stage::Between(rule), d)
    }

    fn settle(&mut self) -> Outcome {
        let (a, b, c) = (self.a, self.b, self.c);
        if a.f <= b.f && a.f <= c.f {
            self.best = a;
        }
        if b.f <= a.f && b.f <= c.f {
            self.best = b;
        }
        if c.f <= a.f && c.f <= b.f {
            self.best = c;
        }
        let best = self.best;
        if best.f - self.f0 <= (self.p.delta * best.x) * self.s0 && best.g >= self.p.sigma * self.s0 {
            return self.over(Outcome::Stop(best.x));
        }
        if (2.0 * self.p.delta - 1.0) * self.s0 >= best.g && best.g >= self.p.sigma * self.s0 && best.f <= self.level {
            return self.over(Outcome::Stop(best.x));
        }
        if self.limit <= self.iterations {
            return self.over(Outcome::Limit(best.x));
        }
        self.attempt(Rule::S1, secant(a, b))
    }

    fn finish(&mut self) -> Outcome {
        self.a = self.new_a;
        self.b = self.new_b;
        self.iterations += 1;
        self.settle()
    }

    fn after_s4(&mut self) -> Outcome {
        if self.new_b.x - self.new_a.x > self.p.gamma * (self.b.x - self.a.x) {
            return self.attempt(Rule::L2, (self.new_a.x + self.new_b.x) / 2.0);
        }
        self.finish()
    }

    fn after_s1(&mut self) -> Outcome {
        // 02, request 4: no e where the two steps are equal
        let mut e = None;
        if (self.trial - self.new_b.x).abs() < f64::EPSILON && self.b.x != self.new_b.x {
            e = Some(secant(self.b, self.new_b));
        }
        if (self.trial - self.new_a.x).abs() < f64::EPSILON && self.a.x != self.new_a.x {
            e = Some(secant(self.a, self.new_a));
        }
        match e {
            Some(x) => self.attempt(Rule::S4, x),
            None => self.after_s4(),
        }
    }

    fn updated(&mut self, rule: Rule, a: Point, b: Point) -> Outcome {
        self.new_a = a;
        self.new_b = b;
        match rule {
            Rule::S1 => self.after_s1(),
            Rule::S4 => self.after_s4(),
            Rule::L2 => self.finish(),
        }
    }

    fn update(&mut self, rule: Rule, a: Point, b: Point, c: Point) -> Outcome {
        if c.x <= a.x || c.x >= b.x {
            return self.updated(rule, a, b);
        }
        if c.g >= 0.0 {
            return self.updated(rule, a, c);
        }
        if c.f <= self.level {
            return self.updated(rule, c, b);
        }
        self.h = a;
        self.k = c.x;
        self.left = self.budget;
        self.probe(rule)
    }

    fn answer(&mut self, f: f64, g: f64) -> Outcome {
        if let Stage::Over = self.stage {
            return Outcome::Refused(8);
        }
        if !f.is_finite() || !g.is_finite() {
            return self.over(Outcome::Refused(2));
        }
        self.evaluations += 1;
        let d = Point { x: self.asked, f, g };
        match self.stage {
            Stage::Low => {
                self.a = d;
                self.ask(Stage::High, self.p.max)
            }
            Stage::High => {
                self.b = d;
                self.ask(Stage::Start, self.p.start)
            }
            Stage::Start => {
                self.c = d;
                self.settle()
            }
            Stage::Trial(Rule::S1) => self.update(Rule::S1, self.a, self.b, d),
            Stage::Trial(rule) => self.update(rule, self.new_a, self.new_b, d),
            Stage::Between(rule) => {
                if d.g >= 0.0 {
                    return self.updated(rule, self.h, d);
                }
                if d.f <= self.level {
                    self.h = d;
                } else {
                    self.k = d.x;
                }
                self.probe(rule)
            }
            Stage::Over => Outcome::Refused(8),
        }
    }
}

fn begin(n: usize) -> (Search, Curve) {
    let c = curve(n);
    let p = Params {
        delta: 0.1, sigma: 0.9, epsilon: 1e-6, theta: 0.5, gamma: 0.66, eta: 0.01, min: 0.0, max: 64.0, start: 0.7,
    };
    (Search::start(p, 100, 100, value(&c, 0.0), slope(&c, 0.0)).expect("in 01's ranges"), c)
}

fn main() {
    let mut n = 0;
    let (mut s, mut c) = begin(n);
    let mut sum = 0.0;
    for _ in 0..turns() {
        let end = match s.answer(value(&c, s.asked), slope(&c, s.asked)) {
            Outcome::Ask(x) => {
                sum += x;
                continue;
            }
            Outcome::Stop(x) | Outcome::Limit(x) => x,
            Outcome::Refused(_) => 1.0,
        };
        sum += end;
        n += 1;
        (s, c) = begin(n);
    }
    println!("{:016x}", sum.to_bits());
}
