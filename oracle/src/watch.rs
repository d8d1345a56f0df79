//! Follows a Hager-Zhang search by what it asks and is answered.

use crate::cases::HagerZhang;
use crate::drive::Point;

/// Which trial comes next: none in the start's three and at an iteration's end.
#[derive(Clone, Copy, PartialEq)]
enum Stage {
    Start,
    S1,
    S4,
    L2,
    Done,
}

struct Between {
    low: f64,
    high: f64,
    had: u32,
}

/// Follows the bracket's steps by U0 to U3, to tell refusals 6 and 7 and where 02's request 4 parts from argmin, and
/// notes the rules that were used. At each iteration's end its bracket is argmin's.
pub struct Watch {
    pub level: f64,
    budget: u32,
    low: f64,
    high: f64,
    /// The iteration's ends, (a, b).
    ends: [Point; 2],
    trial: f64,
    stage: Stage,
    u3: Option<Between>,
    /// Whether S4's e is of two equal steps, and 02 asks another step.
    parts: bool,
    pub rules: String,
}

/// Why argmin is not followed any further.
#[derive(Clone, Copy, PartialEq)]
pub enum Over {
    Refused(u32),
    /// S4 asks the NaN of two equal steps, where 02's request 4 goes on.
    Parted,
}

/// The rules as `Watch` notes them.
pub const RULES: [(char, &str); 18] = [
    ('0', "U0"),
    ('1', "U1"),
    ('2', "U2"),
    ('3', "U3 in S1"),
    ('4', "U3 in S4"),
    ('5', "U3 in L2"),
    ('+', "U3 ended before its budget"),
    ('=', "U3 ended by its last answer"),
    ('<', "U3 moved its low end"),
    ('>', "U3 moved its high end"),
    ('h', "S2 alone, S4"),
    ('l', "S3 alone, S4"),
    ('e', "S2 and S3, S4"),
    ('n', "no S4"),
    ('L', "L2"),
    ('a', "best a"),
    ('b', "best b"),
    ('c', "best c"),
];

impl Watch {
    pub fn new(start: &HagerZhang) -> Watch {
        Watch {
            level: start.f0 + start.epsilon * start.f0.abs(),
            budget: start.budget,
            low: start.min,
            high: start.max,
            ends: [(0.0, 0.0, 0.0); 2],
            trial: start.step,
            stage: Stage::Start,
            u3: None,
            parts: false,
            rules: String::new(),
        }
    }

    /// Whether this step ends the comparison.
    pub fn over(&mut self, x: f64) -> Option<Over> {
        match &self.u3 {
            Some(u3) if u3.had == self.budget => Some(Over::Refused(6)),
            None if self.stage == Stage::S4 && self.parts => {
                assert!(x.is_nan(), "argmin's e of two equal steps is 0/0");
                Some(Over::Parted)
            }
            _ if !x.is_finite() => Some(Over::Refused(5)),
            Some(u3) if !(u3.low < x && x < u3.high) => Some(Over::Refused(7)),
            Some(_) => None,
            None => {
                match self.stage {
                    Stage::S1 => self.trial = x,
                    Stage::L2 => self.rules.push('L'),
                    _ => {}
                }
                None
            }
        }
    }

    pub fn answered(&mut self, x: f64, f: f64, g: f64) {
        if self.stage == Stage::Start {
            return;
        }
        let (rule, updated) = if let Some(u3) = &mut self.u3 {
            u3.had += 1;
            if g >= 0.0 {
                let last = u3.had == self.budget;
                (self.low, self.high) = (u3.low, x);
                self.u3 = None;
                (if last { '=' } else { '+' }, true)
            } else if f <= self.level {
                u3.low = x;
                ('<', false)
            } else {
                u3.high = x;
                ('>', false)
            }
        } else if x <= self.low || x >= self.high {
            ('0', true)
        } else if g >= 0.0 {
            self.high = x;
            ('1', true)
        } else if f <= self.level {
            self.low = x;
            ('2', true)
        } else {
            self.u3 = Some(Between { low: self.low, high: x, had: 0 });
            let rule = match self.stage {
                Stage::S1 => '3',
                Stage::S4 => '4',
                _ => '5',
            };
            (rule, false)
        };
        self.rules.push(rule);
        if updated {
            self.stage = match self.stage {
                Stage::S1 => self.after_s1(g),
                Stage::S4 => Stage::L2,
                _ => Stage::Done,
            };
        }
    }

    /// What argmin does behind S1's update, whose last answer had the slope g.
    fn after_s1(&mut self, g: f64) -> Stage {
        let at = |end: f64| (self.trial - end).abs() < f64::EPSILON;
        let (s2, s3) = (at(self.high), at(self.low));
        let rule = match (s2, s3) {
            (true, true) => 'e',
            (true, false) => 'h',
            (false, true) => 'l',
            (false, false) => 'n',
        };
        self.rules.push(rule);
        self.parts = self.equal_steps(s2, s3) && self.instead(s2, g).is_finite();
        if rule == 'n' { Stage::L2 } else { Stage::S4 }
    }

    /// Whether the last of S2 and S3 that holds has two equal steps.
    fn equal_steps(&self, s2: bool, s3: bool) -> bool {
        let [a, b] = self.ends;
        if s3 { a.0 == self.low } else { s2 && b.0 == self.high }
    }

    /// The step that 02 asks in place of argmin's e: S2's where that has two steps, else L2's. Where L2 does not hold,
    /// S1's is asked again, and L2's is finite too. Z is the last answer's where it is not b.
    fn instead(&self, s2: bool, g: f64) -> f64 {
        let (x, _, slope) = self.ends[1];
        if s2 && x != self.high {
            (x * g - self.high * slope) / (g - slope)
        } else {
            (self.low + self.high) / 2.0
        }
    }

    pub fn finished(&mut self, [a, b, best]: [Point; 3], c: Point) {
        let bits = |(x, f, g): Point| [x, f, g].map(f64::to_bits);
        let steps = |low: f64, high: f64| [low, high].map(f64::to_bits);
        assert_eq!(steps(self.low, self.high), steps(a.0, b.0), "argmin's bracket and the rules'");
        self.rules.push(match bits(best) {
            p if p == bits(c) => 'c',
            p if p == bits(b) => 'b',
            p if p == bits(a) => 'a',
            _ => unreachable!("the best is one of three"),
        });
        self.ends = [a, b];
        self.stage = Stage::S1;
    }
}
