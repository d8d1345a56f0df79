//! A case as the program `cases` reads it, and what it is to print.

use crate::drive::{End, Mark, Run};
use std::fmt::Write as _;
use std::io::{self, Write};

pub struct HagerZhang {
    pub delta: f64,
    pub sigma: f64,
    pub epsilon: f64,
    pub theta: f64,
    pub gamma: f64,
    pub eta: f64,
    pub min: f64,
    pub max: f64,
    pub step: f64,
    pub f0: f64,
    pub s0: f64,
    pub budget: u32,
    pub limit: u32,
}

impl HagerZhang {
    pub fn floats(&self) -> [f64; 11] {
        [
            self.delta, self.sigma, self.epsilon, self.theta, self.gamma, self.eta, self.min, self.max, self.step,
            self.f0, self.s0,
        ]
    }
}

#[derive(Clone, Copy, PartialEq)]
pub enum Condition {
    Armijo = 1,
    Goldstein = 2,
    Wolfe = 3,
    StrongWolfe = 4,
}

pub struct Backtracking {
    pub condition: Condition,
    pub c1: f64,
    pub c2: f64,
    pub rho: f64,
    pub alpha: f64,
    pub f0: f64,
    pub s0: f64,
    pub limit: u32,
}

impl Backtracking {
    /// Whether the condition reads a slope, and has a second constant.
    pub fn slope_read(&self) -> bool {
        matches!(self.condition, Condition::Wolfe | Condition::StrongWolfe)
    }
}

pub enum Start {
    HagerZhang(HagerZhang),
    Backtracking(Backtracking),
}

fn field(tag: u8, body: &[u8], out: &mut Vec<u8>) {
    out.push(tag);
    out.extend((body.len() as u16).to_be_bytes());
    out.extend(body);
}

fn floats(numbers: &[f64]) -> Vec<u8> {
    numbers.iter().flat_map(|x| x.to_bits().to_be_bytes()).collect()
}

fn input(start: &Start, answers: &[(f64, f64)]) -> Vec<u8> {
    let mut out = Vec::new();
    match start {
        Start::HagerZhang(h) => {
            let mut body = floats(&h.floats());
            body.extend(h.budget.to_be_bytes());
            body.extend(h.limit.to_be_bytes());
            field(32, &body, &mut out);
        }
        Start::Backtracking(b) => {
            let mut body = vec![b.condition as u8];
            body.extend(floats(&[b.c1, b.c2, b.rho, b.alpha, b.f0, b.s0]));
            body.extend(b.limit.to_be_bytes());
            field(33, &body, &mut out);
        }
    }
    for &(cost, slope) in answers {
        field(17, &floats(&[cost, slope]), &mut out);
    }
    out
}

fn hex(numbers: &[(f64, f64, f64)]) -> String {
    let mut out = String::new();
    for (x, f, g) in numbers {
        write!(out, " {:016X} {:016X} {:016X}", x.to_bits(), f.to_bits(), g.to_bits()).unwrap();
    }
    out
}

/// What `cases` is to print after CASE for the run's first answers, and for more after its end; up to PARTED where 02's
/// request 4 parts from argmin.
fn expected(run: &Run, answers: usize) -> String {
    let mut out = String::new();
    let mark = run.marks.iter().rev().find(|m| m.answers <= answers);
    let evaluations = answers.min(run.accepted());
    let iterations = mark.map_or(0, |m| m.iterations);
    let counts = format!("evaluations {evaluations} iterations {iterations}");
    for line in 0..=answers {
        match run.asks.get(line) {
            Some(step) => writeln!(out, "ASK {:016X}", step.to_bits()),
            None if line > run.asks.len() => writeln!(out, "REFUSED 8"),
            None => match run.end {
                End::Stop(word, step) => writeln!(out, "STOP {word} {:016X} {counts}", step.to_bits()),
                End::Limit(step) => writeln!(out, "LIMIT {:016X} {counts}", step.to_bits()),
                End::Refused(number) => writeln!(out, "REFUSED {number}"),
                End::Parted => {
                    out.push_str("PARTED\n");
                    return out;
                }
                End::Waiting => unreachable!("a run that waits has asked once more than it was answered"),
            },
        }
        .unwrap();
    }
    match mark {
        Some(Mark { held: Some([a, b, best]), .. }) => {
            writeln!(out, "BRACKET{}\nBEST{}", hex(&[*a, *b]), hex(&[*best]))
        }
        _ => writeln!(out, "BRACKET none\nBEST none"),
    }
    .unwrap();
    writeln!(out, "COUNTS {counts}").unwrap();
    out
}

/// The three files: what `cases` reads, what it is to print, and for each case its kind and where its bytes stand.
pub struct Files<W> {
    cases: W,
    expected: W,
    kinds: W,
    offset: usize,
    pub count: u64,
}

impl<W: Write> Files<W> {
    pub fn new(cases: W, expected: W, kinds: W) -> Self {
        Files { cases, expected, kinds, offset: 0, count: 0 }
    }

    /// One case: the run's first answers, and `more` that come after its end.
    pub fn case(
        &mut self,
        kind: &str,
        start: &Start,
        run: &Run,
        answers: usize,
        more: &[(f64, f64)],
    ) -> io::Result<()> {
        self.count += 1;
        let bytes = input(start, &[&run.answers[..answers], more].concat());
        self.cases.write_all(&bytes)?;
        write!(self.expected, "CASE {}\n{}", self.count, expected(run, answers + more.len()))?;
        writeln!(self.kinds, "{kind} {} {}", self.offset, bytes.len())?;
        self.offset += bytes.len();
        Ok(())
    }

    pub fn flush(&mut self) -> io::Result<()> {
        self.cases.flush()?;
        self.expected.flush()?;
        self.kinds.flush()
    }
}
