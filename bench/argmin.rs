// argmin's own Hager-Zhang, compiled unchanged over a thin stand-in of its executor, on the same searches with the same
// answers as crates/bench and twin.rs. bench/run puts it beside argmin's files and the stand-ins of oracle/src.
//   ./argmin [any argument: 50 million answers instead of a thousand]
//
// argmin has no refusals. Of these searches one is refused, on curve 3, since its next step would be infinite: argmin
// asks that step, and the problem breaks the search off there instead of answering. No other refusal comes up.

// argmin's files find argmin_math's two traits here
extern crate self as argmin_math;
pub use math::{ArgminDot, ArgminScaledAdd};

#[macro_use]
#[allow(dead_code)]
mod core;
mod curves;
mod math;
#[allow(dead_code, unused_imports, unexpected_cfgs)]
mod solver {
    pub mod linesearch;
}

use crate::core::{CostFunction, Error, Gradient, IterState, LineSearch, Problem, Solver, TerminationStatus};
use curves::{curve, slope, turns, value, Curve};
use solver::linesearch::HagerZhangLineSearch;

const LIMIT: u32 = 100;

/// A step, which the scaled add hands on as it is.
#[derive(Clone, Copy)]
struct Step(f64);

/// The direction, which is 1, or the slope along it: their product is the slope, bit for bit.
#[derive(Clone, Copy)]
struct Along(f64);

impl ArgminScaledAdd<Along, f64, Step> for Step {
    fn scaled_add(&self, step: &f64, _direction: &Along) -> Step {
        Step(*step)
    }
}

impl ArgminDot<Along, f64> for Along {
    fn dot(&self, other: &Along) -> f64 {
        self.0 * other.0
    }
}

// Two that argmin's bounds name and its text never calls.
impl ArgminDot<Along, f64> for Step {
    fn dot(&self, _other: &Along) -> f64 {
        unreachable!()
    }
}

impl ArgminScaledAdd<Along, f64, Along> for Along {
    fn scaled_add(&self, _factor: &f64, _vector: &Along) -> Along {
        unreachable!()
    }
}

/// The problem: the curve, the sum of the steps, and how many answers are left to give.
struct Plant {
    curve: Curve,
    sum: f64,
    left: u64,
}

impl CostFunction for Plant {
    type Param = Step;
    type Output = f64;

    fn cost(&mut self, &Step(x): &Step) -> Result<f64, Error> {
        if !x.is_finite() {
            self.sum += 1.0;
            return Err(Error::BrokenOff);
        }
        // the first step is 0, and adds nothing
        self.sum += x;
        if self.left == 0 {
            return Err(Error::BrokenOff);
        }
        self.left -= 1;
        Ok(value(&self.curve, x))
    }
}

impl Gradient for Plant {
    type Param = Step;
    type Gradient = Along;

    fn gradient(&mut self, &Step(x): &Step) -> Result<Along, Error> {
        Ok(Along(slope(&self.curve, x)))
    }
}

type State = IterState<Step, Along, (), (), (), f64>;

/// argmin's executor: init; then terminate, the iteration limit and next_iter in turn.
fn execute<S: Solver<Plant, State>>(mut solver: S, problem: &mut Problem<Plant>, start: State) -> Result<f64, Error> {
    let (mut state, _) = solver.init(problem, start)?;
    let mut iterations = 0;
    while let TerminationStatus::NotTerminated = solver.terminate(&state) {
        if iterations >= LIMIT {
            break;
        }
        (state, _) = solver.next_iter(problem, state)?;
        iterations += 1;
    }
    let Some(Step(x)) = state.param else { unreachable!("argmin leaves its step in the state") };
    Ok(x)
}

/// A search over the problem's curve: argmin's defaults, the bounds 0 and 64, the start step 0.7.
fn search(problem: &mut Problem<Plant>) -> Result<f64, Error> {
    let c = problem.0.curve;
    let mut solver = HagerZhangLineSearch::new().with_bounds(0.0, 64.0)?;
    solver.initial_step_length(0.7)?;
    solver.search_direction(Along(1.0));
    execute(solver, problem, State::new(Step(0.0), value(&c, 0.0), Along(slope(&c, 0.0))))
}

fn main() {
    let mut problem = Problem(Plant { curve: curve(0), sum: 0.0, left: turns() });
    let mut n = 0;
    while problem.0.left > 0 {
        problem.0.curve = curve(n);
        match search(&mut problem) {
            Ok(x) => problem.0.sum += x,
            Err(Error::BrokenOff) => {}
            Err(error) => panic!("{error:?}"),
        }
        n += 1;
    }
    println!("{:016x}", problem.0.sum.to_bits());
}
