//! Runs argmin's searches as its executor does, and writes down what they ask.
//!
//! 01's refusals are not argmin's. They are told here from what argmin asks and is answered: the steps and the answers
//! tell 2 and 5, and `Watch` tells 6 and 7. What argmin does past a refusal is only counted. `Watch` also tells where
//! 02's request 4 parts from argmin, which is followed no further then.

use crate::answers::Model;
use crate::cases::{Backtracking, Condition, HagerZhang, Start};
use crate::core::{CostFunction, Error, Gradient, IterState, LineSearch, Problem, Solver, TerminationStatus};
use crate::solver::linesearch::condition::{
    ArmijoCondition, GoldsteinCondition, LineSearchCondition, StrongWolfeCondition, WolfeCondition,
};
use crate::solver::linesearch::{BacktrackingLineSearch, HagerZhangLineSearch};
use crate::watch::{Over, Watch};
use crate::{ArgminDot, ArgminScaledAdd};

/// After so many evaluations past a refusal argmin is broken off: U3 can loop for ever.
pub const PATIENCE: u32 = 2000;

pub type Point = (f64, f64, f64);

pub enum End {
    Stop(&'static str, f64),
    Limit(f64),
    Refused(u32),
    Parted,
    Waiting,
}

impl End {
    pub fn word(&self) -> String {
        match self {
            End::Stop(..) => "STOP".to_string(),
            End::Limit(_) => "LIMIT".to_string(),
            End::Refused(number) => format!("REFUSED {number}"),
            End::Parted => "PARTED".to_string(),
            End::Waiting => "waiting".to_string(),
        }
    }
}

/// What argmin holds after its start or after an iteration, and how many answers it had by then.
pub struct Mark {
    pub answers: usize,
    pub iterations: u32,
    pub held: Option<[Point; 3]>,
}

/// How argmin itself went on past a refusal.
#[derive(Clone, Copy)]
pub enum Past {
    Stopped,
    AtLimit,
    Unreachable,
    BrokenOff,
}

/// A run up to its end or its refusal. Where it waits, its last ask has no answer.
pub struct Run {
    pub asks: Vec<f64>,
    pub answers: Vec<(f64, f64)>,
    pub marks: Vec<Mark>,
    pub end: End,
    pub rules: String,
    pub past: Option<Past>,
}

impl Run {
    fn refused_at_start(number: u32) -> Run {
        let end = End::Refused(number);
        Run { asks: vec![], answers: vec![], marks: vec![], end, rules: String::new(), past: None }
    }

    /// The finite answers.
    pub fn accepted(&self) -> usize {
        match self.end {
            End::Refused(2) => self.answers.len().saturating_sub(1),
            _ => self.answers.len(),
        }
    }
}

/// Where argmin evaluates: its starting point, or a step from there. The step is the float that it gave to the scaled
/// add.
#[derive(Clone, Copy)]
enum Place {
    Start,
    Step(f64),
}

/// The direction, or a gradient of which only the slope along the direction is known.
#[derive(Clone, Copy)]
enum Vector {
    Direction,
    Slope(f64),
}

impl ArgminScaledAdd<Vector, f64, Place> for Place {
    fn scaled_add(&self, step: &f64, _direction: &Vector) -> Place {
        Place::Step(*step)
    }
}

impl ArgminDot<Vector, f64> for Vector {
    fn dot(&self, other: &Vector) -> f64 {
        match (self, other) {
            (Vector::Direction, Vector::Slope(s)) | (Vector::Slope(s), Vector::Direction) => *s,
            _ => unreachable!("only a gradient is multiplied with the direction"),
        }
    }
}

// Two that argmin's bounds name and its text never calls.
impl ArgminDot<Vector, f64> for Place {
    fn dot(&self, _other: &Vector) -> f64 {
        unreachable!()
    }
}

impl ArgminScaledAdd<Vector, f64, Vector> for Vector {
    fn scaled_add(&self, _factor: &f64, _vector: &Vector) -> Vector {
        unreachable!()
    }
}

/// The problem that argmin is given: answers by a model, and writes down what is asked and answered, up to a refusal.
struct Plant<'a> {
    model: &'a Model,
    slope_read: bool,
    most: usize,
    watch: Option<Watch>,
    asks: Vec<f64>,
    answers: Vec<(f64, f64)>,
    over: Option<Over>,
    /// Evaluations past that.
    past: u32,
    /// The last step and its slope.
    last: (f64, f64),
}

impl Plant<'_> {
    fn new(model: &Model, slope_read: bool, most: usize, watch: Option<Watch>) -> Plant<'_> {
        let (asks, answers) = (vec![], vec![]);
        Plant { model, slope_read, most, watch, asks, answers, over: None, past: 0, last: (0.0, 0.0) }
    }
}

impl CostFunction for Plant<'_> {
    type Param = Place;
    type Output = f64;

    fn cost(&mut self, place: &Place) -> Result<f64, Error> {
        let Place::Step(x) = *place else { unreachable!("cost and slope at the start were supplied") };
        if self.over.is_none() {
            self.over = match &mut self.watch {
                Some(watch) => watch.over(x),
                None => (!x.is_finite()).then_some(Over::Refused(5)),
            };
        }
        let (f, g) = self.model.answer(self.asks.len() + self.past as usize, x);
        self.last = (x, g);
        if self.over.is_some() {
            self.past += 1;
            return if self.past > PATIENCE { Err(Error::BrokenOff) } else { Ok(f) };
        }
        self.asks.push(x);
        if self.asks.len() > self.most {
            return Err(Error::BrokenOff);
        }
        self.answers.push((f, g));
        if !(f.is_finite() && (g.is_finite() || !self.slope_read)) {
            self.over = Some(Over::Refused(2));
        } else if let Some(watch) = &mut self.watch {
            watch.answered(x, f, g);
        }
        Ok(f)
    }
}

impl Gradient for Plant<'_> {
    type Param = Place;
    type Gradient = Vector;

    fn gradient(&mut self, place: &Place) -> Result<Vector, Error> {
        let Place::Step(x) = *place else { unreachable!("cost and slope at the start were supplied") };
        assert_eq!(x.to_bits(), self.last.0.to_bits(), "the slope is read where the cost was");
        Ok(Vector::Slope(self.last.1))
    }
}

type State = IterState<Place, Vector, (), (), (), f64>;
type HagerZhangSolver = HagerZhangLineSearch<Place, Vector, f64>;
type BacktrackingSolver<L> = BacktrackingLineSearch<Place, Vector, L, f64>;

/// What argmin does not tell of itself: the bracket and the best, and the verdict when it has terminated.
trait Look {
    fn held(&self) -> Option<[Point; 3]>;
    fn verdict(&self, state: &State) -> &'static str;
}

impl Look for HagerZhangSolver {
    fn held(&self) -> Option<[Point; 3]> {
        Some(HagerZhangSolver::held(self))
    }

    fn verdict(&self, state: &State) -> &'static str {
        match Solver::<Plant, State>::terminate(&mut self.without_level(), state) {
            TerminationStatus::Terminated(_) => "wolfe",
            TerminationStatus::NotTerminated => "approximate",
        }
    }
}

impl<L> Look for BacktrackingSolver<L> {
    fn held(&self) -> Option<[Point; 3]> {
        None
    }

    fn verdict(&self, _state: &State) -> &'static str {
        "met"
    }
}

/// argmin's executor: init; then terminate, the iteration limit and next_iter in turn. Its target cost is minus
/// infinity unless one is set, and no finite cost reaches that.
fn execute<'a, S>(mut solver: S, plant: Plant<'a>, (f0, s0, limit): (f64, f64, u32)) -> Run
where
    S: Solver<Plant<'a>, State> + Look,
{
    let mut problem = Problem(plant);
    let mut marks = Vec::new();
    let mut play = || -> Result<End, Error> {
        let (mut state, _) = solver.init(&mut problem, State::new(Place::Start, f0, Vector::Slope(s0)))?;
        let mut iterations = 0;
        loop {
            let plant = &mut problem.0;
            if plant.over.is_none() {
                let held = solver.held();
                if let (Some(watch), Some(held)) = (&mut plant.watch, held) {
                    watch.finished(held, (plant.asks[2], plant.answers[2].0, plant.answers[2].1));
                }
                marks.push(Mark { answers: plant.answers.len(), iterations, held });
            }
            let Some(Place::Step(x)) = state.param else { unreachable!("argmin leaves its step in the state") };
            if let TerminationStatus::Terminated(_) = solver.terminate(&state) {
                return Ok(End::Stop(solver.verdict(&state), x));
            }
            if iterations >= limit {
                return Ok(End::Limit(x));
            }
            (state, _) = solver.next_iter(&mut problem, state)?;
            iterations += 1;
        }
    };
    let came = play();
    let Problem(plant) = problem;
    let (end, past) = match (plant.over, came) {
        (None, Ok(end)) => (end, None),
        (None, Err(Error::BrokenOff)) => (End::Waiting, None),
        (None, Err(error)) => unreachable!("{error:?} with nothing refused"),
        (Some(Over::Parted), _) => (End::Parted, None),
        (Some(Over::Refused(n)), came) => {
            let past = match came {
                Ok(End::Stop(..)) => Past::Stopped,
                Ok(_) => Past::AtLimit,
                Err(Error::BrokenOff) => Past::BrokenOff,
                Err(_) => Past::Unreachable,
            };
            (End::Refused(n), Some(past))
        }
    };
    let rules = plant.watch.map_or(String::new(), |w| w.rules);
    Run { asks: plant.asks, answers: plant.answers, marks, end, rules, past }
}

fn hager_zhang(h: &HagerZhang, model: &Model, most: usize) -> Run {
    if !h.floats().iter().all(|x| x.is_finite()) {
        return Run::refused_at_start(2);
    }
    let made = || -> Result<HagerZhangSolver, Error> {
        let mut solver = HagerZhangLineSearch::new()
            .with_delta_sigma(h.delta, h.sigma)?
            .with_epsilon(h.epsilon)?
            .with_theta(h.theta)?
            .with_gamma(h.gamma)?
            .with_eta(h.eta)?
            .with_bounds(h.min, h.max)?;
        solver.initial_step_length(h.step)?;
        solver.search_direction(Vector::Direction);
        Ok(solver)
    };
    let Ok(solver) = made() else { return Run::refused_at_start(3) };
    if !(1..=1000).contains(&h.budget) || !(1..=10000).contains(&h.limit) {
        return Run::refused_at_start(3);
    }
    let watch = Watch::new(h);
    if !watch.level.is_finite() || !(h.epsilon * h.f0.abs()).is_finite() {
        return Run::refused_at_start(4);
    }
    execute(solver, Plant::new(model, true, most, Some(watch)), (h.f0, h.s0, h.limit))
}

fn backtracking<L>(b: &Backtracking, condition: Result<L, Error>, model: &Model, most: usize) -> Run
where
    L: LineSearchCondition<Vector, Vector, f64>,
{
    let c2 = if b.slope_read() { b.c2 } else { b.c1 };
    if ![b.c1, c2, b.rho, b.alpha, b.f0, b.s0].iter().all(|x| x.is_finite()) {
        return Run::refused_at_start(2);
    }
    let made = || -> Result<BacktrackingSolver<L>, Error> {
        let mut solver = BacktrackingLineSearch::new(condition?).rho(b.rho)?;
        solver.initial_step_length(b.alpha)?;
        solver.search_direction(Vector::Direction);
        Ok(solver)
    };
    let Ok(solver) = made() else { return Run::refused_at_start(3) };
    if !(1..=10000).contains(&b.limit) {
        return Run::refused_at_start(3);
    }
    execute(solver, Plant::new(model, b.slope_read(), most, None), (b.f0, b.s0, b.limit))
}

/// Runs a search on a model's answers, at most so many.
pub fn run(start: &Start, model: &Model, most: usize) -> Run {
    match start {
        Start::HagerZhang(h) => hager_zhang(h, model, most),
        Start::Backtracking(b) => match b.condition {
            Condition::Armijo => backtracking(b, ArmijoCondition::new(b.c1), model, most),
            Condition::Goldstein => backtracking(b, GoldsteinCondition::new(b.c1), model, most),
            Condition::Wolfe => backtracking(b, WolfeCondition::new(b.c1, b.c2), model, most),
            Condition::StrongWolfe => backtracking(b, StrongWolfeCondition::new(b.c1, b.c2), model, most),
        },
    }
}
