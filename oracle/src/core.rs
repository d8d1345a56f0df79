//! A stand-in for argmin's core: what the line searches use of it.

use std::marker::PhantomData;
use std::ops::{Add, Div, Mul, Sub};

pub use crate::solver::linesearch::LineSearch;

macro_rules! float {
    ($number:expr) => {
        F::from_f64($number)
    };
}

macro_rules! argmin_error {
    ($kind:ident, $text:expr) => {
        crate::core::Error::$kind($text)
    };
}

macro_rules! argmin_error_closure {
    ($kind:ident, $text:expr) => {
        || argmin_error!($kind, $text)
    };
}

macro_rules! check_param {
    ($param:expr, $text:expr) => {
        if $param.is_none() {
            return Err(argmin_error!(NotInitialized, $text));
        }
    };
}

#[derive(Debug)]
pub enum Error {
    InvalidParameter(&'static str),
    NotInitialized(&'static str),
    PotentialBug(&'static str),
    /// Not argmin's: the problem wants no more evaluations.
    BrokenOff,
}

pub trait ArgminFloat:
    Copy + PartialOrd + Add<Output = Self> + Sub<Output = Self> + Mul<Output = Self> + Div<Output = Self>
{
    fn from_f64(number: f64) -> Self;
    fn nan() -> Self;
    fn infinity() -> Self;
    fn epsilon() -> Self;
    fn abs(self) -> Self;
    fn is_infinite(self) -> bool;
}

impl ArgminFloat for f64 {
    fn from_f64(number: f64) -> f64 {
        number
    }
    fn nan() -> f64 {
        f64::NAN
    }
    fn infinity() -> f64 {
        f64::INFINITY
    }
    fn epsilon() -> f64 {
        f64::EPSILON
    }
    fn abs(self) -> f64 {
        f64::abs(self)
    }
    fn is_infinite(self) -> bool {
        f64::is_infinite(self)
    }
}

pub trait CostFunction {
    type Param;
    type Output;
    fn cost(&mut self, param: &Self::Param) -> Result<Self::Output, Error>;
}

pub trait Gradient {
    type Param;
    type Gradient;
    fn gradient(&mut self, param: &Self::Param) -> Result<Self::Gradient, Error>;
}

pub struct Problem<O>(pub O);

impl<O: CostFunction> Problem<O> {
    pub fn cost(&mut self, param: &O::Param) -> Result<O::Output, Error> {
        self.0.cost(param)
    }
}

impl<O: Gradient> Problem<O> {
    pub fn gradient(&mut self, param: &O::Param) -> Result<O::Gradient, Error> {
        self.0.gradient(param)
    }
}

pub struct KV;

pub enum TerminationReason {
    SolverConverged,
}

pub enum TerminationStatus {
    NotTerminated,
    Terminated(TerminationReason),
}

pub trait State {
    type Float;
}

pub struct IterState<P, G, J, H, R, F> {
    pub param: Option<P>,
    pub gradient: Option<G>,
    pub cost: F,
    unused: PhantomData<(J, H, R)>,
}

impl<P, G, J, H, R, F> State for IterState<P, G, J, H, R, F> {
    type Float = F;
}

impl<P, G, J, H, R, F: Copy> IterState<P, G, J, H, R, F> {
    pub fn new(param: P, cost: F, gradient: G) -> Self {
        IterState { param: Some(param), gradient: Some(gradient), cost, unused: PhantomData }
    }

    pub fn take_param(&mut self) -> Option<P> {
        self.param.take()
    }

    pub fn take_gradient(&mut self) -> Option<G> {
        self.gradient.take()
    }

    pub fn get_gradient(&self) -> Option<&G> {
        self.gradient.as_ref()
    }

    pub fn get_cost(&self) -> F {
        self.cost
    }

    pub fn param(mut self, param: P) -> Self {
        self.param = Some(param);
        self
    }

    pub fn gradient(mut self, gradient: G) -> Self {
        self.gradient = Some(gradient);
        self
    }

    pub fn cost(mut self, cost: F) -> Self {
        self.cost = cost;
        self
    }
}

pub trait Solver<O, I> {
    fn name(&self) -> &str;
    fn init(&mut self, problem: &mut Problem<O>, state: I) -> Result<(I, Option<KV>), Error>;
    fn next_iter(&mut self, problem: &mut Problem<O>, state: I) -> Result<(I, Option<KV>), Error>;
    fn terminate(&mut self, state: &I) -> TerminationStatus;
}
