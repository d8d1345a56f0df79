//! A stand-in for argmin_math: the two traits that the line searches use.

pub trait ArgminDot<T, U> {
    fn dot(&self, other: &T) -> U;
}

pub trait ArgminScaledAdd<T, U, V> {
    fn scaled_add(&self, factor: &U, vector: &T) -> V;
}
