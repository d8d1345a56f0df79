// argmin's file, word for word, and a look at the private fields that it keeps its bracket and best in.
include!("../../../argmin/src/solver/linesearch/hagerzhang.rs");

impl<P: Clone, G: Clone, F: ArgminFloat> HagerZhangLineSearch<P, G, F> {
    /// The bracket's low and high end and the best point, each (step, cost, slope).
    pub fn held(&self) -> [Triplet<F>; 3] {
        [(self.a_x, self.a_f, self.a_g), (self.b_x, self.b_f, self.b_g), (self.best_x, self.best_f, self.best_g)]
    }

    /// A copy for which no cost is at most L, so that its `terminate` can hold by the first of its two tests alone.
    pub fn without_level(&self) -> Self {
        HagerZhangLineSearch { epsilon_k: F::nan(), ..self.clone() }
    }
}
