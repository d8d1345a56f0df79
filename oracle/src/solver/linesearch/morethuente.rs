// Nothing of More-Thuente is run; argmin's linesearch/mod.rs wants the name.
pub struct MoreThuenteLineSearch;
