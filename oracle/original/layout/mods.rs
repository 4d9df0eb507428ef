// Stands in for the crate's list of modules: the one that is compiled.
pub mod container;
