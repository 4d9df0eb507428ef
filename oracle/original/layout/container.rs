// Stands in for container.rs: the one child that is compiled.
pub mod richtext;
