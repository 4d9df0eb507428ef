// Stands in for the names that richtext.rs hands on.
#[derive(Debug, Clone)]
pub(crate) struct CrdtRopeDelta;
#[derive(Debug, Clone)]
pub(crate) struct Tracker;
