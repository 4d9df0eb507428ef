// Stands in for the names that richtext.rs hands on.
#[derive(Debug, Clone)]
pub(crate) struct RichtextChunk;
#[derive(Debug, Clone)]
pub(crate) struct RichtextChunkValue;
