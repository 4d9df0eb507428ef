//! Stands in for once_cell: `sync::Lazy` is the standard library's `LazyLock`.

pub mod sync {
    pub use std::sync::LazyLock as Lazy;
}
