//! The original: richtext.rs, style_range_map.rs and config.rs of loro-internal 1.17.1, compiled
//! as they are over stand-ins for what they use of other modules and crates.
#![allow(dead_code, unused_imports, unused_variables)]

include!(concat!(env!("OUT_DIR"), "/laid/mods.rs"));

pub(crate) use loro_common::InternalString;

pub mod change {
    pub use loro_common::Lamport;
}

pub mod utils {
    pub mod string_slice {
        #[derive(Debug, Clone, PartialEq, Eq)]
        pub struct StringSlice;
    }
}

/// Stands in for `StyleMeta`: it keeps the whole set that `get_styles_for_insert` worked out.
pub mod delta {
    use crate::container::richtext::Styles;

    #[derive(Debug, Clone, Default, PartialEq, Eq)]
    pub struct StyleMeta {
        pub(crate) styles: Styles,
    }

    impl From<&Styles> for StyleMeta {
        fn from(styles: &Styles) -> Self {
            Self { styles: styles.clone() }
        }
    }

    impl From<Styles> for StyleMeta {
        fn from(styles: Styles) -> Self {
            Self { styles }
        }
    }
}

pub use container::richtext::config::{StyleConfig, StyleConfigMap};
pub use container::richtext::richtext_state::{
    entries, op, set_default, Anchor, Bare, Id, Key, Mark, Stretch, Tank,
};
pub use container::richtext::{AnchorType, ExpandType, StyleOp, TextStyleInfoFlag};
pub use generic_btree::join_neighbours;
pub use loro_common::LoroValue;
