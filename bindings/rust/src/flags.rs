//! Flag bytes and their expand types, under the old module's names. They are plain Rust: nothing of
//! them crosses to the proved map but the byte, which it judges by itself (refusals 14 and 18).

/// Whether a style grows when something is inserted at its edge.
///
/// ```
/// use mavelino::ExpandType;
/// assert_eq!(ExpandType::try_from_str("both"), Some(ExpandType::Both));
/// assert_eq!(ExpandType::Both.reverse(), ExpandType::None);
/// ```
#[derive(Clone, Copy, Debug, PartialEq, Eq, Hash)]
pub enum ExpandType {
    /// At its start. Retired: an annotate with its byte, 0x82, is refused by 18.
    Before,
    /// At its end.
    After,
    /// At both.
    Both,
    /// At neither.
    None,
}

/// Which edge of a mark an anchor is.
#[derive(Clone, Copy, Debug, PartialEq, Eq, Hash, PartialOrd, Ord)]
pub enum AnchorType {
    /// The first position.
    Start,
    /// The last position.
    End,
}

/// A flag byte.
///
/// ```
/// use mavelino::{ExpandType, TextStyleInfoFlag};
/// let flag = TextStyleInfoFlag::new(ExpandType::Both);
/// assert_eq!(flag.to_byte(), 0x86);
/// assert_eq!(flag.to_delete(), TextStyleInfoFlag::new(ExpandType::None));
/// ```
#[derive(Clone, Copy, Debug, Default, PartialEq, Eq, Hash)]
pub struct TextStyleInfoFlag {
    data: u8,
}

const ALIVE: u8 = 0x80;
const BEFORE: u8 = 0x02;
const AFTER: u8 = 0x04;

impl ExpandType {
    /// Whether it grows at its start.
    pub const fn expand_before(&self) -> bool {
        matches!(self, ExpandType::Before | ExpandType::Both)
    }

    /// Whether it grows at its end.
    pub const fn expand_after(&self) -> bool {
        matches!(self, ExpandType::After | ExpandType::Both)
    }

    /// The type of a word: `before`, `after`, `both` or `none`.
    pub fn try_from_str(word: &str) -> Option<Self> {
        match word {
            "before" => Some(ExpandType::Before),
            "after" => Some(ExpandType::After),
            "both" => Some(ExpandType::Both),
            "none" => Some(ExpandType::None),
            _ => None,
        }
    }

    /// The type of the mark that takes such a style off.
    pub const fn reverse(self) -> Self {
        match self {
            ExpandType::Both => ExpandType::None,
            ExpandType::None => ExpandType::Both,
            same => same,
        }
    }
}

impl TextStyleInfoFlag {
    /// 0x84, which grows at its end.
    pub const BOLD: Self = Self::new(ExpandType::After);
    /// 0x80, which does not grow.
    pub const LINK: Self = Self::new(ExpandType::None);
    /// 0x80, which does not grow.
    pub const COMMENT: Self = Self::new(ExpandType::None);

    /// The flag of a type.
    pub const fn new(expand: ExpandType) -> Self {
        let before = if expand.expand_before() { BEFORE } else { 0 };
        let after = if expand.expand_after() { AFTER } else { 0 };
        Self { data: ALIVE | before | after }
    }

    /// The byte as it is.
    pub const fn from_byte(data: u8) -> Self {
        Self { data }
    }

    /// The byte, as a [`Mark`](crate::Mark) carries it.
    pub const fn to_byte(&self) -> u8 {
        self.data
    }

    /// Whether the style grows at its start.
    pub const fn expand_before(self) -> bool {
        self.data & BEFORE != 0
    }

    /// Whether the style grows at its end.
    pub const fn expand_after(self) -> bool {
        self.data & AFTER != 0
    }

    /// The type by those two.
    pub const fn expand_type(self) -> ExpandType {
        match (self.expand_before(), self.expand_after()) {
            (true, true) => ExpandType::Both,
            (true, false) => ExpandType::Before,
            (false, true) => ExpandType::After,
            (false, false) => ExpandType::None,
        }
    }

    /// Whether what is inserted at an anchor stands before it.
    pub const fn prefer_insert_before(self, anchor: AnchorType) -> bool {
        match anchor {
            AnchorType::Start => !self.expand_before(),
            AnchorType::End => self.expand_after(),
        }
    }

    /// The flag of the mark that takes such a style off.
    pub const fn to_delete(self) -> Self {
        Self::new(self.expand_type().reverse())
    }
}
