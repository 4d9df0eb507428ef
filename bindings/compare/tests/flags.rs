//! The crate's flag bytes and expand types are the original's, all of them.

use mavelino::{AnchorType, ExpandType, TextStyleInfoFlag};

const TYPES: [(ExpandType, original::ExpandType); 4] = [
    (ExpandType::Before, original::ExpandType::Before),
    (ExpandType::After, original::ExpandType::After),
    (ExpandType::Both, original::ExpandType::Both),
    (ExpandType::None, original::ExpandType::None),
];

fn ours(theirs: original::ExpandType) -> ExpandType {
    TYPES.iter().find(|pair| pair.1 == theirs).expect("one of four").0
}

#[test]
fn every_byte() {
    for byte in 0..=u8::MAX {
        let (flag, theirs) =
            (TextStyleInfoFlag::from_byte(byte), original::TextStyleInfoFlag::from_byte(byte));
        assert_eq!(flag.to_byte(), theirs.to_byte());
        assert_eq!(flag.expand_before(), theirs.expand_before());
        assert_eq!(flag.expand_after(), theirs.expand_after());
        assert_eq!(flag.expand_type(), ours(theirs.expand_type()));
        assert_eq!(flag.to_delete().to_byte(), theirs.to_delete().to_byte());
        let sides = [
            (AnchorType::Start, original::AnchorType::Start),
            (AnchorType::End, original::AnchorType::End),
        ];
        for (side, other) in sides {
            assert_eq!(flag.prefer_insert_before(side), theirs.prefer_insert_before(other));
        }
    }
}

#[test]
fn every_type_and_constant() {
    for (kind, theirs) in TYPES {
        assert_eq!(kind.expand_before(), theirs.expand_before());
        assert_eq!(kind.expand_after(), theirs.expand_after());
        assert_eq!(kind.reverse(), ours(theirs.reverse()));
        let byte = original::TextStyleInfoFlag::new(theirs).to_byte();
        assert_eq!(TextStyleInfoFlag::new(kind).to_byte(), byte);
    }
    for word in ["before", "after", "both", "none", "", "None", "after "] {
        assert_eq!(
            ExpandType::try_from_str(word),
            original::ExpandType::try_from_str(word).map(ours)
        );
    }
    let (bold, link, comment) = (
        original::TextStyleInfoFlag::BOLD,
        original::TextStyleInfoFlag::LINK,
        original::TextStyleInfoFlag::COMMENT,
    );
    assert_eq!(TextStyleInfoFlag::BOLD.to_byte(), bold.to_byte());
    assert_eq!(TextStyleInfoFlag::LINK.to_byte(), link.to_byte());
    assert_eq!(TextStyleInfoFlag::COMMENT.to_byte(), comment.to_byte());
}
