//! Settings as a text, and the last sets that were read: change request 1 as a model.

use crate::answer::Answer;
use crate::call::Settings;

/// The largest number that a line may hold, that of the version aside.
const MOST: u64 = 512;
/// So many sets are kept.
const SETS: usize = 4;
/// The last number that a set can have.
const LAST: u64 = u32::MAX as u64;

/// What each line begins with, in order.
fn names() -> impl Iterator<Item = String> {
    let pair = |tank| [format!("share{tank}="), format!("limit{tank}=")];
    std::iter::once("version=".into()).chain((0..8).flat_map(pair))
}

/// The text of eight pairs.
pub fn text_of(settings: &Settings) -> Vec<u8> {
    let numbers = settings.iter().flat_map(|&(share, limit)| [share, limit]);
    let lines = names().zip(std::iter::once(1).chain(numbers));
    lines.flat_map(|(name, number)| format!("{name}{number}\n").into_bytes()).collect()
}

/// The eight pairs of a text, or its first bad line: 18 is what is left over after the last.
pub fn pairs_of(text: &[u8]) -> Result<Settings, u64> {
    let mut rest = text;
    let mut numbers = Vec::new();
    for (line, name) in (1_u64..).zip(names()) {
        let end = rest.iter().position(|&byte| byte == b'\n').ok_or(line)?;
        let most = if line == 1 { 1 } else { MOST };
        numbers.push(number(&rest[..end], &name, most).ok_or(line)?);
        rest = &rest[end + 1..];
    }
    if !rest.is_empty() {
        return Err(18);
    }
    Ok(std::array::from_fn(|tank| (numbers[2 * tank + 1], numbers[2 * tank + 2])))
}

/// A number from 1 on that is spelt as it would be written.
fn number(line: &[u8], name: &str, most: u64) -> Option<u64> {
    let text = std::str::from_utf8(line).ok()?.strip_prefix(name)?;
    let number: u64 = text.parse().ok()?;
    (number.to_string() == text && 1 <= number && number <= most).then_some(number)
}

/// The sets that are kept, the newest first, and the newest one's number.
#[derive(Clone, Debug, Default, PartialEq)]
pub struct Kept {
    pub number: u64,
    pub sets: Vec<Settings>,
}

impl Kept {
    /// A good text takes the next number, as long as there is one.
    pub fn take(&mut self, read: Result<Settings, u64>) -> Answer {
        match read {
            Err(line) => Answer::BadLine(line),
            Ok(_) if self.number >= LAST => Answer::BadLine(0),
            Ok(settings) => {
                self.number += 1;
                self.sets.insert(0, settings);
                self.sets.truncate(SETS);
                Answer::Set(self.number)
            }
        }
    }

    /// Set number n, if it is kept.
    pub fn set(&self, number: u64) -> Option<Settings> {
        if number == 0 {
            return None;
        }
        let back = self.number.checked_sub(number)?;
        self.sets.get(usize::try_from(back).ok()?).copied()
    }
}

#[cfg(test)]
mod tests {
    use super::*;

    const PAIRS: Settings =
        [(1, 512), (512, 1), (64, 64), (10, 99), (100, 9), (7, 8), (9, 10), (1, 1)];

    #[test]
    fn a_text_is_read_as_it_was_written() {
        let text = text_of(&PAIRS);
        assert!(text.starts_with(b"version=1\nshare0=1\nlimit0=512\nshare1=512\nlimit1=1\n"));
        assert!(text.ends_with(b"share7=1\nlimit7=1\n"));
        assert_eq!(text.iter().filter(|&&byte| byte == b'\n').count(), 17);
        assert_eq!(pairs_of(&text), Ok(PAIRS));
    }

    #[test]
    fn a_text_that_is_cut_off_is_bad_where_it_ends() {
        let text = text_of(&PAIRS);
        for end in 0..text.len() {
            let newlines = text[..end].iter().filter(|&&byte| byte == b'\n').count() as u64;
            assert_eq!(pairs_of(&text[..end]), Err(newlines + 1));
        }
    }

    #[test]
    fn the_last_four_are_kept() {
        let mut kept = Kept::default();
        let set = |number: u64| [(number, number); 8];
        for number in 1..=6 {
            assert_eq!(kept.take(Ok(set(number))), Answer::Set(number));
            assert_eq!(kept.take(Err(3)), Answer::BadLine(3));
        }
        let told: Vec<_> = (0..9).map(|number| kept.set(number)).collect();
        let old = [None; 3].into_iter();
        let new = (3..=6).map(|number| Some(set(number)));
        assert_eq!(told, old.chain(new).chain([None; 2]).collect::<Vec<_>>());
    }

    #[test]
    fn past_the_last_number_good_text_is_refused() {
        let mut kept = Kept { number: LAST - 1, sets: vec![PAIRS; 4] };
        assert_eq!(kept.take(Ok([(1, 1); 8])), Answer::Set(LAST));
        let full = kept.clone();
        assert_eq!(kept.take(Ok(PAIRS)), Answer::BadLine(0));
        assert_eq!(kept.take(Err(18)), Answer::BadLine(18));
        assert_eq!(kept, full);
    }
}
