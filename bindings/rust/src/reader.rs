//! The lines of the answers, read strictly: every name, every digit and every end is tested, and
//! what is not as the protocol says is a [`Surprise`].

use std::ops::Range;

use crate::answer::{Aged, Anchor, Answer, CELLS, Extent, Stretch};
use crate::batch::{Kind, LEGEND};
use crate::flags::AnchorType;
use crate::mark::{Identity, Mark, Value};
use crate::refusal::{Refusal, Surprise};

type Read<T> = Result<T, Surprise>;

/// What is left to read.
pub(crate) struct Reader<'a> {
    rest: &'a [u8],
}

impl<'a> Reader<'a> {
    pub(crate) fn new(bytes: &'a [u8]) -> Self {
        Self { rest: bytes }
    }

    /// The answers to calls of these kinds, and nothing behind them.
    pub(crate) fn answers(mut self, kinds: &[Kind]) -> Read<Vec<Answer>> {
        let list = kinds.iter().map(|&kind| self.answer(kind)).collect::<Read<_>>()?;
        match self.rest {
            [] => Ok(list),
            _ => Err(self.astray("no more".into())),
        }
    }

    fn astray(&self, expected: String) -> Surprise {
        let line = self.rest.split(|&byte| byte == b'\n').next().unwrap_or_default();
        let shown = &line[..line.len().min(64)];
        let came = match self.rest {
            [] => "nothing more".into(),
            _ => format!("the line '{}'", shown.escape_ascii()),
        };
        Surprise { expected, came }
    }

    /// Whether the next line has this name.
    fn at(&self, name: &str) -> bool {
        let after = self.rest.strip_prefix(name.as_bytes());
        after.is_some_and(|rest| rest.first() == Some(&b'='))
    }

    /// What stands in the next line behind its name, as `of` reads it.
    fn line<T>(&mut self, name: &str, what: &str, of: impl Fn(&[u8]) -> Option<T>) -> Read<T> {
        let value = if self.at(name) { &self.rest[name.len() + 1..] } else { &[][..] };
        let read = value.iter().position(|&byte| byte == b'\n').and_then(|end| {
            let value = of(&value[..end])?;
            Some((value, name.len() + 1 + end + 1))
        });
        match read {
            Some((value, taken)) => {
                self.rest = &self.rest[taken..];
                Ok(value)
            }
            None => Err(self.astray(format!("{name}= and {what}"))),
        }
    }

    fn number(&mut self, name: &str, most: u64) -> Read<u64> {
        self.line(name, "a number", |text| decimal(text).filter(|&number| number <= most))
    }

    fn any(&mut self, name: &str) -> Read<u64> {
        self.number(name, u64::MAX)
    }

    fn yes(&mut self, name: &str) -> Read<bool> {
        self.number(name, 1).map(|number| number == 1)
    }

    fn one(&mut self, name: &str) -> Read<()> {
        self.line(name, "1", |text| (text == b"1").then_some(()))
    }

    fn refusal(&mut self) -> Read<Refusal> {
        self.line("refused", "the number of a refusal", |text| Refusal::of(decimal(text)?))
    }

    /// As many as a line says.
    fn counted<T>(
        &mut self,
        name: &str,
        most: u64,
        each: fn(&mut Self) -> Read<T>,
    ) -> Read<Vec<T>> {
        let count = self.number(name, most)?;
        (0..count).map(|_| each(self)).collect()
    }

    fn identity(&mut self) -> Read<Identity> {
        let key = self.number("key", u16::MAX.into())? as u16;
        let lamport = self.number("lamport", u32::MAX.into())? as u32;
        Ok(Identity { key, lamport, peer: self.any("peer")? })
    }

    fn value(&mut self) -> Read<Value> {
        let kind = self.line("kind", "a kind", |text| KINDS.iter().position(|k| *k == text))?;
        self.line("value", "a value of its kind", |text| value_of(kind, text))
    }

    /// A value that shows: a winning null is no such answer.
    fn shown(&mut self) -> Read<Value> {
        match self.value()? {
            Value::Null => {
                Err(Surprise { expected: "a value or none".into(), came: "null".into() })
            }
            value => Ok(value),
        }
    }

    fn mark(&mut self) -> Read<Mark> {
        let Identity { key, lamport, peer } = self.identity()?;
        let cnt = self.line("cnt", "a counter", |text| signed(text)?.try_into().ok())?;
        let flags = self.number("flags", u8::MAX.into())? as u8;
        Ok(Mark { key, lamport, peer, cnt, flags, value: self.value()? })
    }

    fn stretch(&mut self) -> Read<Stretch> {
        let (from, to) = (self.any("from")?, self.any("to")?);
        Ok(Stretch { from, to, marks: self.number("marks", MOST_MARKS)? })
    }

    fn stretches(&mut self, tank: u64) -> Read<Vec<Stretch>> {
        self.line("tank", "the tank's number", |text| (decimal(text)? == tank).then_some(()))?;
        let mut list = Vec::new();
        while self.at("from") {
            list.push(self.stretch()?);
        }
        Ok(list)
    }

    fn anchor(&mut self) -> Read<Anchor> {
        let index = self.any("at")?;
        let anchor_type = self.line("side", "start or end", |text| match text {
            b"start" => Some(AnchorType::Start),
            b"end" => Some(AnchorType::End),
            _ => None,
        })?;
        Ok(Anchor { index, anchor_type, identity: self.identity()? })
    }

    fn range(&mut self) -> Read<Range<u64>> {
        Ok(self.any("start")?..self.any("end")?)
    }

    /// The answers to what a call is made of besides: the ranges of a plan, the keys of a legend.
    fn before(&mut self, kind: Kind) -> Read<()> {
        match kind {
            Kind::Plan(ranges) => (1..=ranges).try_for_each(|held| {
                let held = held.min(TOO_LONG) as u64;
                self.line("ranges", "how many are pending", |text| {
                    (decimal(text)? == held).then_some(())
                })
            }),
            Kind::Strip => (0..LEGEND).try_for_each(|_| self.one("accepted")),
            _ => Ok(()),
        }
    }

    /// The answer to a call.
    fn answer(&mut self, kind: Kind) -> Read<Answer> {
        self.before(kind)?;
        if self.at("refused") {
            return self.refusal().map(Answer::Refused);
        }
        if kind.may_be_none() && self.at("none") {
            self.one("none")?;
            return Ok(Answer::None);
        }
        Ok(match kind {
            Kind::Accepted | Kind::Plan(_) => self.one("accepted").map(|()| Answer::Accepted)?,
            Kind::Styles | Kind::Shared => {
                Answer::Styles(self.counted("marks", MOST_MARKS, Self::mark)?)
            }
            Kind::Value => Answer::Value(self.shown()?),
            Kind::Yes => Answer::Yes(self.yes("yes")?),
            Kind::Touched => Answer::Yes(self.yes("touched")?),
            Kind::First => Answer::Number(self.any("first")?),
            Kind::Length => Answer::Number(self.any("length")?),
            Kind::Runs => Answer::Number(self.any("runs")?),
            Kind::Stretches(tank) => Answer::Stretches(self.stretches(tank)?),
            Kind::Anchors => {
                Answer::Anchors(self.counted("anchors", MOST_ANCHORS, Self::anchor)?)
            }
            Kind::Extent => {
                let (first, last) = (self.any("first")?, self.any("last")?);
                Answer::Extent(Extent { first, last })
            }
            Kind::Aged => {
                let (dropped, remaining) = (self.any("dropped")?, self.any("remaining")?);
                Answer::Aged(Aged { dropped, remaining })
            }
            Kind::Proposal => Answer::Plan(self.counted("ranges", 32, Self::range)?),
            Kind::Strip => {
                let cells = |text: &[u8]| <[u8; CELLS]>::try_from(text).ok();
                Answer::Strip(self.line("strip", "96 letters", cells)?)
            }
        })
    }
}

/// So many ranges are too many for a plan, and no more are counted.
const TOO_LONG: usize = 33;

/// A tank has no more marks, and both parties' together no more anchors.
const MOST_MARKS: u64 = 64;
const MOST_ANCHORS: u64 = 32_384;

const KINDS: [&[u8]; 4] = [b"null", b"bool", b"whole", b"decimal"];

fn value_of(kind: usize, text: &[u8]) -> Option<Value> {
    match (kind, text) {
        (0, b"") => Some(Value::Null),
        (1, b"0") => Some(Value::Bool(false)),
        (1, b"1") => Some(Value::Bool(true)),
        (2, text) => signed(text).map(Value::Whole),
        (3, text) => bits(text).map(|bits| Value::Decimal(f64::from_bits(bits))),
        _ => None,
    }
}

/// A decimal of 64 bits without leading zeros.
fn decimal(text: &[u8]) -> Option<u64> {
    let digits = !text.is_empty() && text.iter().all(u8::is_ascii_digit);
    let plain = digits && (text.len() == 1 || text[0] != b'0');
    plain.then(|| std::str::from_utf8(text).ok()?.parse().ok()).flatten()
}

/// A decimal of 64 bits with a minus or nothing in front, and no -0.
fn signed(text: &[u8]) -> Option<i64> {
    match text.strip_prefix(b"-") {
        Some(digits) => match decimal(digits)? {
            0 => None,
            number => 0i64.checked_sub_unsigned(number),
        },
        None => decimal(text)?.try_into().ok(),
    }
}

/// Sixteen lower-case hexadecimal digits.
fn bits(text: &[u8]) -> Option<u64> {
    let plain = text.iter().all(|byte| matches!(byte, b'0'..=b'9' | b'a'..=b'f'));
    (plain && text.len() == 16)
        .then(|| u64::from_str_radix(std::str::from_utf8(text).ok()?, 16).ok())
        .flatten()
}

#[cfg(test)]
mod tests {
    use super::*;

    fn read(kind: Kind, text: &str) -> Read<Answer> {
        Reader::new(text.as_bytes()).answers(&[kind]).map(|mut list| list.remove(0))
    }

    #[test]
    fn numbers_are_plain() {
        assert_eq!(decimal(b"18446744073709551615"), Some(u64::MAX));
        for wrong in
            ["", "00", "01", "+1", "-1", " 1", "1 ", "18446744073709551616", "0x1", "\u{0661}"]
        {
            assert_eq!(decimal(wrong.as_bytes()), None, "{wrong}");
        }
        assert_eq!(signed(b"-9223372036854775808"), Some(i64::MIN));
        assert_eq!(signed(b"9223372036854775807"), Some(i64::MAX));
        for wrong in ["-0", "--1", "-", "9223372036854775808", "-9223372036854775809"] {
            assert_eq!(signed(wrong.as_bytes()), None, "{wrong}");
        }
        assert_eq!(bits(b"3ff0000000000000"), Some(1.0f64.to_bits()));
        for wrong in
            ["3FF0000000000000", "3ff000000000000", "3ff00000000000000", "+3ff000000000000"]
        {
            assert_eq!(bits(wrong.as_bytes()), None, "{wrong}");
        }
    }

    #[test]
    fn answers_are_read() {
        let set = "marks=1\nkey=1\nlamport=5\npeer=2\ncnt=-3\nflags=132\nkind=whole\nvalue=-7\n";
        let mark =
            Mark { key: 1, lamport: 5, peer: 2, cnt: -3, flags: 132, value: Value::Whole(-7) };
        assert_eq!(read(Kind::Styles, set), Ok(Answer::Styles(vec![mark])));
        assert_eq!(read(Kind::Value, "none=1\n"), Ok(Answer::None));
        assert_eq!(read(Kind::Plan(2), "ranges=1\nranges=2\naccepted=1\n"), Ok(Answer::Accepted));
        assert_eq!(read(Kind::Runs, "refused=1\n"), Ok(Answer::Refused(Refusal::NoSuchTank)));
        let list = "tank=3\nfrom=0\nto=5\nmarks=2\n";
        let stretch = Stretch { from: 0, to: 5, marks: 2 };
        assert_eq!(read(Kind::Stretches(3), list), Ok(Answer::Stretches(vec![stretch])));
    }

    /// No text that is not an answer is one, and none makes it panic.
    #[test]
    fn surprises_are_errors() {
        for (kind, wrong) in [
            (Kind::Accepted, ""),
            (Kind::Accepted, "accepted=1"),
            (Kind::Accepted, "accepted=2\n"),
            (Kind::Accepted, "accepted=1\nmore=1\n"),
            (Kind::Accepted, "none=1\n"),
            (Kind::Runs, "refused=0\n"),
            (Kind::Runs, "refused=19\n"),
            (Kind::Runs, "runs=01\n"),
            (Kind::Runs, "runs=18446744073709551616\n"),
            (Kind::Runs, "length=1\n"),
            (Kind::Yes, "yes=2\n"),
            (Kind::Styles, "marks=65\n"),
            (Kind::Styles, "marks=1\n"),
            (Kind::Styles, "none=1\n"),
            (Kind::Value, "kind=null\nvalue=0\n"),
            (Kind::Value, "kind=null\nvalue=\n"),
            (Kind::Value, "kind=bool\nvalue=2\n"),
            (Kind::Value, "kind=other\nvalue=\n"),
            (Kind::Value, "kind=decimal\nvalue=1.5\n"),
            (Kind::Stretches(3), "tank=2\n"),
            (Kind::Stretches(3), "tank=3\nfrom=1\n"),
            (Kind::Anchors, "anchors=32385\n"),
            (Kind::Anchors, "anchors=1\nat=0\nside=left\n"),
            (Kind::Strip, "strip=...\n"),
            (Kind::Plan(1), "accepted=1\n"),
            (Kind::Plan(2), "ranges=1\nranges=1\naccepted=1\n"),
            (Kind::Proposal, "ranges=1\nstart=3\n"),
        ] {
            let surprise = read(kind, wrong).expect_err(wrong);
            assert!(surprise.to_string().starts_with("the library should have answered "));
        }
    }

    /// Every cut of an answer is a surprise.
    #[test]
    fn cut_answers_are_errors() {
        let set = "marks=1\nkey=1\nlamport=5\npeer=2\ncnt=-3\nflags=132\nkind=bool\nvalue=1\n";
        (0..set.len()).for_each(|end| assert!(read(Kind::Styles, &set[..end]).is_err(), "{end}"));
    }
}
