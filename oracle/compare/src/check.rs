//! Comparing a console's answers to scripts with the model's and the Rust's.

use std::fmt;

use crate::answer::Answer;
use crate::call::Call;
use crate::console::{Console, Feed};
use crate::mirror::{Mirror, Said};
use crate::script::Script;
use crate::tally::Tally;
use crate::tanks::Tanks;

/// A call whose answer is not the expected one.
#[derive(Clone, Debug)]
pub struct Mismatch {
    /// The script among those checked, and the call in it; past the last call: what follows them.
    pub script: usize,
    pub call: usize,
    pub judge: Judge,
    pub expected: String,
    pub got: String,
}

#[derive(Clone, Copy, Debug, PartialEq, Eq)]
pub enum Judge {
    /// The console and the model part, and the Rust isn't asked.
    Model,
    /// The console parts from the model and the Rust, which agree.
    Both,
    /// The model and the Rust part inside the oracle domain.
    Rust,
}

impl fmt::Display for Judge {
    fn fmt(&self, f: &mut fmt::Formatter<'_>) -> fmt::Result {
        f.write_str(match self {
            Judge::Model => "the console parts from the model",
            Judge::Both => "the console parts from the model and the Rust",
            Judge::Rust => "the Rust parts from the model",
        })
    }
}

/// What one call should be answered, and whether the Rust said so too.
pub struct Expected {
    pub kind: String,
    pub answer: Vec<u8>,
    pub rust: bool,
}

/// Runs scripts in one console, in a row, and compares every answer.
pub fn check(console: &Console, feed: Feed, scripts: &[Script]) -> Result<Tally, Mismatch> {
    let mut tally = Tally::default();
    let mut expected = Vec::new();
    for (place, script) in scripts.iter().enumerate() {
        expected.push(answers(place, script, &mut tally)?);
    }
    let input = scripts.iter().flat_map(Script::text).collect();
    let (output, reason) = match console.run(input, feed) {
        Ok(output) => (output, None),
        Err(reason) => (Vec::new(), Some(reason)),
    };
    let mut rest = &output[..];
    for (place, (script, entries)) in scripts.iter().zip(&expected).enumerate() {
        rest = follow(script, entries, rest).map_err(|found| {
            let got = reason.as_ref().map_or(found.got, |reason| format!("no output: {reason}\n"));
            Mismatch { script: place, got, ..found }
        })?;
        entries.iter().for_each(|entry| tally.count(entry.kind.clone(), entry.rust));
        if !script.ending().is_empty() {
            tally.count("malformed".into(), false);
        }
        tally.scripts += 1;
    }
    let too_much = (!rest.is_empty()).then(|| shown(rest, ""));
    match reason.or(too_much) {
        Some(got) => {
            let (script, call) = (scripts.len() - 1, scripts[scripts.len() - 1].calls.len());
            Err(Mismatch { script, call, judge: Judge::Model, expected: String::new(), got })
        }
        None => Ok(tally),
    }
}

/// Compares the front of an output with the answers to a script; gives back what follows them.
fn follow<'a>(
    script: &Script,
    entries: &[Expected],
    output: &'a [u8],
) -> Result<&'a [u8], Mismatch> {
    let mut rest = output;
    let parts = |call: usize, judge: Judge, expected: &str, rest: &[u8]| Mismatch {
        script: 0,
        call,
        judge,
        expected: expected.into(),
        got: shown(rest, expected),
    };
    for (number, entry) in entries.iter().enumerate() {
        let Some(after) = rest.strip_prefix(&entry.answer[..]) else {
            let judge = if entry.rust { Judge::Both } else { Judge::Model };
            // A stretch or a range too many belongs to the list before.
            let more = rest.starts_with(b"from=") || rest.starts_with(b"start=");
            let late = more && number > 0;
            let expected = String::from_utf8_lossy(&entry.answer);
            return Err(parts(number - late as usize, judge, &expected, rest));
        };
        rest = after;
    }
    let ending = script.ending();
    let ended = rest.strip_prefix(ending.as_bytes());
    ended.ok_or_else(|| parts(entries.len(), Judge::Model, &ending, rest))
}

/// The expected answers to a script; a mismatch where the model and the Rust part.
pub fn answers(
    place: usize,
    script: &Script,
    tally: &mut Tally,
) -> Result<Vec<Expected>, Mismatch> {
    let mut tanks = Tanks::default();
    let mut mirror = Mirror::new(script.seed % 2 == 1);
    let mut list = Vec::with_capacity(script.calls.len());
    for (number, call) in script.calls.iter().enumerate() {
        let before = is_edit(call).then(|| tanks.clone());
        let answer = tanks.call(call);
        let restored = matches!(call, Call::Restore { .. }) && answer == Answer::Accepted;
        let said = match restored {
            true => mirror.restored(&tanks.tanks),
            false => mirror.call(before.as_ref().unwrap_or(&tanks), call, &answer),
        };
        let parts = |got: String| Mismatch {
            script: place,
            call: number,
            judge: Judge::Rust,
            expected: answer.to_string(),
            got,
        };
        let rust = match said {
            Said::Nothing => false,
            Said::Done => true,
            Said::Answer(theirs) if theirs == answer => true,
            Said::Answer(theirs) => return Err(parts(theirs.to_string())),
            Said::Panic(text) => return Err(parts(format!("panic: {text}\n"))),
        };
        let edited = rust && is_edit(call) && due(&tanks, call, number);
        let changed = call.tank().filter(|_| edited).map(|tank| tank..tank + 1);
        for tank in changed.unwrap_or(if restored { 0..8 } else { 0..0 }) {
            match mirror.agrees(tank as usize, &tanks.tanks[tank as usize]) {
                Some(false) => return Err(parts("another tank afterwards\n".into())),
                Some(true) => tally.states += 1,
                None => {}
            }
        }
        list.push(Expected { kind: kind(call, &answer), answer: answer.bytes(), rust });
    }
    Ok(list)
}

pub fn is_edit(call: &Call) -> bool {
    matches!(
        call,
        Call::Annotate { .. }
            | Call::Insert { .. }
            | Call::Delete { .. }
            | Call::Remove { .. }
            | Call::Age { .. }
            | Call::Plan { .. }
    )
}

/// Whole tanks are held against the Rust's after each edit, large ones after some.
fn due(tanks: &Tanks, call: &Call, number: usize) -> bool {
    let tank = call.tank().expect("an edit names a tank") as usize;
    tanks.tanks[tank].runs() <= 24 || number % 16 == 0
}

fn kind(call: &Call, answer: &Answer) -> String {
    match answer {
        Answer::Refused(_) | Answer::BadLine(_) | Answer::WrongLine(_) => answer.kind(),
        _ => format!("{}: {}", call.name(), answer.kind()),
    }
}

/// As many lines as were expected, and a few more.
fn shown(output: &[u8], expected: &str) -> String {
    let count = expected.lines().count() + 3;
    let text = String::from_utf8_lossy(output);
    let lines: Vec<&str> = text.lines().take(count).collect();
    if lines.is_empty() {
        return "(the output ends here)\n".into();
    }
    lines.join("\n") + "\n"
}
