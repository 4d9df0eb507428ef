//! Counters spelt in every way around their bounds, in an annotate and in a log.

use crate::call::Call;
use crate::classes::ROOMY;
use crate::mark::{Content, Mark, Value};
use crate::script::Script;

/// What may stand behind `cnt=`.
const SPELT: [&str; 28] = [
    "0",
    "1",
    "-1",
    "10",
    "-10",
    "2147483647",
    "-2147483647",
    "-2147483648",
    "2147483648",
    "-2147483649",
    "4294967295",
    "4294967296",
    "-4294967296",
    "9223372036854775807",
    "-9223372036854775808",
    "18446744073709551616",
    "99999999999999999999999",
    "",
    "-",
    "-0",
    "00",
    "01",
    "-01",
    "+1",
    "--1",
    " 1",
    "1 ",
    "0x1",
];

/// Lines in the place of `cnt=5`: another spelling, none, or another field's.
fn lines() -> impl Iterator<Item = String> {
    let spelt = SPELT.iter().map(|spelt| format!("cnt={spelt}\n"));
    spelt.chain(["", "CNT=5\n", "cnt5\n", "flags=132\n", "cnt=5\ncnt=5\n"].map(String::from))
}

/// An annotate with this line for its counter.
fn annotate(line: &str) -> Vec<u8> {
    let content = Content { cnt: 5, flags: 0x84, value: Value::Bool(true) };
    let mark = Mark { id: (1, 5, 1), content };
    let text = Call::Annotate { tank: 0, start: 1, end: 3, mark }.text();
    String::from_utf8(text).expect("letters that print").replace("cnt=5\n", line).into_bytes()
}

pub fn scripts() -> impl Iterator<Item = Script> {
    let open = Call::Open { settings: ROOMY }.text();
    let asked = [Call::Marks { tank: 0, at: 1 }, Call::Insert { tank: 0, at: 2, len: 1 }];
    let asked = asked.map(|call| call.text()).concat();
    let texts = lines().flat_map(move |line| {
        let log = [Call::Log { body: annotate(&line) }.text(), Call::LogEnd.text()].concat();
        [annotate(&line), log].map(|edit| [open.clone(), edit, asked.clone()].concat())
    });
    texts.zip(0..).map(|(text, seed)| Script::of_text("counters", seed, &text))
}
