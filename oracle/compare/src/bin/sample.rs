//! Writes the fixed sample of calls and answers that can be replayed where no Rust is at hand.
//!
//!     sample FOLDER
//!
//! The same program writes the same files on every machine. An answer inside the oracle domain is
//! the Rust's own, held against the model's; any other is the model's.

use std::fs;
use std::path::Path;
use std::process::ExitCode;

use compare::call::Call;
use compare::cases;
use compare::check::answers;
use compare::classes::CLASSES;
use compare::refusals::refusals;
use compare::script::Script;
use compare::settings::text_of;
use compare::tally::Tally;

/// How many scripts of each class stand in the sample, and how many calls each has.
const SHARE: [(&str, u64, usize); 13] = [
    ("inside", 5, 150),
    ("dense", 4, 120),
    ("short", 3, 120),
    ("ends", 4, 60),
    ("pool", 1, 60),
    ("marks", 1, 60),
    ("runs", 1, 30),
    ("many", 1, 30),
    ("wild", 1, 160),
    ("plans", 2, 150),
    ("strips", 1, 200),
    ("parties", 2, 75),
    ("saved", 2, 40),
];

/// The seed of the first script of each class.
const SEED: u64 = 20;

fn main() -> ExitCode {
    let Some(folder) = std::env::args().nth(1).filter(|word| !word.starts_with('-')) else {
        eprintln!("sample FOLDER");
        return ExitCode::from(2);
    };
    let folder = Path::new(&folder);
    let mut tally = Tally::default();
    write(folder, "sample", &sample(), &mut tally);
    println!("{tally}");
    let missing = tally.missing(&wanted());
    if !missing.is_empty() {
        eprintln!("the sample lacks {missing:?}");
        return ExitCode::FAILURE;
    }
    write(folder, "malformed", &malformed(), &mut Tally::default());
    ExitCode::SUCCESS
}

fn sample() -> Script {
    let mut calls = cases::cases();
    calls.extend(refusals());
    for (name, scripts, length) in SHARE {
        let class = CLASSES.iter().find(|class| class.name == name).expect("a class");
        for seed in SEED..SEED + scripts {
            calls.extend(class.script(seed, length).calls);
        }
    }
    Script { class: "sample", seed: SEED, calls, tail: Vec::new() }
}

/// A short script of which a line in the middle is malformed: what follows it isn't read. The
/// newlines of the body before it count.
fn malformed() -> Script {
    let good = CLASSES[0].script(SEED, 12).text();
    let body = text_of(&[(64, 512); 8]);
    let read = Call::Settings { body }.text();
    let spoilt = b"op=length\ntank=00\n".to_vec();
    Script::of_text("malformed", SEED, &[good.clone(), read, spoilt, good].concat())
}

fn write(folder: &Path, name: &str, script: &Script, tally: &mut Tally) {
    let expected = answers(0, script, tally).unwrap_or_else(|found| panic!("{found:?}"));
    let mut output = Vec::new();
    for entry in &expected {
        output.extend(&entry.answer);
        tally.count(entry.kind.clone(), entry.rust);
    }
    tally.scripts += 1;
    output.extend(script.ending().bytes());
    fs::create_dir_all(folder).expect("a folder to write to");
    fs::write(folder.join(format!("{name}.calls")), script.text()).expect("the calls");
    fs::write(folder.join(format!("{name}.answers")), output).expect("the answers");
}

/// What has to stand in the sample: each refusal, and each kind of answer to each call.
fn wanted() -> Vec<&'static str> {
    vec![
        "refused 1",
        "refused 2",
        "refused 3",
        "refused 4",
        "refused 5",
        "refused 6",
        "refused 7",
        "refused 8",
        "refused 9",
        "refused 10",
        "refused 11",
        "refused 12",
        "refused 13",
        "refused 14",
        "refused 15",
        "refused 16",
        "refused 17",
        "refused 18",
        "open: accepted",
        "annotate: accepted",
        "delete: accepted",
        "insert: a set",
        "remove: a number",
        "length: a number",
        "touched: a number",
        "runs: a number",
        "value: a value",
        "value: none",
        "has_key: yes",
        "has_key: no",
        "all_value: yes",
        "all_value: no",
        "same: a set",
        "same: none",
        "marks: a set",
        "mark: a mark",
        "mark: none",
        "inherit: a set",
        "inherited: a mark",
        "inherited: none",
        "stretches: a list",
        "stretches_needed: a number",
        "whole: a list",
        "whole_needed: a number",
        "anchors: a list",
        "find: a stretch",
        "age: a number",
        "settings: a number",
        "set: pairs",
        "set: none",
        "open_set: accepted",
        "open_set: none",
        "log: a report",
        "log: a stop by 3",
        "log: a stop by 13",
        "log_end: a report",
        "log_end: a stop by 3",
        "range: a number",
        "plan: accepted",
        "propose: a plan",
        "propose: none",
        "legend: accepted",
        "strip: a strip",
        "party: accepted",
        "save: a text",
        "save_needed: a number",
        "restore: accepted",
    ]
}
