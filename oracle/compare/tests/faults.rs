//! The comparison finds nothing in the model's own console, and every fault that is put into it.

use std::process::{Command, Output};

use compare::faults::FAULTS;

fn compare(arguments: &[&str]) -> Output {
    Command::new(env!("CARGO_BIN_EXE_compare")).arg("--self").args(arguments).output().unwrap()
}

#[test]
fn no_fault_is_found_where_there_is_none() {
    let output = compare(&["--seeds", "1..3"]);
    assert!(output.status.success(), "{}", String::from_utf8_lossy(&output.stdout));
}

fn is_found(fault: &str, about: &str) {
    let output = compare(&["--break", fault]);
    let text = String::from_utf8_lossy(&output.stdout);
    let found = output.status.code() == Some(1) && text.contains("--- expected");
    assert!(found, "{fault} ({about}) was not noticed: {text}");
}

#[test]
fn every_fault_is_found() {
    let at_once = std::thread::available_parallelism().map_or(1, usize::from);
    std::thread::scope(|scope| {
        for first in 0..at_once {
            let faults = FAULTS.iter().skip(first).step_by(at_once);
            scope.spawn(move || faults.for_each(|(fault, about)| is_found(fault, about)));
        }
    });
}
