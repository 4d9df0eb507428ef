//! Making a script that shows a mismatch small, by dropping calls.

use crate::check::{check, Judge, Mismatch};
use crate::console::{Console, Feed};
use crate::script::Script;

/// Consoles started for one finding, at most.
const TRIES: usize = 1500;

/// The smallest script found that still shows a mismatch, of the console or of the Rust as before.
pub fn shrink(
    console: &Console,
    feed: Feed,
    script: Script,
    found: Mismatch,
) -> (Script, Mismatch) {
    let mut tries = 0;
    let mut fails = |script: &Script| {
        tries += 1;
        let tried = (tries <= TRIES).then(|| check(console, feed, std::slice::from_ref(script)));
        tried.and_then(Result::err).filter(|other| is_rust(other) == is_rust(&found))
    };
    let mut best = (script, found.clone());
    if let Some(other) = fails(&cut(&best.0, &best.1)) {
        best = (cut(&best.0, &best.1), other);
    }
    let mut size = best.0.calls.len();
    while size > 0 {
        let mut at = 0;
        let mut dropped = false;
        while at < best.0.calls.len() {
            let less = without(&best.0, at, size);
            match fails(&less) {
                Some(other) => {
                    best = (cut(&less, &other), other);
                    dropped = true;
                }
                None => at += size,
            }
        }
        if !dropped || size > 1 {
            size /= 2;
        }
    }
    best
}

/// Without what comes after the call that shows it.
fn cut(script: &Script, found: &Mismatch) -> Script {
    let mut less = script.clone();
    if found.call < script.calls.len() {
        less.calls.truncate(found.call + 1);
        less.tail.clear();
    }
    less
}

fn without(script: &Script, at: usize, size: usize) -> Script {
    let mut less = script.clone();
    let end = (at + size).min(less.calls.len());
    less.calls.drain(at..end);
    less
}

fn is_rust(found: &Mismatch) -> bool {
    found.judge == Judge::Rust
}
