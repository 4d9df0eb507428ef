//! What a program of the gate printed, beside what the Rust makes of the same calls.

/// The first line that differs, in words.
pub fn first_difference(ours: &str, theirs: &str) -> Option<String> {
    let (ours, theirs): (Vec<_>, Vec<_>) = (ours.lines().collect(), theirs.lines().collect());
    let differs = |line: &usize| ours.get(*line) != theirs.get(*line);
    let line = (0..ours.len().max(theirs.len())).find(differs)?;
    let (ours, theirs) = (ours.get(line), theirs.get(line));
    Some(format!("line {}: ours {ours:?}, the Rust's {theirs:?}", line + 1))
}
