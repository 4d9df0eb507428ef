//! The crossing: the library's C interface (`bindings/c/mavelino.h`) with slices in the place of
//! pointers. All unsafe code of the crate is here.

use std::cell::RefCell;

use crate::refusal::{Error, Refusal, Surprise};

/// No saved text is longer.
const TEXT_MOST: usize = 117_930;
/// No more bytes of answers come from one crossing.
const ANSWERS_MOST: usize = 262_144;

/// The numbers that a function answers, beside those of refusals.
const DONE: u64 = 0;
const SCRIPT: u64 = 64;

/// What a report says, by place.
const REPORT: usize = 7;
const LINE: usize = 0;
const TEXT_BYTES: usize = 1;
const ANSWER_BYTES: usize = 2;
const TAKEN: usize = 3;
const APPLIED: usize = 4;
const STOP: usize = 5;
const STOP_LINE: usize = 6;

// SAFETY: the signatures are those of bindings/c/mavelino.h, a size_t being a usize.
unsafe extern "C" {
    fn mavelino_begin(
        settings: *const u8,
        settings_count: usize,
        text: *mut u8,
        text_count: usize,
        report: *mut u64,
    ) -> u64;
    fn mavelino_run(
        text: *const u8,
        text_count: usize,
        script: *const u8,
        script_count: usize,
        next: *mut u8,
        next_count: usize,
        answers: *mut u8,
        answers_count: usize,
        report: *mut u64,
    ) -> u64;
    fn mavelino_feed(
        text: *const u8,
        text_count: usize,
        log: *const u8,
        log_count: usize,
        next: *mut u8,
        next_count: usize,
        report: *mut u64,
    ) -> u64;
}

/// What is lent to the library for what it writes: one for each thread, since a map is asked through
/// a shared reference.
struct Room {
    text: Vec<u8>,
    answers: Vec<u8>,
}

thread_local! {
    static ROOM: RefCell<Room> =
        RefCell::new(Room { text: vec![0; TEXT_MOST], answers: vec![0; ANSWERS_MOST] });
}

/// What a piece of a log came to.
#[derive(Clone, Copy, Debug)]
pub(crate) struct Fed {
    pub(crate) taken: usize,
    pub(crate) applied: u64,
    /// The refusal and its line in the bytes that were handed over.
    pub(crate) stopped: Option<(Refusal, u64)>,
}

/// The saved text of fresh tanks with the settings of a text.
pub(crate) fn begin(settings: &[u8]) -> Result<Vec<u8>, Error> {
    ROOM.with_borrow_mut(|room| {
        let mut report = [0; REPORT];
        // SAFETY: each pointer comes with the count of its own slice, the slices are three different
        // ones, two of them borrowed mutably here alone, and `report` has the seven places that the
        // header asks for. The library keeps no pointer.
        let number = unsafe {
            mavelino_begin(
                settings.as_ptr(),
                settings.len(),
                room.text.as_mut_ptr(),
                room.text.len(),
                report.as_mut_ptr(),
            )
        };
        judge(number, &report)?;
        Ok(front(&room.text, report[TEXT_BYTES])?.to_vec())
    })
}

/// The next text and the answers of a script, as `then` takes them.
pub(crate) fn run<T>(
    text: &[u8],
    script: &[u8],
    then: impl FnOnce(&[u8], &[u8]) -> Result<T, Error>,
) -> Result<T, Error> {
    ROOM.with_borrow_mut(|room| {
        let mut report = [0; REPORT];
        // SAFETY: as in `begin`; of the five slices `room.text`, `room.answers` and `report` are
        // borrowed mutably here alone, and `text` and `script` can't overlap them.
        let number = unsafe {
            mavelino_run(
                text.as_ptr(),
                text.len(),
                script.as_ptr(),
                script.len(),
                room.text.as_mut_ptr(),
                room.text.len(),
                room.answers.as_mut_ptr(),
                room.answers.len(),
                report.as_mut_ptr(),
            )
        };
        judge(number, &report)?;
        let next = front(&room.text, report[TEXT_BYTES])?;
        then(next, front(&room.answers, report[ANSWER_BYTES])?)
    })
}

/// The next text, and what the piece of a log came to.
pub(crate) fn feed(text: &[u8], log: &[u8]) -> Result<(Vec<u8>, Fed), Error> {
    ROOM.with_borrow_mut(|room| {
        let mut report = [0; REPORT];
        // SAFETY: as in `begin`; of the four slices `room.text` and `report` are borrowed mutably
        // here alone, and `text` and `log` can't overlap them.
        let number = unsafe {
            mavelino_feed(
                text.as_ptr(),
                text.len(),
                log.as_ptr(),
                log.len(),
                room.text.as_mut_ptr(),
                room.text.len(),
                report.as_mut_ptr(),
            )
        };
        judge(number, &report)?;
        let next = front(&room.text, report[TEXT_BYTES])?.to_vec();
        let taken = front(log, report[TAKEN])?.len();
        let stopped = match report[STOP] {
            DONE => None,
            number => {
                let refusal = Refusal::of(number).ok_or_else(|| unknown(number))?;
                Some((refusal, report[STOP_LINE]))
            }
        };
        Ok((next, Fed { taken, applied: report[APPLIED], stopped }))
    })
}

/// A number in the place of an answer.
fn judge(number: u64, report: &[u64; REPORT]) -> Result<(), Error> {
    let line = report[LINE];
    match (number, Refusal::of(number)) {
        (DONE, _) => Ok(()),
        (_, Some(Refusal::LittleRoom)) => Err(Error::TooMuch),
        (_, Some(refusal @ (Refusal::BadSettings | Refusal::BadLine))) => {
            Err(Error::RefusedAt(refusal, line))
        }
        (_, Some(refusal)) => Err(Error::Refused(refusal)),
        (SCRIPT, None) => {
            let came = format!("that its line {line} is wrong");
            Err(Surprise { expected: "a script of this crate's".into(), came }.into())
        }
        (_, None) => Err(unknown(number)),
    }
}

fn unknown(number: u64) -> Error {
    Surprise { expected: "a number that the header has".into(), came: number.to_string() }.into()
}

/// So many bytes of what was lent.
fn front(bytes: &[u8], count: u64) -> Result<&[u8], Error> {
    let count = usize::try_from(count).ok();
    count.and_then(|count| bytes.get(..count)).ok_or_else(|| {
        let expected = format!("at most {} bytes", bytes.len());
        Surprise { expected, came: "that it wrote or took more".into() }.into()
    })
}

#[cfg(test)]
mod tests {
    use super::*;

    /// The numbers here are those of the header.
    #[test]
    fn numbers_are_the_headers() {
        let header = include_str!("../../c/mavelino.h");
        let said = |name: &str| {
            let line = header.lines().find_map(|line| {
                line.strip_prefix("#define MAVELINO_")?.strip_prefix(name)?.strip_prefix(' ')
            });
            let word = line.and_then(|rest| rest.split_whitespace().next());
            word.and_then(|word| word.trim_end_matches('u').parse::<u64>().ok())
        };
        for (name, number) in [
            ("TEXT_MOST", TEXT_MOST as u64),
            ("ANSWERS_MOST", ANSWERS_MOST as u64),
            ("DONE", DONE),
            ("ROOM", Refusal::LittleRoom.number()),
            ("SETTINGS", Refusal::BadSettings.number()),
            ("TEXT", Refusal::BadLine.number()),
            ("SHARES", Refusal::BrokenRule.number()),
            ("SCRIPT", SCRIPT),
            ("REPORT", REPORT as u64),
            ("LINE", LINE as u64),
            ("TEXT_BYTES", TEXT_BYTES as u64),
            ("ANSWER_BYTES", ANSWER_BYTES as u64),
            ("TAKEN", TAKEN as u64),
            ("APPLIED", APPLIED as u64),
            ("STOP", STOP as u64),
            ("STOP_LINE", STOP_LINE as u64),
        ] {
            assert_eq!(said(name), Some(number), "{name}");
        }
    }

    /// No number and no count that the library could answer makes it panic.
    #[test]
    fn odd_reports_are_errors() {
        let report = [3; REPORT];
        assert_eq!(judge(DONE, &report), Ok(()));
        assert_eq!(judge(2, &report), Err(Error::Refused(Refusal::BrokenRule)));
        assert_eq!(judge(11, &report), Err(Error::TooMuch));
        assert_eq!(judge(13, &report), Err(Error::RefusedAt(Refusal::BadLine, 3)));
        for number in [19, 20, SCRIPT, 65, u64::MAX] {
            assert!(matches!(judge(number, &report), Err(Error::Surprise(_))), "{number}");
        }
        assert_eq!(front(b"abc", 2), Ok(&b"ab"[..]));
        for count in [4, u64::MAX] {
            assert!(matches!(front(b"abc", count), Err(Error::Surprise(_))), "{count}");
        }
    }
}
