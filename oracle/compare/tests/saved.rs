//! What change request 6 promises of a saved text, seen on the model.

use compare::answer::Answer;
use compare::call::Call;
use compare::classes::CLASSES;
use compare::draft::{cases, Draft};
use compare::mark::{Content, Mark, Party, Value};
use compare::saved::{read, sayable, text_of, Saved, NEWEST};
use compare::tanks::Tanks;

/// The states that the scripts of a class go through, one in seven.
fn states(class: &str, seed: u64, mut seen: impl FnMut(&Tanks)) {
    let class = CLASSES.iter().find(|known| known.name == class).expect("a class");
    let mut tanks = Tanks::default();
    for (call, turn) in class.script(seed, 300).calls.iter().zip(0..) {
        tanks.call(call);
        if turn % 7 == 0 {
            seen(&tanks);
        }
    }
}

/// A text by hand, of two parties' marks that lie across one another.
#[test]
fn a_text_has_these_lines() {
    let mut tanks = Tanks::default();
    let mut settings = [(1, 2); 8];
    settings[0] = (4, 512);
    let mark = |key: u16, cnt: i32, value: Value| Mark {
        id: (key, 5, u64::MAX),
        content: Content { cnt, flags: 0x84, value },
    };
    let annotate = |start, end, mark| Call::Annotate { tank: 0, start, end, mark };
    let calls = [
        Call::Open { settings },
        annotate(2, 5, mark(7, -3, Value::Whole(-1))),
        annotate(4, 6, mark(2, 0, Value::Null)),
        Call::Party { party: Party::Lab },
        annotate(2, 5, mark(1, 9, Value::Decimal(0x3ff0 << 48))),
        Call::Party { party: Party::Plant },
    ];
    assert!(calls.iter().all(|call| tanks.call(call) == Answer::Accepted));
    tanks.call(&Call::Delete { tank: 0, start: 8, end: (1 << 62) - 1 });
    let pairs: String = (1..8).map(|tank| format!("share{tank}=1\nlimit{tank}=2\n")).collect();
    let fresh = "touched=0\nlength=4611686018427387903\nmarks=0\nruns=1\nlen=4611686018427387903\nset=0000000000000000\n";
    let others: String = (1..8).map(|tank| format!("tank={tank}\n{fresh}")).collect();
    let peer = "lamport=5\npeer=18446744073709551615\n";
    let marks = format!(
        "party=plant\nkey=2\n{peer}cnt=0\nflags=132\nkind=null\nvalue=\n\
        party=plant\nkey=7\n{peer}cnt=-3\nflags=132\nkind=whole\nvalue=-1\n\
        party=lab\nkey=1\n{peer}cnt=9\nflags=132\nkind=decimal\nvalue=3ff0000000000000\n"
    );
    let runs = "runs=5\nlen=2\nset=0000000000000000\nlen=2\nset=0000000000000006\nlen=1\n\
        set=0000000000000007\nlen=1\nset=0000000000000001\nlen=2\nset=0000000000000000\n";
    let text = format!(
        "version=3\nshare0=4\nlimit0=512\n{pairs}tank=0\ntouched=1\nlength=8\nmarks=3\n\
        {marks}{runs}{others}"
    );
    assert_eq!(String::from_utf8(tanks.text()).expect("letters that print"), text);
}

/// In each version, of what it can say.
#[test]
fn what_was_written_is_read_back() {
    let mut count = 0;
    for class in ["dense", "short", "ends", "pool", "marks", "parties", "rooms", "saved"] {
        for seed in 0..6 {
            states(class, seed, |state| {
                for version in 1..=NEWEST {
                    let (settings, tanks) = (state.settings, sayable(version, &state.tanks));
                    let text = text_of(version, &settings, &tanks);
                    assert_eq!(read(&text, ""), Ok(Saved { settings, tanks }));
                }
                assert_eq!(sayable(NEWEST, &state.tanks), state.tanks);
                assert_eq!(Draft::of(state).text(), state.text());
                count += 1;
            });
        }
    }
    assert!(count > 2000, "{count} states were read back");
}

/// A text that is taken is the one that is written of what it says.
#[test]
fn one_meaning_has_one_text_within_a_version() {
    let mut taken = [0; 3];
    for case in cases() {
        let Ok(Saved { settings, tanks }) = read(&case.text, "") else { continue };
        let version = (case.text[8] - b'0') as u64;
        assert_eq!(text_of(version, &settings, &tanks), case.text);
        taken[version as usize - 1] += 1;
    }
    assert!(taken.iter().all(|count| *count > 10), "{taken:?} texts were taken");
}
