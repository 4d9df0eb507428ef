//! Runs the smallest input of each known difference on the model and on the Rust, and prints what
//! both answer. A build with `--release` shows what the Rust does where its arithmetic wraps, a
//! build without it where it stops.

use compare::call::Call;
use compare::classes::ROOMY;
use compare::mark::{Content, Id, Mark, Value};
use compare::mirror::{hush, quietly};
use compare::tank::{LONGEST, T};
use compare::tanks::Tanks;
use original::{join_neighbours, ExpandType, LoroValue, StyleConfig, StyleConfigMap, Tank};

const A: Id = (1, 5, 1);
const C: Id = (2, 3, 1);
const END: usize = T as usize;

fn main() {
    hush();
    removal();
    edges();
    lengths();
    emptied();
    sets();
    anchors();
    contents();
    config();
}

/// The rules' answer to the last of some calls on a fresh tank, in one line.
fn rules(calls: &[Call]) -> String {
    let mut tanks = Tanks::default();
    tanks.call(&Call::Open { settings: ROOMY });
    let answers: Vec<String> = calls.iter().map(|call| tanks.call(call).to_string()).collect();
    answers.last().expect("a call").trim_end().replace('\n', " ")
}

fn rust<A: std::fmt::Debug>(ask: impl FnOnce(&mut Tank) -> A) -> String {
    let mut tank = Tank::new();
    match quietly(|| ask(&mut tank)) {
        Ok(answer) => format!("{answer:?}"),
        Err(text) => format!("panic: {text}"),
    }
}

fn show(name: &str, rules: String, rust: String) {
    println!("{name}\n    rules: {rules}\n    Rust:  {rust}");
}

fn our_mark(id: Id) -> Mark {
    Mark { id, content: Content { cnt: 0, flags: 0x84, value: Value::Bool(true) } }
}

fn mark(id: Id) -> original::Mark {
    original::Mark { id, cnt: 0, flags: 0x84, value: LoroValue::Bool(true) }
}

fn annotate(start: u64, end: u64, id: Id) -> Call {
    Call::Annotate { tank: 0, start, end, mark: our_mark(id) }
}

const WHOLE: Call = Call::Whole { tank: 0, room: 1536 };

fn whole(tank: &Tank) -> Vec<(std::ops::Range<usize>, Vec<Id>)> {
    let ids = |stretch: original::Stretch| stretch.marks.iter().map(|mark| mark.id).collect();
    tank.iter().into_iter().map(|stretch| (stretch.range.clone(), ids(stretch))).collect()
}

fn removal() {
    let remove = |last| Call::Remove { tank: 0, id: A, last };
    for last in [14, 19, 5] {
        show(
            &format!("A on 10..20, remove from {last}: the answer"),
            rules(&[annotate(10, 20, A), remove(last)]),
            rust(|tank| {
                tank.annotate(10..20, &mark(A));
                tank.remove(A, last as usize)
            }),
        );
        show(
            &format!("A on 10..20, remove from {last}: what is left"),
            rules(&[annotate(10, 20, A), remove(last), WHOLE]),
            rust(|tank| {
                tank.annotate(10..20, &mark(A));
                let _ = quietly(|| tank.remove(A, last as usize));
                whole(tank)
            }),
        );
    }
    show("fresh tank, remove from 5", rules(&[remove(5)]), rust(|tank| tank.remove(A, 5)));
    show("fresh tank, remove from T", rules(&[remove(T)]), rust(|tank| tank.remove(A, END)));
}

fn edges() {
    let touched = Call::Touched { tank: 0 };
    show("annotate 5..5", rules(&[annotate(5, 5, A)]), rust(|tank| tank.annotate(5..5, &mark(A))));
    show(
        "annotate 5..5, then touched",
        rules(&[annotate(5, 5, A), touched]),
        rust(|tank| {
            tank.annotate(5..5, &mark(A));
            tank.has_style()
        }),
    );
    show(
        "annotate T-1..T+5 (list)",
        rules(&[annotate(T - 1, T + 5, A)]),
        rust(|tank| {
            tank.annotate(END - 1..END + 5, &mark(A));
            whole(tank)
        }),
    );
    let key = Call::HasKey { tank: 0, start: T - 1, end: T + 5, key: 1 };
    show(
        "A on T-1..T, key 1 in T-1..T+5 (list)",
        rules(&[annotate(T - 1, T, A), key]),
        rust(|tank| {
            tank.annotate(END - 1..END, &mark(A));
            tank.has_key(END - 1..END + 5, 1)
        }),
    );
    let value = Value::Bool(true);
    let all = Call::AllValue { tank: 0, start: T - 1, end: T + 5, key: 1, value };
    show(
        "A on T-1..T, does T-1..T+5 show its value (list)",
        rules(&[annotate(T - 1, T, A), all]),
        rust(|tank| {
            tank.annotate(END - 1..END, &mark(A));
            tank.has_key_value(END - 1..END + 5, 1, &LoroValue::Bool(true))
        }),
    );
    let same = Call::Same { tank: 0, start: 0, end: 0 };
    show(
        "A on 0..5, same marks in 0..0",
        rules(&[annotate(0, 5, A), same]),
        rust(|tank| {
            tank.annotate(0..5, &mark(A));
            tank.styles_of_range(0..0).map(|marks| marks.len())
        }),
    );
    let inherit = Call::Inherit { tank: 0, at: T };
    show(
        "A on 0..5, inherited at the length",
        rules(&[annotate(0, 5, A), inherit]),
        rust(|tank| {
            tank.annotate(0..5, &mark(A));
            tank.styles_for_insert(END).len()
        }),
    );
}

fn lengths() {
    let insert = |at, len| Call::Insert { tank: 0, at, len };
    let length = Call::Length { tank: 0 };
    let marked = |tank: &mut Tank| tank.annotate(0..5, &mark(A));
    show(
        "A on 0..5, insert T+1, len 1: the length (list)",
        rules(&[annotate(0, 5, A), insert(T + 1, 1)]),
        rust(|tank| {
            marked(tank);
            tank.insert(END + 1, 1);
            tank.length()
        }),
    );
    show(
        "A on 0..5, insert 0, len 0: elements (list)",
        rules(&[annotate(0, 5, A), insert(0, 0)]),
        rust(|tank| {
            marked(tank);
            tank.insert(0, 0);
            tank.elements().len()
        }),
    );
    show(
        "A on 0..5, insert 3, len 2^63 - T: the length as the Rust counts it",
        rules(&[annotate(0, 5, A), insert(3, LONGEST - T + 1)]),
        rust(|tank| {
            marked(tank);
            tank.insert(3, (LONGEST - T + 1) as usize);
            tank.length() as isize
        }),
    );
    let delete = |start, end| Call::Delete { tank: 0, start, end };
    show(
        "A on 0..5, delete 1..1",
        rules(&[annotate(0, 5, A), delete(1, 1)]),
        rust(|tank| {
            marked(tank);
            tank.delete(1..1);
        }),
    );
    show(
        "A on 0..5, delete 9..T+5: the length (list)",
        rules(&[annotate(0, 5, A), delete(9, T + 5), length]),
        rust(|tank| {
            marked(tank);
            tank.delete(9..END + 5);
            tank.length() as isize
        }),
    );
    show(
        "fresh tank, delete 0..T+5",
        rules(&[delete(0, T + 5)]),
        rust(|tank| tank.delete(0..END + 5)),
    );
}

fn emptied() {
    let calls = [annotate(0, 5, A), Call::Delete { tank: 0, start: 0, end: T }];
    let empty = |tank: &mut Tank| {
        tank.annotate(0..5, &mark(A));
        tank.delete(0..END);
    };
    let after = |call: Call| rules(&[calls[0].clone(), calls[1].clone(), call]);
    show(
        "emptied tank: length (list)",
        after(Call::Length { tank: 0 }),
        rust(|tank| {
            empty(tank);
            tank.length()
        }),
    );
    show(
        "emptied tank: key 1 in 0..1 (list)",
        after(Call::HasKey { tank: 0, start: 0, end: 1, key: 1 }),
        rust(|tank| {
            empty(tank);
            tank.has_key(0..1, 1)
        }),
    );
    show(
        "emptied tank: annotate 0..1 (list)",
        after(annotate(0, 1, A)),
        rust(|tank| {
            empty(tank);
            tank.annotate(0..1, &mark(A));
        }),
    );
    show(
        "emptied tank: remove from 0 (list)",
        after(Call::Remove { tank: 0, id: A, last: 0 }),
        rust(|tank| {
            empty(tank);
            tank.remove(A, 0)
        }),
    );
}

fn sets() {
    let same = Call::Same { tank: 0, start: 0, end: 10 };
    for joined in [false, true] {
        join_neighbours(joined);
        show(
            &format!("A on 0..5 and on 5..10, same marks in 0..10 (list, joined: {joined})"),
            rules(&[annotate(0, 5, A), annotate(5, 10, A), same.clone()]),
            rust(|tank| {
                tank.annotate(0..5, &mark(A));
                tank.annotate(5..10, &mark(A));
                tank.styles_of_range(0..10).map(|marks| marks.len())
            }),
        );
    }
    join_neighbours(false);
    show(
        "A on 0..5 and on 5..10: runs, and elements of the list",
        rules(&[annotate(0, 5, A), annotate(5, 10, A), Call::Runs { tank: 0 }]),
        rust(|tank| {
            tank.annotate(0..5, &mark(A));
            tank.annotate(5..10, &mark(A));
            tank.elements().len()
        }),
    );
}

fn anchors() {
    let list = Call::Anchors { tank: 0, room: 9 };
    show(
        "A and C on 10..20: anchors",
        rules(&[annotate(10, 20, A), annotate(10, 20, C), list.clone()]),
        rust(|tank| {
            tank.annotate(10..20, &mark(A));
            tank.annotate(10..20, &mark(C));
            tank.anchors().len()
        }),
    );
    show(
        "A on 10..20, C on 15..20: anchors",
        rules(&[annotate(10, 20, A), annotate(15, 20, C), list]),
        rust(|tank| {
            tank.annotate(10..20, &mark(A));
            tank.annotate(15..20, &mark(C));
            tank.anchors().len()
        }),
    );
}

fn contents() {
    let other = Mark { id: A, content: Content { cnt: 0, flags: 0x84, value: Value::Bool(false) } };
    let theirs = original::Mark { value: LoroValue::Bool(false), ..mark(A) };
    let second = Call::Annotate { tank: 0, start: 3, end: 9, mark: other };
    show(
        "A true on 0..5, A false on 3..9: values at 4 and at 8",
        rules(&[annotate(0, 5, A), second]),
        rust(|tank| {
            tank.annotate(0..5, &mark(A));
            tank.annotate(3..9, &theirs);
            [4, 8].map(|at| tank.winner(at, 1).map(|mark| mark.value))
        }),
    );
    let counted = Mark { id: A, content: Content { cnt: 1, ..our_mark(A).content } };
    let second = Call::Annotate { tank: 0, start: 3, end: 9, mark: counted };
    show(
        "A with cnt 0 on 0..5, A with cnt 1 on 3..9: counters at 4 and at 8",
        rules(&[annotate(0, 5, A), second]),
        rust(|tank| {
            tank.annotate(0..5, &mark(A));
            tank.annotate(3..9, &original::Mark { cnt: 1, ..mark(A) });
            [4, 8].map(|at| tank.winner(at, 1).map(|mark| mark.cnt))
        }),
    );
    let nan = Content { cnt: 0, flags: 0x84, value: Value::Decimal(f64::NAN.to_bits()) };
    let call = Call::Annotate { tank: 0, start: 0, end: 5, mark: Mark { id: A, content: nan } };
    show(
        "A with a NaN on 0..5: the value at 0",
        rules(&[call]),
        rust(|tank| {
            let value = LoroValue::Double(f64::NAN);
            tank.annotate(0..5, &original::Mark { value, ..mark(A) });
            tank.winner(0, 1).map(|mark| mark.value)
        }),
    );
    let marks = |tank: &mut Tank| {
        for peer in 0..49 {
            tank.annotate(0..5, &mark((1, 5, peer)));
        }
        tank.styles_of_range(0..1).map(|marks| marks.len())
    };
    let calls: Vec<Call> = (0..49).map(|peer| annotate(0, 5, (1, 5, peer))).collect();
    show("49 marks on 0..5: how many there are", rules(&calls), rust(marks));
    let runs: Vec<Call> = (0..256).map(|n| annotate(2 * n, 2 * n + 1, A)).collect();
    let many = |tank: &mut Tank| {
        for n in 0..256 {
            tank.annotate(2 * n..2 * n + 1, &mark(A));
        }
        tank.elements().len()
    };
    show("A on 256 single positions: elements", rules(&runs), rust(many));
}

fn config() {
    let flag = |name: &str| {
        let config = StyleConfigMap::default_rich_text_config();
        config.get_style_flag(&name.into()).map(|flag| flag.to_byte())
    };
    let long = format!("comment:{}", "x".repeat(30));
    show(
        "config: the flag of comment: and 30 bytes more",
        "refusal 19".into(),
        rust(|_| flag(&long)),
    );
    let none = StyleConfig::new().expand(ExpandType::None);
    let insert = |name: &str| {
        let mut config = StyleConfigMap::new();
        config.insert(name.into(), none);
        config.get(&name.into()).map(|found| found.expand)
    };
    show("config: insert a:b", "refusal 19".into(), rust(|_| insert("a:b")));
    show("config: insert 33 bytes", "refusal 19".into(), rust(|_| insert(&"x".repeat(33))));
    let many = || {
        let mut config = StyleConfigMap::new();
        (0..33).for_each(|number: u32| config.insert(number.to_string().into(), none));
        original::entries(&config)
    };
    show("config: a 33rd name", "refusal 19".into(), rust(|_| many()));
}
