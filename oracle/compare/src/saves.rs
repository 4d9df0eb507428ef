//! Scripts of saved texts: states that are saved and restored, and texts that are damaged.

use crate::answer::Answer;
use crate::author::{Author, Habit};
use crate::call::{Call, Settings, LONGEST_BODY};
use crate::classes::HABIT;
use crate::draft::{cases, crowd, many, rooms, widest, Case, Draft, Said};
use crate::mark::{Content, Id, Mark, Party, Value};
use crate::parties::{LAB, PLANT};
use crate::random::Random;
use crate::saved;
use crate::script::Script;
use crate::settings::text_of;
use crate::tank::{LONGEST, T};

/// A save with all the room that there can be.
const ALL: Call = Call::Save { room: u64::MAX };

fn restore(text: Vec<u8>) -> Call {
    Call::Restore { body: text }
}

fn mark(id: Id, cnt: i32, flags: u8) -> Mark {
    Mark { id, content: Content { cnt, flags, value: Value::Whole(cnt as i64) } }
}

fn owned(party: Party, mark: Mark) -> (Party, Id, Content) {
    (party, mark.id, mark.content)
}

fn annotate(tank: u64, start: u64, end: u64, mark: Mark) -> Call {
    Call::Annotate { tank, start, end, mark }
}

/// Every rule on both sides. What is taken is saved again, and now and then what a refusal left.
fn ruled() -> Vec<Vec<Call>> {
    let tried = |cases: &[Case]| {
        let mut calls = vec![Call::Open { settings: [(2, 9); 8] }];
        calls.push(annotate(0, 3, 5, mark((1, 5, 1), 7, 0x84)));
        for (Case { text, wrong }, number) in cases.iter().zip(0..) {
            let saves = wrong.is_none() || number % 16 == 0;
            calls.extend([restore(text.clone()), if saves { ALL } else { Call::SaveNeeded }]);
        }
        calls
    };
    cases().chunks(40).map(tried).collect()
}

/// Marks of both parties and of every kind, runs, an untouched tank, and emptied ones between them.
fn rich(version: u64) -> Draft {
    let content = |cnt, value| Content { cnt, flags: 0x84, value };
    let marks = [
        (Party::Plant, (1, 5, 1), content(-7, Value::Null)),
        (Party::Plant, (1, 5, 2), content(0, Value::Whole(-5))),
        (Party::Lab, (1, 5, 1), content(12, Value::Decimal(0x3ff8 << 48))),
        (Party::Lab, (9, 0, 0), content(i32::MIN, Value::Bool(true))),
    ];
    let count = if version == 1 { 2 } else { 4 };
    let sets = if version == 1 { [1, 2, 0] } else { [9, 6, 0] };
    let runs = [2, 1, 7].into_iter().zip(sets).collect();
    let marked = Said { touched: 1, length: 10, marks: marks[..count].to_vec(), runs };
    let mut draft = Draft { version, ..Draft::with(0, marked) };
    draft.settings[0] = (4, 6);
    draft.settings[1] = (60, 90);
    draft.tanks[1] = Said { touched: 0, length: T, marks: Vec::new(), runs: vec![(T, 0)] };
    draft.tanks[7] = many(1);
    draft
}

/// What may stand behind a line's name, or in place of a line.
const SPELT: [&str; 26] = [
    "",
    "0",
    "1",
    "2",
    "3",
    "00",
    "01",
    "-0",
    "-1",
    "+1",
    " 1",
    "1 ",
    "1\r",
    "1\0",
    "\u{661}",
    "65536",
    "9223372036854775808",
    "18446744073709551616",
    "plant",
    "lab",
    "null",
    "bool",
    "0000000000000000",
    "000000000000000F",
    "7ff8000000000000",
    "00000000000000001",
];
const LINES: [&str; 5] = ["", "\n", "\r\n", "tank=1\n", "len=1\n"];

/// The text with other bytes in place of one line.
fn with_line(text: &[u8], line: usize, other: &[u8]) -> Vec<u8> {
    let mut lines: Vec<&[u8]> = text.split_inclusive(|&byte| byte == b'\n').collect();
    lines[line] = other;
    lines.concat()
}

/// One line of a text, spelt in many ways, left out, doubled, without its newline.
fn spellings(text: &[u8], line: usize) -> Vec<Vec<u8>> {
    let lines: Vec<&[u8]> = text.split_inclusive(|&byte| byte == b'\n').collect();
    let old = lines[line];
    let name = old.iter().position(|&byte| byte == b'=').expect("a name") + 1;
    let spelt = |other: &str| [&old[..name], other.as_bytes(), b"\n"].concat();
    let capital = [&old[..1].to_ascii_uppercase(), &old[1..]].concat();
    let mut others: Vec<Vec<u8>> = SPELT.iter().map(|other| spelt(other)).collect();
    others.extend(LINES.map(|other| other.as_bytes().to_vec()));
    others.extend([[old, old].concat(), old[..old.len() - 1].to_vec(), capital]);
    others.into_iter().map(|other| with_line(text, line, &other)).collect()
}

/// Every line of a text of each version in every spelling, from a state that is kept or taken.
fn spelt() -> Vec<Vec<Call>> {
    let mut list = Vec::new();
    for version in 1..=saved::NEWEST {
        let text = rich(version).text();
        let lines = text.iter().filter(|&&byte| byte == b'\n').count();
        let last = if version == saved::NEWEST { lines } else { 60 };
        for line in (0..last).filter(|line| version == saved::NEWEST || *line == 0 || *line > 16) {
            let mut author = Author::new(0, HABIT);
            author.open([(2, 9); 8]);
            for text in spellings(&text, line) {
                if author.say(restore(text)) == Answer::Accepted {
                    author.say(ALL);
                }
            }
            author.say(Call::SaveNeeded);
            list.push(author.calls);
        }
    }
    list
}

/// What tells tank 0, down to each of its first positions.
fn questions(positions: u64) -> Vec<Call> {
    let (tank, room) = (0, u64::MAX);
    let mut calls = vec![
        Call::Length { tank },
        Call::Touched { tank },
        Call::Runs { tank },
        Call::Whole { tank, room },
        Call::Anchors { tank, room },
        Call::Strip { tank, start: 0, k: 1, room: 96 },
    ];
    let each = |at| {
        let value = [Call::Value { tank, at, key: 1 }, Call::Find { tank, at }];
        [&value[..], &[Call::Marks { tank, at }, Call::Inherit { tank, at }]].concat()
    };
    calls.extend((0..positions).flat_map(each));
    calls
}

/// Marks with flag bytes that no annotate may carry: they stay, spread, and go as others do.
fn odd_flags(positions: u64) -> Vec<Call> {
    let tank = 0;
    let list = [0x41, 0x82, 0, 0xff].into_iter().zip(1..);
    let marks: Vec<Mark> = list.map(|(flags, peer)| mark((1, 5, peer), 3, flags)).collect();
    let runs = vec![(3, 15), (3, 3), (6, 0)];
    let marked = marks.iter().map(|mark| owned(Party::Plant, *mark)).collect();
    let said = Said { length: 12, runs, ..crowd(marked) };
    let mut calls = vec![restore(Draft::with(0, said).text()), ALL];
    calls.extend(questions(positions));
    for odd in &marks {
        let good = Mark { content: Content { flags: 0x84, ..odd.content }, ..*odd };
        calls.extend([annotate(tank, 1, 8, *odd), annotate(tank, 1, 8, good)]);
    }
    calls.extend([Call::Insert { tank, at: 2, len: 2 }, Call::Insert { tank, at: 5, len: 1 }]);
    calls.extend(questions(positions));
    calls.extend(marks.iter().map(|mark| Call::Remove { tank, id: mark.id, last: 4 }));
    calls.extend([Call::Delete { tank, start: 0, end: 1 }, ALL]);
    calls
}

/// More marks of the plant than an annotate adds: they stay, and neither party has room for one
/// more; with 48 the laboratory's is free again.
fn crowded(plant: u64) -> Vec<Call> {
    let tank = 0;
    let all = rooms(plant, 0);
    let known = |peer: u64| (all.marks[peer as usize].1, all.marks[peer as usize].2);
    let (id, content) = known(3);
    let (repeated, other) = (Mark { id, content }, mark((9, 9, 9), 1, 0x84));
    let runs = vec![(1, all.runs[0].1), (4, 0)];
    let mut draft = Draft::with(0, Said { length: 5, runs, ..all.clone() });
    draft.settings[0] = (90, 512);
    let tried = [annotate(tank, 0, 1, other), annotate(tank, 1, 2, repeated), LAB];
    let tried = [&tried[..], &[annotate(tank, 0, 1, other), PLANT]].concat();
    let mut calls = [vec![restore(draft.text())], tried.clone()].concat();
    for peer in 4..plant.saturating_sub(48).max(1) + 4 {
        calls.push(Call::Remove { tank, id: known(peer).0, last: 0 });
    }
    [calls, tried, vec![Call::Mark { tank, at: 0, rank: 47 }, ALL]].concat()
}

/// Texts of earlier versions: the plant's marks, and counters of 0 that a later annotate meets.
fn earlier() -> Vec<Call> {
    let (zero, real) = (mark((1, 5, 1), 0, 0x84), mark((1, 5, 1), 0, 0x84));
    let real = Mark { content: Content { cnt: 77, ..real.content }, ..real };
    let mut calls = Vec::new();
    for version in 1..=2 {
        let runs = vec![(3, 1), (6, 0)];
        let said = Said { length: 9, runs, ..crowd(vec![owned(Party::Plant, zero)]) };
        calls.push(restore(Draft { version, ..Draft::with(0, said) }.text()));
        calls.extend([annotate(0, 2, 5, real), annotate(0, 2, 5, zero), ALL, LAB]);
        calls.extend([annotate(0, 2, 3, real), Call::Marks { tank: 0, at: 2 }, PLANT]);
        calls.extend([Call::Marks { tank: 0, at: 2 }, ALL]);
    }
    calls
}

/// What a restore leaves as it is, taken or refused: party, legend, pending ranges, log, kept sets.
fn left() -> Vec<Call> {
    let text = rich(3).text();
    let short = text[..text.len() - 1].to_vec();
    let log = annotate(0, 8, 9, mark((2, 5, 1), 4, 0x84)).text();
    let mut calls = vec![Call::Settings { body: text_of(&[(2, 9); 8]) }];
    for text in [text.clone(), short] {
        calls.push(Call::Open { settings: [(2, 9); 8] });
        calls.push(annotate(0, 3, 5, mark((1, 5, 1), 7, 0x84)));
        calls.extend([Call::Legend { place: 0, key: 1, letter: b'w' }, LAB]);
        calls.extend([Call::Range { start: 0, end: 2 }, Call::Log { body: log[..50].to_vec() }]);
        calls.extend([restore(text), ALL, Call::Insert { tank: 0, at: 0, len: 1 }]);
        calls.push(Call::Log { body: log[50..].to_vec() });
        calls.extend([Call::LogEnd, Call::Range { start: 3, end: 4 }, PLANT]);
        calls.extend([Call::Plan { tank: 0, hold: 40, runs: 9 }, ALL]);
        calls.extend([Call::Strip { tank: 0, start: 0, k: 1, room: 96 }]);
        calls.extend((0..3).map(|number| Call::Set { number }));
    }
    calls.extend([Call::Settings { body: text }, Call::Set { number: 2 }]);
    calls.extend([Call::Settings { body: text_of(&[(3, 9); 8]) }, Call::OpenSet { number: 1 }]);
    calls.extend([ALL, Call::Legend { place: 0, key: 0, letter: b'0' }]);
    calls
}

/// The restored settings are in force, and so are touched and the lengths.
fn in_force() -> Vec<Call> {
    let x = mark((1, 5, 1), 7, 0x84);
    let mut draft = Draft::with(0, many(3));
    draft.settings = [(1, 4); 8];
    draft.settings[1] = (500, 512);
    draft.settings[2] = (3, 505);
    let marked = vec![owned(Party::Plant, x)];
    let runs = vec![(4, 1), (LONGEST - 7, 0)];
    draft.tanks[2] = Said { length: LONGEST - 3, runs, ..crowd(marked) };
    draft.tanks[3] = Said { touched: 0, length: T, marks: Vec::new(), runs: vec![(T, 0)] };
    draft.tanks[4] = Said { touched: 1, length: T, marks: Vec::new(), runs: vec![(T, 0)] };
    let single = |tank: u64, n: u64| annotate(tank, 2 * n + 1, 2 * n + 2, x);
    let mut calls = vec![Call::Open { settings: [(64, 64); 8] }, restore(draft.text())];
    calls.extend((0..4).flat_map(|n| [single(2, n + 3), Call::Runs { tank: 2 }]));
    calls.push(LAB);
    calls.extend([single(4, 0), single(2, 20), PLANT]);
    for (tank, len) in [(2, 4), (2, 3), (2, 1), (3, 5), (4, 5), (5, 5), (6, u64::MAX)] {
        calls.extend([Call::Insert { tank, at: 0, len }, Call::Length { tank }]);
    }
    for tank in [2, 3, 4, 5, 7] {
        let (start, end) = (0, 4);
        calls.extend([Call::Same { tank, start, end }, Call::Touched { tank }]);
        calls.extend([Call::Age { tank, before: 3, budget: 1 }, single(tank, 2)]);
    }
    calls.push(ALL);
    calls
}

/// A save in room that is too little, just enough and more.
fn lent() -> Vec<Call> {
    let mut author = Author::new(0, HABIT);
    for text in [Draft::default().text(), widest().text(), rich(3).text(), rich(1).text()] {
        author.say(restore(text));
        let needed = author.tanks.text().len() as u64;
        author.say(Call::SaveNeeded);
        for room in [needed - 1, needed, needed + 1, 0, 1 << 32] {
            author.say(Call::Save { room });
        }
        author.turn();
    }
    author.calls
}

/// A refused restore: what it read before the wrong line is nowhere to be seen.
fn begun() -> Vec<Call> {
    let text = rich(3).text();
    let last = text.iter().filter(|&&byte| byte == b'\n').count() - 1;
    let mut calls = vec![Call::Open { settings: [(2, 9); 8] }];
    calls.push(annotate(0, 3, 5, mark((1, 5, 1), 7, 0x84)));
    for text in [text[..text.len() - 1].to_vec(), with_line(&text, last, b"set=\n")] {
        calls.extend([restore(text), ALL]);
        calls.extend(questions(6));
    }
    calls
}

/// The fixed calls that stand among the refusals, and so in the sample: few and short texts.
pub fn refused() -> Vec<Call> {
    let mut draft = Draft::with(0, rooms(2, 1));
    draft.settings[0] = (4, 4);
    let page = draft.page();
    let line = |name: &str| page.0.iter().position(|line| line.starts_with(name)).expect("a line");
    let damaged = [
        ("version=", "version=4"),
        ("limit0=", "limit0=3"),
        ("share7=", "share7=506"),
        ("tank=0", "tank=1"),
        ("touched=", "touched=0"),
        ("marks=", "marks=2"),
        ("party=lab", "party=plant"),
        ("peer=2", "peer=1"),
        ("cnt=", "cnt=-0"),
        ("flags=", "flags=256"),
        ("runs=", "runs=5"),
        ("len=", "len=2"),
        ("set=", "set=0000000000000003"),
        ("set=", "set=000000000000000f"),
    ];
    let mut calls = vec![Call::Open { settings: [(2, 9); 8] }, Call::SaveNeeded];
    calls.extend([annotate(0, 3, 5, mark((1, 5, 1), 7, 0x84)), ALL, Call::Save { room: 700 }]);
    for (name, other) in damaged {
        let mut wrong = page.clone();
        wrong.0[line(name)] = other.into();
        calls.push(restore(wrong.text()));
    }
    let text = page.text();
    calls.extend(
        [&text[..text.len() - 1], &text[..300], b"", &[&text[..], b"\n"].concat()[..]]
            .map(|text| restore(text.to_vec())),
    );
    calls.extend([Call::SaveNeeded, restore(text), ALL, Call::SaveNeeded]);
    [calls, odd_flags(2), earlier(), crowded(50)].concat()
}

fn script(class: &'static str, seed: u64, calls: Vec<Call>, tail: &[u8]) -> Script {
    Script { class, seed, calls, tail: tail.to_vec() }
}

/// Fixed scripts: every rule, every line in every spelling, and what stands after a restore.
pub fn damaged() -> impl Iterator<Item = Script> {
    let open = |calls: Vec<Call>| [vec![Call::Open { settings: [(2, 9); 8] }], calls].concat();
    let after = open([odd_flags(14), earlier(), lent(), in_force(), begun()].concat());
    let crowds = open([48, 49, 50, 63, 64].map(crowded).concat());
    let lists = [after.clone(), after, crowds].into_iter().chain(ruled()).chain(spelt());
    lists.zip(1..).map(|(calls, seed)| script("damaged", seed, calls, b""))
}

/// Fixed scripts that go alone: what a restore leaves as it is, and bodies at their ends.
pub fn restored() -> impl Iterator<Item = Script> {
    let class = "restored";
    let whole = restore(rich(3).text());
    let (text, mut longest) = (whole.text(), rich(3).text());
    longest.resize(LONGEST_BODY as usize, b'\n');
    let wide = restore(widest().text());
    let calls = vec![whole.clone(), ALL, restore(longest), ALL, wide, ALL, ALL, whole];
    let over = [b"op=restore\nbytes=131073\n".to_vec(), vec![b'\n'; 131_073]].concat();
    let ends = [
        script(class, 6, calls.clone(), b"op=length\ntank=00\n"),
        script(class, 7, calls.clone(), &over),
        script(class, 10, calls.clone(), b"op=save\nroom=-1\n"),
        script(class, 11, [&calls[..], &[Call::SaveNeeded]].concat(), b"tank=0\n"),
    ];
    let cuts = (0..text.len()).step_by(97).zip(16..);
    let cuts = cuts.map(move |(end, seed)| script(class, seed, calls.clone(), &text[..end]));
    std::iter::once(script(class, 9, left(), b"")).chain(ends).chain(cuts)
}

/// A text that is changed somewhere, mostly into a wrong one.
fn spoilt(random: &mut Random, text: &[u8]) -> Vec<u8> {
    let lines = text.iter().filter(|&&byte| byte == b'\n').count() as u64;
    let at = random.below(text.len() as u64) as usize;
    let mut other = text.to_vec();
    match random.below(8) {
        0 => other.truncate(at),
        1 => other[at] = random.pick(b"\n=0159 -\r\0\xff"),
        2 => other.insert(at, random.pick(b"\n=0159 -\r\0\xff")),
        3 => {
            other.remove(at);
        }
        4 => other.extend(random.pick(&["\n", "x", "tank=8\n"]).bytes()),
        5 => {
            let others = spellings(text, random.below(lines) as usize);
            other = others[random.below(others.len() as u64) as usize].clone();
        }
        _ => other = off_by_one(text, random.below(lines) as usize, random.one_in(2)),
    }
    other
}

/// A line's number, one more or one less.
fn off_by_one(text: &[u8], line: usize, more: bool) -> Vec<u8> {
    let old = text.split(|&byte| byte == b'\n').nth(line).unwrap_or_default();
    let old = String::from_utf8_lossy(old).into_owned();
    let (name, number) = old.split_once('=').expect("a name");
    let hex = name == "set";
    let number = u64::from_str_radix(number, if hex { 16 } else { 10 });
    let Ok(number) = number else { return text.to_vec() };
    let number = if more { number.wrapping_add(1) } else { number.wrapping_sub(1) };
    let number = if hex { format!("{number:016x}") } else { number.to_string() };
    with_line(text, line, format!("{name}={number}\n").as_bytes())
}

/// Pairs that the opening accepts.
fn pairs(author: &mut Author) -> Settings {
    let most = author.random.pick(&[2, 9, 64]);
    std::array::from_fn(|_| {
        let share = 1 + author.random.below(most);
        (share, share + author.random.below(513 - share))
    })
}

/// The state as a text, mostly of the newest version, sometimes with an odd flag byte.
fn text(author: &mut Author) -> Vec<u8> {
    let version = author.random.pick(&[1, 2, 3, 3]);
    let (settings, tanks) = (&author.tanks.settings, &author.tanks.tanks);
    let text = saved::text_of(version, settings, &saved::sayable(version, tanks));
    if author.habit.inside || !author.random.one_in(3) {
        return text;
    }
    let odd = author.random.pick(&[0x41, 0x82, 0, 1, 255]);
    let usual = author.random.pick(&[0x80, 0x84, 0x86]);
    let text = String::from_utf8(text).expect("letters that print");
    text.replace(&format!("flags={usual}\n"), &format!("flags={odd}\n")).into_bytes()
}

/// A save, another state, the saved one again, and questions of both parties.
fn moved(author: &mut Author) {
    let needed = author.tanks.text().len() as u64;
    author.say(Call::SaveNeeded);
    author.say(Call::Save { room: needed });
    let text = text(author);
    match author.random.below(3) {
        0 => author.go_on(5),
        1 => {
            let settings = pairs(author);
            author.open(settings);
        }
        _ => {}
    }
    if !author.habit.inside && author.random.one_in(3) {
        let wrong = spoilt(&mut author.random, &text);
        author.say(restore(wrong));
    }
    author.say(restore(text));
    for _ in 0..2 {
        author.habit = Habit { questions: 9, ..author.habit };
        author.go_on(5);
        author.turn();
    }
    author.habit = Habit { questions: 3, ..author.habit };
}

/// One more thing: edits, a save in some room, a damaged text, or a state that is moved.
pub fn go_on(author: &mut Author) {
    match author.random.below(10) {
        0..=4 => author.go_on(8),
        5 => {
            let needed = author.tanks.text().len() as u64;
            let room = author.random.pick(&[0, needed - 1, needed, needed + 1, u64::MAX]);
            author.say(Call::Save { room });
        }
        6 if !author.habit.inside => {
            let text = text(author);
            let wrong = spoilt(&mut author.random, &text);
            author.say(restore(wrong));
        }
        7 if author.random.one_in(4) => {
            let settings = pairs(author);
            author.open(settings);
        }
        _ => moved(author),
    }
}
