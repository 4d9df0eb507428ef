//! The classes of random scripts.

use crate::answer::Answer;
use crate::author::{identity, usual_of, Author, Habit};
use crate::call::{Call, Settings};
use crate::logs;
use crate::mark::{only, Mark, Party};
use crate::plans;
use crate::saves;
use crate::script::Script;
use crate::sets;
use crate::strips;
use crate::tank::{LONGEST, T};

pub struct Class {
    pub name: &'static str,
    /// What its scripts are for.
    pub about: &'static str,
    write: fn(seed: u64, calls: usize) -> Author,
}

pub const CLASSES: [Class; 17] = [
    Class { name: "inside", about: "one tank with room, the oracle domain", write: inside },
    Class { name: "dense", about: "small positions, many collisions", write: dense },
    Class { name: "short", about: "tanks of few positions, down to none", write: short },
    Class { name: "ends", about: "positions near T and near 2^63 - 1", write: ends },
    Class { name: "pool", about: "shares and limits around 512 runs", write: pool },
    Class { name: "marks", about: "48 marks and one more", write: marks },
    Class { name: "runs", about: "hundreds of runs in one tank", write: runs },
    Class { name: "many", about: "hundreds of runs, the oracle domain", write: many },
    Class { name: "wild", about: "any number anywhere", write: wild },
    Class { name: "fresh", about: "no opening, or a refused one", write: fresh },
    Class { name: "sets", about: "settings texts and the sets that are kept", write: kept_sets },
    Class { name: "log", about: "logs that are cut and spoilt anywhere", write: log },
    Class { name: "plans", about: "plans of ranges, and those that are proposed", write: thinned },
    Class { name: "strips", about: "strips with any keys and letters", write: stripped },
    Class { name: "parties", about: "plant and laboratory by turns", write: parties },
    Class { name: "rooms", about: "marks of both parties, and one more of each", write: rooms },
    Class { name: "saved", about: "states that are saved and restored", write: saved },
];

impl Class {
    pub fn script(&self, seed: u64, calls: usize) -> Script {
        let author = (self.write)(seed, calls);
        Script { class: self.name, seed, calls: author.calls, tail: Vec::new() }
    }
}

pub const HABIT: Habit =
    Habit { tanks: 1, reach: 10, marks: 16, wild: 0, inside: false, questions: 3, turns: 0 };

/// All room for tank 0.
pub const ROOMY: Settings = {
    let mut settings = [(1, 1); 8];
    settings[0] = (1, 505);
    settings
};

fn inside(seed: u64, calls: usize) -> Author {
    let mut author = Author::new(seed, Habit { inside: true, ..HABIT });
    author.open(ROOMY);
    author.go_on(calls);
    author
}

fn dense(seed: u64, calls: usize) -> Author {
    let mut author = Author::new(seed, Habit { tanks: 3, wild: 60, ..HABIT });
    author.open([(20, 60); 8]);
    author.go_on(calls);
    author
}

fn short(seed: u64, calls: usize) -> Author {
    let mut author = Author::new(seed, Habit { tanks: 2, marks: 6, ..HABIT });
    author.open([(20, 60); 8]);
    for tank in 0..2 {
        let mark = author.mark();
        let left = author.random.below(13);
        author.say(Call::Annotate { tank, start: 0, end: 1, mark });
        author.say(Call::Delete { tank, start: left, end: T });
    }
    author.go_on(calls);
    author
}

fn ends(seed: u64, calls: usize) -> Author {
    let inside = seed % 2 == 1;
    let wild = if inside { 0 } else { 12 };
    let mut author = Author::new(seed, Habit { tanks: 2, wild, inside, ..HABIT });
    author.open([(20, 60); 8]);
    for tank in 0..2 {
        let mark = author.mark();
        let (start, room) = (author.random.below(9), author.random.below(9));
        author.say(Call::Annotate { tank, start: T - start - 2, end: T - inside as u64, mark });
        author.say(Call::Insert { tank, at: T - 1, len: LONGEST - T - room });
    }
    author.go_on(calls);
    author
}

/// Eight pairs that the opening accepts, with a sum of shares that is often 512.
fn pairs(author: &mut Author) -> Settings {
    let mut left = 512;
    std::array::from_fn(|tank| {
        let later = 7 - tank as u64;
        let most = left - later;
        let fair = (2 * most / (later + 2)).max(1);
        let share =
            if author.random.one_in(4) { 1 } else { 1 + author.random.below(fair.min(most)) };
        let share = if later == 0 && author.random.one_in(2) { most } else { share };
        left -= share;
        (share, share + author.random.below(513 - share))
    })
}

fn pool(seed: u64, calls: usize) -> Author {
    let mut author = Author::new(seed, Habit { tanks: 8, marks: 5, questions: 1, ..HABIT });
    let settings = pairs(&mut author);
    author.open(settings);
    for _ in 0..24 {
        let tank = author.random.below(8);
        let (share, limit) = settings[tank as usize];
        let goal = share + author.random.below(60);
        fill(&mut author, tank, goal.min(limit));
    }
    author.go_on(calls);
    author
}

/// Marks every other position until the tank holds about so many runs, or may not.
fn fill(author: &mut Author, tank: u64, runs: u64) {
    while author.tanks.tanks[tank as usize].runs() + 1 < runs {
        let start = author.tanks.tanks[tank as usize].runs() + 1;
        let id = identity(author.random.below(author.habit.marks.min(60)));
        let mark = Mark { id, content: usual_of(author.tanks.party, id) };
        let call = Call::Annotate { tank, start, end: start + 1, mark };
        if author.say(call) != Answer::Accepted {
            break;
        }
    }
}

/// 48 marks on few positions; those that were lost come back from time to time, and others try.
fn marks(seed: u64, calls: usize) -> Author {
    let mut author = Author::new(seed, Habit { marks: 80, questions: 2, wild: 80, ..HABIT });
    author.open([(40, 200); 8]);
    let end = author.calls.len() + calls;
    while author.calls.len() < end {
        let first = author.random.below(80);
        for number in first..first + 80 {
            if author.tanks.tanks[0].carried().len() < 48 {
                annotate(&mut author, number % 80);
            }
        }
        let number = author.random.below(88);
        annotate(&mut author, number);
        author.go_on(12);
    }
    author
}

/// A mark by its number on some of the first 80 positions.
fn annotate(author: &mut Author, number: u64) {
    let id = identity(number);
    let start = author.random.below(20);
    let end = start + 1 + author.random.below(60);
    let mark = Mark { id, content: usual_of(author.tanks.party, id) };
    author.say(Call::Annotate { tank: 0, start, end, mark });
}

fn runs(seed: u64, calls: usize) -> Author {
    let habit = Habit { marks: 70, wild: 100, ..HABIT };
    let mut author = Author::new(seed, habit);
    author.open(ROOMY);
    let goal = [200, 400, 500, 504, 505][(seed % 5) as usize];
    fill(&mut author, 0, goal);
    author.go_on(calls);
    author
}

fn many(seed: u64, calls: usize) -> Author {
    let habit = Habit { marks: 24, inside: true, ..HABIT };
    let mut author = Author::new(seed, habit);
    author.open(ROOMY);
    let goal = 100 + author.random.below(350);
    fill(&mut author, 0, goal);
    author.go_on(calls);
    author
}

fn wild(seed: u64, calls: usize) -> Author {
    let mut author = Author::new(seed, Habit { tanks: 8, wild: 4, marks: 40, ..HABIT });
    author.open([(20, 60); 8]);
    while author.calls.len() < calls {
        if author.random.one_in(4) {
            let settings = spoilt(&mut author);
            author.open(settings);
        }
        author.go_on(40);
    }
    author
}

/// Pairs with one number changed, perhaps into a bad one.
fn spoilt(author: &mut Author) -> Settings {
    let mut settings = pairs(author);
    let place = author.random.below(8) as usize;
    let number = author.random.pick(&[0, 1, 511, 512, 513, 65537, 1 << 32, u64::MAX]);
    match author.random.below(3) {
        0 => settings[place].0 = number,
        1 => settings[place].1 = number,
        _ => {}
    }
    settings
}

/// Before an opening, and after a refused one, each tank has a share and a limit of 1.
fn fresh(seed: u64, calls: usize) -> Author {
    let mut author = Author::new(seed, Habit { tanks: 8, wild: 10, ..HABIT });
    if seed % 2 == 1 {
        author.open([(20, 60); 8]);
        author.go_on(10);
        author.open([(2, 1); 8]);
    }
    let mark = author.mark();
    author.say(Call::Annotate { tank: 3, start: 0, end: T, mark });
    author.go_on(calls);
    author
}

/// Texts that are read and refused, and openings with the sets that are kept or no longer are.
fn kept_sets(seed: u64, calls: usize) -> Author {
    let mut author = Author::new(seed, Habit { tanks: 8, marks: 5, wild: 30, ..HABIT });
    while author.calls.len() < calls {
        sets::go_on(&mut author);
    }
    author
}

/// Logs read by read, with calls between the reads.
fn log(seed: u64, calls: usize) -> Author {
    let mut author = Author::new(seed, Habit { tanks: 8, marks: 9, wild: 60, ..HABIT });
    author.open([(20, 60); 8]);
    while author.calls.len() < calls {
        logs::go_on(&mut author);
    }
    author
}

/// Hold marks, plans good and bad, and plans that are proposed. None are pending at the end.
fn thinned(seed: u64, calls: usize) -> Author {
    let mut author = Author::new(seed, Habit { tanks: 2, marks: 8, wild: 90, ..HABIT });
    author.open(plans::SETTINGS);
    while author.calls.len() < calls {
        plans::go_on(&mut author);
    }
    author.say(Call::Plan { tank: 0, hold: 1, runs: u64::MAX });
    author
}

/// Legends and strips, of tanks short and long.
fn stripped(seed: u64, calls: usize) -> Author {
    let wild = if seed % 3 == 0 { 30 } else { 0 };
    let mut author = Author::new(seed, Habit { tanks: 2, wild, ..HABIT });
    author.open([(20, 60); 8]);
    if seed % 2 == 1 {
        let mark = author.mark();
        let left = author.random.below(400);
        author.say(Call::Annotate { tank: 0, start: 0, end: 1, mark });
        author.say(Call::Delete { tank: 0, start: left, end: T });
    }
    while author.calls.len() < calls {
        strips::go_on(&mut author);
    }
    author
}

/// Plant and laboratory by turns, in a tank of a small share and in one of a larger; every other
/// script stays inside the oracle domain. The plant is the last, and no ranges are pending.
fn parties(seed: u64, calls: usize) -> Author {
    let inside = seed % 2 == 1;
    let wild = if inside { 0 } else { 80 };
    let habit = Habit { tanks: 2, marks: 12, wild, inside, questions: 2, turns: 4, ..HABIT };
    let mut author = Author::new(seed, habit);
    let mut settings = [(30, 60); 8];
    settings[0] = (5, 40);
    author.open(settings);
    while author.calls.len() < calls {
        match author.random.below(16) {
            0 | 3 if !inside => plans::go_on(&mut author),
            1 if !inside && seed % 8 == 0 => logs::go_on(&mut author),
            2 if !inside && seed % 8 == 4 => strips::go_on(&mut author),
            _ => author.go_on(8),
        }
        if author.random.one_in(16) {
            author.open(settings);
        }
    }
    author.say(Call::Party { party: Party::Plant });
    author.say(Call::Plan { tank: 0, hold: 1, runs: u64::MAX });
    author
}

/// So many marks of the plant and of the laboratory stand side by side, or one fewer of either.
const ROOMS: [(usize, usize); 7] =
    [(48, 16), (32, 32), (40, 24), (33, 31), (20, 32), (47, 17), (48, 0)];

/// Tank 0 is filled up, first by one party, and then each has one more to add, or one that it has.
fn rooms(seed: u64, calls: usize) -> Author {
    let mut author = Author::new(seed, Habit { questions: 1, turns: 6, marks: 80, ..HABIT });
    let mut settings = [(30, 30); 8];
    settings[0] = (300, 302);
    author.open(settings);
    while author.calls.len() < calls {
        let (plant, lab) = author.random.pick(&ROOMS);
        for _ in 0..2 {
            author.turn();
            let party = author.tanks.party;
            let most = if party == Party::Lab { lab } else { plant };
            let first = author.random.below(80);
            for number in first..first + 80 {
                if only(party, &author.tanks.tanks[0].carried()).len() < most {
                    annotate(&mut author, number % 80);
                }
            }
        }
        for _ in 0..6 {
            let number = author.random.below(90);
            annotate(&mut author, number);
            author.turn();
        }
        author.go_on(16);
        if author.random.one_in(4) {
            author.open(settings);
        }
    }
    author.say(Call::Party { party: Party::Plant });
    author
}

/// States of both parties, saved and restored; every other script stays inside the oracle domain.
fn saved(seed: u64, calls: usize) -> Author {
    let inside = seed % 2 == 1;
    let wild = if inside { 0 } else { 90 };
    let tanks = if seed % 3 == 0 { 8 } else { 2 };
    let marks = if seed % 4 == 0 { 80 } else { 14 };
    let mut author = Author::new(seed, Habit { tanks, marks, wild, inside, turns: 5, ..HABIT });
    author.open([(20, 60); 8]);
    if seed % 4 == 2 {
        let mark = author.mark();
        let left = author.random.below(13);
        author.say(Call::Annotate { tank: 0, start: 0, end: 1, mark });
        author.say(Call::Delete { tank: 0, start: left, end: T });
    }
    while author.calls.len() < calls {
        saves::go_on(&mut author);
    }
    author.say(Call::Party { party: Party::Plant });
    author
}
