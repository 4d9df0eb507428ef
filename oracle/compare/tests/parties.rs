//! What change request 10 promises of two parties in one tank, seen on the model.

use compare::answer::Answer;
use compare::author::{identity, usual};
use compare::call::Call;
use compare::classes::CLASSES;
use compare::mark::{Mark, Party, PARTIES};
use compare::parties::WIDE;
use compare::script::Script;
use compare::tanks::Tanks;

fn scripts(class: &str, seeds: std::ops::Range<u64>) -> impl Iterator<Item = Script> {
    let class = CLASSES.iter().find(|known| known.name == class).expect("a class");
    seeds.map(|seed| class.script(seed, 400))
}

fn other(who: Party) -> Party {
    PARTIES[1 - who as usize]
}

fn refused(answer: &Answer) -> bool {
    matches!(answer, Answer::Refused(_))
}

/// What a party is shown of every tank, with length and touched.
fn alike(who: Party, one: &Tanks, two: &Tanks) -> bool {
    one.tanks.iter().zip(&two.tanks).all(|(a, b)| a.shown_to(who) == b.shown_to(who))
}

/// Two runs of the same calls, in one of which the other party has hidden marks: as long as the same
/// calls are accepted, a party is shown the same.
#[test]
fn what_a_party_is_shown_rests_on_its_own_marks() {
    let mut compared = 0;
    for script in scripts("parties", 0..120) {
        for who in PARTIES {
            compared += shown_alike(who, &script.calls, script.seed);
        }
    }
    assert!(compared > 4000, "{compared} answers were compared");
}

/// Says how many answers were compared, up to the first call that is accepted in one run alone.
fn shown_alike(who: Party, calls: &[Call], seed: u64) -> u64 {
    let (mut one, mut two) = (Tanks::default(), Tanks::default());
    let mut compared = 0;
    for call in calls {
        let (before, answers) = (one.tanks.clone(), (one.call(call), two.call(call)));
        // Ageing counts joint stretches, so how far one call gets may differ.
        let aged = matches!(call, Call::Age { .. }) && answers.0 != answers.1;
        let stops = matches!(answers, (Answer::Report(ref a), Answer::Report(ref b)) if a != b);
        if refused(&answers.0) != refused(&answers.1) || aged || stops {
            break;
        }
        assert!(alike(who, &one, &two), "{call:?} after {before:?}");
        let joint = matches!(call, Call::Runs { .. } | Call::Propose { .. });
        // The strip is the plant's, whoever asks.
        let joint = joint || who == Party::Lab && matches!(call, Call::Strip { .. });
        if one.party == who && !joint && !refused(&answers.0) {
            assert_eq!(answers.0, answers.1, "{call:?} after {before:?}");
            compared += 1;
        }
        hide(other(who), &mut two, seed + compared);
    }
    compared
}

/// Now and then a mark of a party more, in tanks that are touched, since touched is joint.
fn hide(who: Party, tanks: &mut Tanks, turn: u64) {
    for (place, tank) in tanks.tanks.iter_mut().enumerate().take(2) {
        let start = (7 * turn + place as u64) % 11;
        if turn % 5 == 0 && tank.touched && start + 2 < tank.length && tank.carried().len() < 30 {
            let id = identity(turn % 9);
            tank.annotate(who, start, start + 2, Mark { id, content: usual(id) });
        }
    }
}

/// Every count of marks up to the room of both.
#[test]
fn each_party_has_the_room_that_it_is_assured() {
    for plant in 0..=48 {
        for lab in 0..=32 {
            let mut tanks = Tanks::default();
            tanks.call(&Call::Open { settings: WIDE });
            let add = |tanks: &mut Tanks, party: Party, number: u64| {
                tanks.call(&Call::Party { party });
                let mark = Mark { id: (1, 1, number), content: usual(identity(0)) };
                tanks.call(&Call::Annotate { tank: 0, start: 0, end: 4, mark })
            };
            for (party, count) in PARTIES.into_iter().zip([plant, lab]) {
                for number in 0..count {
                    add(&mut tanks, party, number);
                }
            }
            let carried = tanks.tanks[0].carried();
            let labs = carried.keys().filter(|id| id.0 == Party::Lab).count() as u64;
            // The plant was first: it has what it asked for, and the laboratory the rest of 64.
            assert_eq!(labs, lab.min(64 - plant.max(32)));
            let plants = (plant < 48 && plant.max(31) + 1 + labs.max(16) <= 64) as u64;
            let room = |fits: u64| if fits == 1 { Answer::Accepted } else { Answer::Refused(8) };
            assert_eq!(add(&mut tanks.clone(), Party::Plant, 99), room(plants), "{plant} {labs}");
            let more = (labs.max(15) + 1 + plant.max(32) <= 64) as u64;
            assert_eq!(add(&mut tanks.clone(), Party::Lab, 99), room(more), "{plant} {labs}");
            if labs < 16 {
                assert_eq!(more, 1);
            }
            if plant < 48 && labs <= 16 {
                assert_eq!(plants, 1);
            }
        }
    }
}

/// 17 comes before them; and the laboratory never leaves more runs than the share, or than before.
#[test]
fn the_laboratory_is_never_refused_by_9_or_10() {
    let mut passed = 0;
    for script in scripts("parties", 0..60).chain(scripts("rooms", 0..10)) {
        let mut tanks = Tanks::default();
        for call in &script.calls {
            let before = tanks.clone();
            let answer = tanks.call(call);
            if tanks.party == Party::Lab && !matches!(call, Call::Log { .. }) {
                assert!(!matches!(answer, Answer::Refused(9 | 10)), "{call:?}");
                passed += (answer == Answer::Refused(17)) as u64;
                for (place, (a, b)) in before.tanks.iter().zip(&tanks.tanks).enumerate() {
                    let most = a.runs().max(tanks.settings[place].0);
                    let opened = matches!(call, Call::Open { .. } | Call::OpenSet { .. });
                    assert!(opened || b.runs() <= most, "{call:?}");
                }
            }
        }
    }
    assert!(passed > 100, "{passed} edits of the laboratory would have passed the share");
}
