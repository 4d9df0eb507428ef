//! That the comparison notices a wrong answer of each kind, wherever it comes.

use compare::mirror::hush;
use through::{round, spoil};

#[test]
fn every_wrong_answer_is_noticed() {
    hush();
    let mut times = [0; spoil::ALL.len()];
    for (place, script) in round::scripts(1..2, 60).into_iter().enumerate().step_by(3) {
        let class = script.class;
        let Ok(driven) = round::drive(place, script) else { panic!("{class} was not answered") };
        for (kind, times) in spoil::ALL.into_iter().zip(&mut times) {
            let mut came = driven.came.clone();
            if kind.change(&mut came) {
                *times += 1;
                assert!(driven.difference(&came).is_some(), "{kind:?} in {class}");
            }
        }
    }
    assert!(times.iter().all(|&times| times > 0), "{:?}: {times:?}", spoil::ALL);
}
