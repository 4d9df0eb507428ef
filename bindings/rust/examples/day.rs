//! A day at the cooperative: three creameries mark, late readings come in, a call is refused, the
//! boxes' log is read, and at night all of it is written out. `bindings/rust/try` runs it.

use mavelino::{Batch, Error, ExpandType, Log, Map, Mark, Party, TextStyleInfoFlag, Value};

const CLEANING: u16 = 1;
const HOLD: u16 = 2;

fn main() -> Result<(), Error> {
    let mut map = Map::open(Map::EVEN)?;

    // Two creameries mark the same readings while they can't hear each other. Merging is making both
    // calls, in any order: the greater lamport wins.
    let flags = TextStyleInfoFlag::new(ExpandType::After).to_byte();
    let first = Mark { key: CLEANING, lamport: 5, peer: 1, cnt: 31, flags, value: true.into() };
    let second = Mark { key: CLEANING, lamport: 7, peer: 2, cnt: 12, flags, value: false.into() };
    map.annotate(0, 100..200, &first)?;
    map.annotate(0, 150..250, &second)?;
    for at in [120, 170, 300] {
        println!("cleaning at {at}: {}", shown(map.value_at(0, at, CLEANING)?));
    }

    // Sixty late readings inside both marks carry both.
    let inherited = map.insert(0, 160, 60)?;
    println!("late readings carry {} marks, of peers {:?}", inherited.len(), peers(&inherited));

    // What can't be is refused by number, and changes nothing.
    let other = Mark { value: Value::Whole(3), ..first };
    for call in [map.annotate(0, 400..400, &first), map.annotate(0, 400..500, &other)] {
        println!("{}", call.expect_err("both calls are wrong"));
    }

    // Several calls in one crossing.
    let mut batch = Batch::new();
    batch.runs(0).iter(0).remove_style_scanning_backward(0, &first.identity(), 259).runs(0);
    println!("a batch of {} calls:", batch.len());
    for answer in map.run(&batch)? {
        println!("  {answer:?}");
    }

    // The laboratory is shown its own marks alone.
    let mut lab = map.clone();
    lab.set_party(Party::Lab);
    println!("the laboratory sees {} marked stretches", lab.iter(0)?.len());

    // A box's log, in two reads that are cut within a line.
    let hold = "op=annotate\ntank=1\nstart=10\nend=40\nkey=2\nlamport=9\npeer=3\ncnt=0\nflags=128\n\
                kind=decimal\nvalue=4010000000000000\nop=delete\ntank=1\nstart=0\nend=5\n";
    let mut log = Log::new();
    let (before, after) = hold.as_bytes().split_at(50);
    println!("{:?}", map.feed(&mut log, before)?);
    println!("{:?}", map.feed(&mut log, after)?);
    println!("hold at 20 in tank 1: {}", shown(map.value_at(1, 20, HOLD)?));

    // At night: written out, and restored on a spare box.
    let spare = Map::restore(map.save())?;
    println!("the spare box holds the same: {}", spare == map);
    Ok(())
}

fn shown(value: Option<Value>) -> String {
    value.map_or("nothing".into(), |value| format!("{value:?}"))
}

fn peers(marks: &[Mark]) -> Vec<u64> {
    marks.iter().map(|mark| mark.peer).collect()
}
