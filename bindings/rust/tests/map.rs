//! What the examples do not show: texts and logs cut anywhere, long batches, several threads.

use mavelino::{Answer, Batch, Error, Log, Map, Mark, Party, Reading, Refusal};

const MARK: Mark = Mark {
    key: 1,
    lamport: 5,
    peer: 1,
    cnt: -3,
    flags: 0x84,
    value: mavelino::Value::Decimal(-0.5),
};

fn marked() -> Map {
    let mut map = Map::open(Map::EVEN).unwrap();
    map.annotate(0, 10..20, &MARK).unwrap();
    map.annotate(7, 3..4, &MARK).unwrap();
    map.set_party(Party::Lab);
    map.annotate(0, 15..25, &MARK).unwrap();
    map.set_party(Party::Plant);
    map
}

/// The words are those of the console's page.
#[test]
fn refusals_have_the_words_of_the_page() {
    let page = include_str!("../../../docs/CONSOLE.md");
    let rows = page.lines().filter_map(|line| {
        let mut cells = line.strip_prefix("| ")?.strip_suffix(" |")?.split(" | ");
        let number = cells.next()?.parse::<u64>().ok()?;
        Some((number, cells.next()?))
    });
    let ours = Refusal::ALL.iter().map(|refusal| (refusal.number(), refusal.words()));
    assert_eq!(rows.collect::<Vec<_>>(), ours.collect::<Vec<_>>());
}

#[test]
fn a_cut_text_is_refused_with_its_line() {
    let map = marked();
    let text = map.save();
    for end in 0..text.len() {
        let lines = text[..end].iter().filter(|&&byte| byte == b'\n').count() as u64;
        let refused = Map::restore(&text[..end]).unwrap_err();
        assert_eq!(refused, Error::RefusedAt(Refusal::BadLine, lines + 1), "{end}");
    }
    assert_eq!(Map::restore(text).unwrap(), map);
}

#[test]
fn a_changed_byte_is_refused_or_means_another_map() {
    let map = marked();
    for place in 0..map.save().len() {
        let mut text = map.save().to_vec();
        text[place] ^= 1;
        match Map::restore(&text) {
            Ok(other) => assert_ne!(other, map, "{place}"),
            Err(error) => assert_eq!(error.refusal(), Some(Refusal::BadLine), "{place}"),
        }
    }
}

#[test]
fn a_log_may_be_cut_anywhere() {
    let text = b"op=insert\ntank=0\nat=12\nlen=5\nop=delete\ntank=0\nstart=0\nend=9\nop=delete\n\
        tank=0\nstart=3\nend=3\nop=delete\ntank=0\nstart=0\nend=1\n";
    let mut whole = marked();
    let report = whole.feed(&mut Log::new(), text).unwrap();
    assert_eq!((report.applied, report.state), (2, Reading::Stopped(Refusal::Empty, 12)));
    for cut in 0..=text.len() {
        let (mut map, mut log) = (marked(), Log::new());
        map.feed(&mut log, &text[..cut]).unwrap();
        assert_eq!(map.feed(&mut log, &text[cut..]).unwrap(), report, "{cut}");
        assert_eq!(map, whole, "{cut}");
    }
}

#[test]
fn answers_that_are_too_long_leave_the_map() {
    let mut map = marked();
    let before = map.clone();
    let mut batch = Batch::new();
    batch.delete(0, 0..1);
    for _ in 0..40_000 {
        batch.runs(0);
    }
    assert_eq!(map.run(&batch), Err(Error::TooMuch));
    assert_eq!(map, before);
}

#[test]
fn a_batch_of_none_is_answered() {
    let mut map = marked();
    let before = map.clone();
    assert!(Batch::new().is_empty());
    assert_eq!(map.run(&Batch::new()), Ok(vec![]));
    assert_eq!(map, before);
}

/// What a batch says is what the same calls say one by one.
#[test]
fn a_batch_is_its_calls() {
    let (mut one, mut many) = (marked(), marked());
    let mut batch = Batch::new();
    batch.insert(0, 12, 5).styles_at(0, 13).annotate(0, 9..9, &MARK).length(0);
    let inserted = one.insert(0, 12, 5).unwrap();
    let at = one.styles_at(0, 13).unwrap();
    let refused = one.annotate(0, 9..9, &MARK).unwrap_err().refusal().unwrap();
    let length = one.length(0).unwrap();
    let answers = [
        Answer::Styles(inserted),
        Answer::Styles(at),
        Answer::Refused(refused),
        Answer::Number(length),
    ];
    assert_eq!(many.run(&batch).unwrap(), answers);
    assert_eq!(one, many);
}

#[test]
fn maps_are_called_from_several_threads() {
    let shared = marked();
    std::thread::scope(|scope| {
        for tank in 0..4 {
            let shared = &shared;
            scope.spawn(move || {
                let mut own = shared.clone();
                for at in 0..20 {
                    own.annotate(tank, 2 * at..2 * at + 1, &MARK).unwrap();
                    assert_eq!(shared.runs(7).unwrap(), 3);
                }
                assert!(own.runs(tank).unwrap() > shared.runs(tank).unwrap());
            });
        }
    });
}

/// The stack that the header asks for is enough.
#[test]
fn a_thread_with_little_stack_is_enough() {
    let work = || {
        let mut map = marked();
        for number in 0..32 {
            let mark = Mark { peer: u64::MAX - number, lamport: u32::MAX, ..MARK };
            (0..8).for_each(|tank| map.annotate(tank, number..number + 2, &mark).unwrap());
        }
        let report = map.feed(&mut Log::new(), b"op=delete\ntank=0\nstart=0\nend=9\n").unwrap();
        assert_eq!(report.applied, 1);
        assert_eq!(Map::restore(map.save()).unwrap(), map);
    };
    let thread = std::thread::Builder::new().stack_size(1_310_720).spawn(work);
    thread.unwrap().join().unwrap();
}
