//! Times calls through the Rust crate, one by one and in batches, on small and on full tanks, and
//! prints the tables of docs/PERFORMANCE.md, "Through the door".

use mavelino::{Batch, Error, Log, Map, Mark, Party, Setting};

/// Calls in one crossing.
const BATCHES: [usize; 3] = [1, 10, 1000];
/// Samples, of which the best counts: what disturbs a sample only adds to it.
const SAMPLES: usize = 7;
/// A sample takes so many seconds at least.
const SAMPLE: f64 = 0.06;

unsafe extern "C" {
    fn clock() -> i64;
}

/// Processor time of this program so far, in seconds: other programs' work is not in it.
fn now() -> f64 {
    // SAFETY: C's clock takes nothing and answers a number, in millionths of a second by POSIX.
    unsafe { clock() as f64 / 1e6 }
}

/// A call, put into a batch. Each leaves the runs as many as they are, so that all meet the same.
struct Work {
    name: &'static str,
    put: fn(&mut Batch) -> &mut Batch,
}

const WORK: [Work; 6] = [
    Work { name: "`length`", put: |batch| batch.length(0) },
    Work { name: "`value_at`", put: |batch| batch.value_at(0, 1, 2) },
    Work { name: "`range_contains_key`", put: |batch| batch.range_contains_key(0, 0..60, 2) },
    Work { name: "`annotate`", put: |batch| batch.annotate(0, 1..2, &mark(1)) },
    Work { name: "`insert`", put: |batch| batch.insert(0, 1000, 1) },
    Work { name: "`delete`", put: |batch| batch.delete(0, 1000..1001) },
];

fn main() -> Result<(), Error> {
    let tanks = [("small", small()?), ("full", full()?)];
    for (name, map) in &tanks {
        println!("{name}: {} bytes of text, {} runs in tank 0", map.save().len(), map.runs(0)?);
    }
    println!("\nCalls a second.\n");
    println!("| call | small, 1 | 10 | 1,000 | full, 1 | 10 | 1,000 |");
    println!("|---|--:|--:|--:|--:|--:|--:|");
    for work in &WORK {
        let cell = |map: &Map, size| Ok::<_, Error>(per_second(size, crossing(map, work, size)?));
        let mut cells = Vec::new();
        for (_, map) in &tanks {
            for size in BATCHES {
                cells.push(cell(map, size)?);
            }
        }
        println!("| {} | {} |", work.name, cells.join(" | "));
    }
    println!("\n| tanks | a crossing without calls, microseconds | a log, edits a second |");
    println!("|---|--:|--:|");
    for (name, map) in &tanks {
        let empty = best(|| map.clone().run(&Batch::new()).map(|_| ()))?;
        println!("| {name} | {:.0} | {} |", empty * 1e6, per_second(EDITS, fed(map)?));
    }
    Ok(())
}

fn mark(number: u64) -> Mark {
    let key = 1 + number as u16;
    Mark { key, lamport: 10, peer: number, cnt: 0, flags: 0x84, value: (number as i64).into() }
}

/// Tank 0 of three runs with one mark, the others fresh.
fn small() -> Result<Map, Error> {
    let mut map = Map::open(Map::EVEN)?;
    map.annotate(0, 1..2, &mark(1))?;
    Ok(map)
}

/// Eight tanks of 64 runs and 64 marks, 16 of them the laboratory's.
fn full() -> Result<Map, Error> {
    let mut map = Map::open([Setting { share: 64, limit: 64 }; 8])?;
    for (party, marks) in [(Party::Plant, 0..48), (Party::Lab, 48..64)] {
        map.set_party(party);
        for (tank, number) in
            (0..8).flat_map(|tank| marks.clone().map(move |number| (tank, number)))
        {
            let at = number.min(62);
            map.annotate(tank, at..at + 1, &mark(number))?;
        }
    }
    map.set_party(Party::Plant);
    Ok(map)
}

/// Seconds of a crossing with so many calls, the batch made anew each time.
fn crossing(map: &Map, work: &Work, size: usize) -> Result<f64, Error> {
    let mut map = map.clone();
    let refused = |answer: &mavelino::Answer| matches!(answer, mavelino::Answer::Refused(_));
    best(|| {
        let mut batch = Batch::new();
        for _ in 0..size {
            (work.put)(&mut batch);
        }
        let answers = map.run(&batch)?;
        assert!(!answers.iter().any(refused), "{} is refused", work.name);
        Ok(())
    })
}

/// Edits of the log that is timed.
const EDITS: usize = 2000;

/// Seconds of a log of insertions and deletions, in one read.
fn fed(map: &Map) -> Result<f64, Error> {
    let pair = "op=insert\ntank=0\nat=1000\nlen=1\nop=delete\ntank=0\nstart=1000\nend=1001\n";
    let text = pair.repeat(EDITS / 2);
    best(|| {
        let report = map.clone().feed(&mut Log::new(), text.as_bytes())?;
        assert_eq!(report.applied, EDITS as u64);
        Ok(())
    })
}

/// The best processor time of a piece of work over the samples, in seconds.
fn best(mut work: impl FnMut() -> Result<(), Error>) -> Result<f64, Error> {
    let mut least = f64::INFINITY;
    for _ in 0..SAMPLES {
        let (start, mut turns) = (now(), 0);
        while now() - start < SAMPLE {
            work()?;
            turns += 1;
        }
        least = least.min((now() - start) / turns as f64);
    }
    Ok(least)
}

/// Calls a second to three digits, with commas.
fn per_second(calls: usize, seconds: f64) -> String {
    let number = calls as f64 / seconds;
    let unit = 10f64.powf((number.log10().floor() - 2.0).max(0.0));
    let plain = ((number / unit).round() * unit) as u64;
    let digits = plain.to_string();
    let grouped = digits.as_bytes().rchunks(3).rev();
    let parts: Vec<&str> = grouped.map(|part| std::str::from_utf8(part).unwrap_or("")).collect();
    parts.join(",")
}
