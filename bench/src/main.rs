//! Times the proved engine beside a plain implementation of the same job, on the same inputs, in one run.

mod families;
mod plain;
mod proved;

use std::time::{Duration, Instant};

/// The shortest of some runs.
fn fastest<T>(mut job: impl FnMut() -> T) -> (T, Duration) {
    let mut best: Option<(T, Duration)> = None;
    for _ in 0..7 {
        let start = Instant::now();
        let result = job();
        let time = start.elapsed();
        if best.as_ref().is_none_or(|b| time < b.1) {
            best = Some((result, time));
        }
    }
    best.expect("the job was run")
}

fn ratio(proved: Duration, plain: Duration) -> f64 {
    proved.as_secs_f64() / plain.as_secs_f64()
}

fn main() {
    let mut random = families::Random::new(41);
    let books = [
        ("random, 1,000 arrows", families::random(1_000, 64, &mut random)),
        ("random, 4,000 arrows", families::random(4_000, 64, &mut random)),
        ("random, 8,192 arrows", families::random(8_192, 64, &mut random)),
        ("random, 8,192 arrows, 4 marks", families::random(8_192, 4, &mut random)),
        ("chain upwards, 8,160 arrows", families::chain(true)),
        ("chain downwards, 8,160 arrows", families::chain(false)),
        ("complete, 3 labels", families::complete(&mut random)),
        ("twins, 8 of each", families::twins(&mut random)),
        ("notes in notes", families::notes()),
    ];
    println!("{:32} {:>10} {:>10} {:>7} {:>10} {:>10} {:>7}", "book", "settle us", "plain us", "ratio", "reduce us", "plain us", "ratio");
    for (name, book) in &books {
        let (plain_rows, plain_settle) = fastest(|| plain::settle(book));
        let (rows, settle) = fastest(|| proved::settle(book));
        assert_eq!(rows, plain_rows, "{name}: the kept pairs differ");
        let (plain_reduced, plain_reduce) = fastest(|| plain::reduce(book, &plain_rows));
        let (reduced, reduce) = fastest(|| proved::reduce(book, &rows));
        assert_eq!(reduced.book.marks, plain_reduced.book.marks, "{name}: the marks differ");
        assert_eq!(reduced.book.arrows, plain_reduced.book.arrows, "{name}: the arrows differ");
        assert_eq!(reduced.rows, plain_reduced.rows, "{name}: the reduced pairs differ");
        println!(
            "{name:32} {:>10} {:>10} {:>7.2} {:>10} {:>10} {:>7.2}",
            settle.as_micros(),
            plain_settle.as_micros(),
            ratio(settle, plain_settle),
            reduce.as_micros(),
            plain_reduce.as_micros(),
            ratio(reduce, plain_reduce)
        );
    }
    println!("all {} books agree", books.len());
}
