//! The clock: two ways to do the same work, timed by turns, so that what else
//! the machine does meets both.

use std::hint::black_box;
use std::time::Instant;

/// How often the work is done. The best time of all counts: what else runs can
/// only add to it.
const PASSES: usize = 400;

pub fn heading() {
    println!(
        "{:<24} {:>9} {:>9} {:>6}",
        "name", "ours ns", "theirs ns", "ratio"
    );
}

/// Times a pass of each, asks that both come to the same, and prints their
/// line: the time of one of `count` things.
pub fn compare<T: PartialEq>(
    name: &str,
    count: usize,
    ours: impl FnMut() -> T,
    theirs: impl FnMut() -> T,
) {
    compare_times(name, count, PASSES, ours, theirs);
}

/// The same, in that many passes: fewer where each takes long.
pub fn compare_times<T: PartialEq>(
    name: &str,
    count: usize,
    passes: usize,
    mut ours: impl FnMut() -> T,
    mut theirs: impl FnMut() -> T,
) {
    let mut best = [f64::INFINITY; 2];
    for _ in 0..passes {
        let mine = timed(&mut best[0], &mut ours);
        let other = timed(&mut best[1], &mut theirs);
        assert!(mine == other, "{name}: the two differ");
    }
    let [mine, other] = best.map(|nanoseconds| nanoseconds / count as f64);
    println!("{name:<24} {mine:>9.2} {other:>9.2} {:>6.2}", mine / other);
}

fn timed<T>(best: &mut f64, work: &mut impl FnMut() -> T) -> T {
    let start = Instant::now();
    let result = black_box(work());
    *best = best.min(start.elapsed().as_nanos() as f64);
    result
}
