//! Arrivals at a ledger of 64 active rows: one by one, each with the check that
//! the numbers are a ledger's, and a run of them, checked once.

use std::hint::black_box;

use second::calls;
use second::ledger::{Ledger, Part, Place, Range, Row, ROWS};
use second::numbers;

use crate::{clock, ours};

/// How many arrivals a pass has that are taken one by one, and how many a run.
const SINGLE: usize = 2_048;
const RUN: usize = 100_000;

pub fn measure() {
    single_by_numbers();
    single_in_place();
    run();
}

/// Rust that does the same: from the numbers to a ledger, checked, and back.
fn single_by_numbers() {
    let all = arrivals(SINGLE);
    let (mut mine, mut other) = (numbers::of(&full()), numbers::of(&full()));
    let theirs = black_box(calls::arrival as fn(u64, u64, u64, &mut [u64]) -> u8);
    clock::compare(
        "arrival by numbers",
        SINGLE,
        || each(&all, |[a, g, o]| ours::ledger_arrival(a, g, o, &mut mine)),
        || each(&all, |[a, g, o]| theirs(a, g, o, &mut other).into()),
    );
    assert!(mine == other, "the ledgers differ");
}

/// Rust that checks the same, and changes the ledger where it stands.
fn single_in_place() {
    let all = arrivals(SINGLE);
    let (mut mine, mut other) = (numbers::of(&full()), full());
    let theirs = black_box(Ledger::arrive);
    clock::compare(
        "arrival in place",
        SINGLE,
        || each(&all, |[a, g, o]| ours::ledger_arrival(a, g, o, &mut mine)),
        || each(&all, |[a, g, o]| theirs(&mut other, a, g, o).number.into()),
    );
    assert!(mine == numbers::of(&other), "the ledgers differ");
}

/// Plain Rust that checks nothing, and changes the ledger where it stands.
fn run() {
    let all = arrivals(RUN);
    let (mut mine, mut other) = (numbers::of(&full()), full());
    let (mut my_answers, mut other_answers) = (vec![0; RUN], vec![0; RUN]);
    clock::compare(
        "arrivals in a run",
        RUN,
        || ours::ledger_arrivals(all.as_flattened(), &mut mine, &mut my_answers),
        || {
            for (&[alias, group, object], answer) in all.iter().zip(&mut other_answers) {
                *answer = other.step_arrival(alias, group, object).number;
            }
            0
        },
    );
    assert!(mine == numbers::of(&other), "the ledgers differ");
    assert!(my_answers == other_answers, "the answers differ");
}

/// The answers to all arrivals, added up.
fn each(all: &[[u64; 3]], answer: impl FnMut([u64; 3]) -> u64) -> u64 {
    all.iter().copied().map(answer).sum()
}

/// A ledger whose rows are all active, with ranges that are open.
fn full() -> Ledger {
    let mut ledger = Ledger::start(Part::Subscriber, ROWS as u64, 1_000).expect("it starts");
    ledger.used = ROWS;
    ledger.highest = Some(ROWS as u64 - 1);
    for (id, row) in (0..).zip(&mut ledger.rows) {
        *row = Row {
            id,
            alias: 1_000 + id,
            active: true,
            range: Range::Open(Place::default()),
            ..Row::default()
        };
    }
    assert!(ledger.is_ledger());
    ledger
}

/// Arrivals over all rows, whose groups rise with noise.
fn arrivals(count: usize) -> Vec<[u64; 3]> {
    let mut seed = 7u64;
    (0..count as u64)
        .map(|at| {
            seed = seed.wrapping_mul(6_364_136_223_846_793_005).wrapping_add(1);
            let alias = 1_000 + (seed >> 33) % ROWS as u64;
            let group = at / 1_000 + (seed >> 40) % 100_000;
            [alias, group, (seed >> 50) % 200]
        })
        .collect()
}
