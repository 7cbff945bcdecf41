//! What is done to the numbers of a ledger so that they aren't one's any more:
//! each condition of 01's list is broken, and each number named that names
//! nothing.

use super::random::Random;
use crate::integer::GREATEST;
use crate::ledger::{MOST_COUNTED, ROWS};
use crate::numbers::{COUNT, EACH, FIRST};

/// Where a number of the ledger stands.
const PART: usize = 0;
const SESSION: usize = 1;
const CAPACITY: usize = 2;
const MAXIMUM: usize = 3;
const NEXT: usize = 4;
const USED: usize = 5;

/// Where a number of a row stands, from the row's first on.
const ID: usize = 0;
const ALIAS: usize = 1;
const STATE: usize = 2;
const RANGE: usize = 3;
const LAST: usize = 6;
const PLACE: usize = 7;
const OBJECT: usize = 9;
const TALLY: usize = 10;

/// Something done to a ledger's numbers; none where the ledger has no row that
/// it could be done to, and then nothing is.
pub type Damage = fn(&mut Random, &mut [u64; COUNT]) -> Option<()>;

/// Each leaves numbers that are no ledger's.
pub const DAMAGES: [(&str, Damage); 20] = [
    ("IDs that don't rise", unrising),
    ("an ID above the highest", above_highest),
    ("an alias twice", alias_twice),
    ("a count without a place", count_alone),
    ("a place without a count", place_alone),
    ("a pending row with a count", pending_counts),
    ("an active row whose range isn't known", active_unknown),
    ("an unused row that isn't", unused_holds),
    ("a rule that isn't listed", no_rule),
    ("a capacity that isn't 1 to 64", no_capacity),
    ("more rows than the capacity", too_many),
    ("a number over the greatest integer", too_great),
    ("a count over the top", over_the_top),
    ("a part that is none", no_part),
    ("a state that is none", no_state),
    ("a range that is none", no_range),
    ("a place that is neither there nor not", no_place),
    ("numbers of a range that isn't known", unknown_has),
    ("a last group of an open range", open_ends),
    ("numbers of no place", nowhere_has),
];

/// Any one of the numbers is another: it may be a ledger's still.
pub fn any(random: &mut Random, numbers: &mut [u64; COUNT]) {
    let in_use = FIRST + EACH * in_use(numbers).min(ROWS);
    let end = if random.one_in(4) { COUNT } else { in_use };
    let at = random.below(end as u64) as usize;
    numbers[at] = match random.below(4) {
        0 => numbers[at] ^ 1 << random.below(64),
        1 => numbers[at].wrapping_sub(1),
        2 => numbers[at].wrapping_add(1),
        _ => random.below(12),
    };
}

fn in_use(numbers: &[u64; COUNT]) -> usize {
    numbers[USED] as usize
}

/// Where the numbers of a row begin.
fn row(at: usize) -> usize {
    FIRST + EACH * at
}

/// The beginning of one of the rows in use.
fn some_row(random: &mut Random, numbers: &[u64; COUNT]) -> Option<usize> {
    let count = in_use(numbers);
    (count > 0).then(|| row(random.below(count as u64) as usize))
}

/// The beginning of an active row: the first from any row on.
fn active_row(random: &mut Random, numbers: &[u64; COUNT]) -> Option<usize> {
    let count = in_use(numbers);
    let from = random.below(count.max(1) as u64) as usize;
    let mut all = (from..count).chain(0..from).map(row);
    all.find(|at| numbers[at + STATE] == 1)
}

/// A number that is over the greatest integer.
fn over(random: &mut Random) -> u64 {
    random.one_of(&[GREATEST + 1, GREATEST + 2, 1 << 63, u64::MAX])
}

/// A number that names no variant, where those from `first` on don't.
fn none_from(random: &mut Random, first: u64) -> u64 {
    random.one_of(&[first, first + 1, 255, 256, 1 << 32, 1 << 63, u64::MAX])
}

fn put(numbers: &mut [u64; COUNT], at: usize, values: &[u64]) {
    numbers[at..at + values.len()].copy_from_slice(values);
}

fn unrising(random: &mut Random, numbers: &mut [u64; COUNT]) -> Option<()> {
    let pairs = in_use(numbers).checked_sub(1).filter(|pairs| *pairs > 0)?;
    let at = row(random.below(pairs as u64) as usize);
    let (one, other) = (numbers[at + ID], numbers[at + EACH + ID]);
    numbers[at + EACH + ID] = one;
    if random.one_in(2) {
        numbers[at + ID] = other;
    }
    Some(())
}

fn above_highest(random: &mut Random, numbers: &mut [u64; COUNT]) -> Option<()> {
    let last = row(in_use(numbers).checked_sub(1)?);
    numbers[NEXT] = if random.one_in(4) {
        0
    } else {
        numbers[last + ID]
    };
    Some(())
}

fn alias_twice(random: &mut Random, numbers: &mut [u64; COUNT]) -> Option<()> {
    let (one, other) = (some_row(random, numbers)?, some_row(random, numbers)?);
    // The first and the last are the farthest apart.
    let (one, other) = if one == other {
        (row(0), row(in_use(numbers) - 1))
    } else {
        (one, other)
    };
    numbers[one + ALIAS] = numbers[other + ALIAS];
    (one != other).then_some(())
}

fn count_alone(random: &mut Random, numbers: &mut [u64; COUNT]) -> Option<()> {
    let at = active_row(random, numbers)?;
    let count = 1 + random.below(MOST_COUNTED);
    put(numbers, at + PLACE, &[0, 0, 0, count]);
    Some(())
}

fn place_alone(random: &mut Random, numbers: &mut [u64; COUNT]) -> Option<()> {
    let at = active_row(random, numbers)?;
    put(numbers, at + PLACE, &[1]);
    numbers[at + TALLY] = 0;
    Some(())
}

fn pending_counts(random: &mut Random, numbers: &mut [u64; COUNT]) -> Option<()> {
    let at = some_row(random, numbers)?;
    let group = random.below(4);
    numbers[at + STATE] = 0;
    put(numbers, at + PLACE, &[1, group, 0, 1]);
    Some(())
}

fn active_unknown(random: &mut Random, numbers: &mut [u64; COUNT]) -> Option<()> {
    let at = some_row(random, numbers)?;
    put(numbers, at + STATE, &[1, 0, 0, 0, 0]);
    Some(())
}

/// A row after those in use holds something that a row may hold; or the last
/// in use isn't counted as one.
fn unused_holds(random: &mut Random, numbers: &mut [u64; COUNT]) -> Option<()> {
    let count = in_use(numbers);
    if count == ROWS || (count > 0 && random.one_in(4)) {
        let mut last = numbers[row(count - 1)..row(count)].iter();
        last.find(|number| **number != 0)?;
        numbers[USED] -= 1;
        return Some(());
    }
    let at = row(count + random.below((ROWS - count) as u64) as usize);
    match random.below(6) {
        0 => numbers[at + ID] = 1 + random.below(9),
        1 => numbers[at + ALIAS] = 1 + random.below(9),
        2 => numbers[at + STATE] = 1,
        3 => put(numbers, at + RANGE, &[1, 0, 0, 0]),
        4 => put(numbers, at + PLACE, &[1, 0, 0]),
        _ => numbers[at + TALLY] = 1,
    }
    Some(())
}

fn no_rule(random: &mut Random, numbers: &mut [u64; COUNT]) -> Option<()> {
    numbers[SESSION] = none_from(random, 8);
    Some(())
}

fn no_capacity(random: &mut Random, numbers: &mut [u64; COUNT]) -> Option<()> {
    numbers[CAPACITY] = random.one_of(&[0, 65, 66, 1 << 32, GREATEST, u64::MAX]);
    Some(())
}

fn too_many(random: &mut Random, numbers: &mut [u64; COUNT]) -> Option<()> {
    let capacity = numbers[CAPACITY];
    match numbers[USED] {
        used @ 2.. if random.one_in(2) => numbers[CAPACITY] = used - 1,
        _ => numbers[USED] = random.one_of(&[capacity + 1, 65, 1 << 32, 1 << 63, u64::MAX]),
    }
    Some(())
}

fn too_great(random: &mut Random, numbers: &mut [u64; COUNT]) -> Option<()> {
    let over = over(random);
    match random.below(6) {
        0 => numbers[MAXIMUM] = over,
        1 => numbers[NEXT] = over.max(GREATEST + 2),
        2 => {
            let last = row(in_use(numbers).checked_sub(1)?);
            numbers[last + ID] = over;
            numbers[NEXT] = over.saturating_add(1);
        }
        3 => numbers[some_row(random, numbers)? + ALIAS] = over,
        4 => {
            let at = some_row(random, numbers)?;
            let number = random.below(3) as usize;
            numbers[at + RANGE] = 2;
            numbers[at + RANGE + 1 + number] = over;
        }
        _ => {
            let at = active_row(random, numbers)?;
            let number = random.below(2) as usize;
            put(numbers, at + PLACE, &[1]);
            numbers[at + PLACE + 1 + number] = over;
            numbers[at + TALLY] = numbers[at + TALLY].max(1);
        }
    }
    Some(())
}

fn over_the_top(random: &mut Random, numbers: &mut [u64; COUNT]) -> Option<()> {
    let at = active_row(random, numbers)?;
    put(numbers, at + PLACE, &[1]);
    numbers[at + TALLY] = random.one_of(&[MOST_COUNTED + 1, MOST_COUNTED + 2, GREATEST, u64::MAX]);
    Some(())
}

fn no_part(random: &mut Random, numbers: &mut [u64; COUNT]) -> Option<()> {
    numbers[PART] = none_from(random, 2);
    Some(())
}

/// One of all 64 rows, as that of an unused one must be named too.
fn any_row(random: &mut Random) -> usize {
    row(random.below(ROWS as u64) as usize)
}

fn no_state(random: &mut Random, numbers: &mut [u64; COUNT]) -> Option<()> {
    numbers[any_row(random) + STATE] = none_from(random, 2);
    Some(())
}

fn no_range(random: &mut Random, numbers: &mut [u64; COUNT]) -> Option<()> {
    numbers[any_row(random) + RANGE] = none_from(random, 3);
    Some(())
}

fn no_place(random: &mut Random, numbers: &mut [u64; COUNT]) -> Option<()> {
    numbers[any_row(random) + PLACE] = none_from(random, 2);
    Some(())
}

fn unknown_has(random: &mut Random, numbers: &mut [u64; COUNT]) -> Option<()> {
    let at = any_row(random);
    let number = random.below(3) as usize;
    put(numbers, at + RANGE, &[0, 0, 0, 0]);
    numbers[at + RANGE + 1 + number] = random.one_of(&[1, 7, GREATEST, u64::MAX]);
    Some(())
}

fn open_ends(random: &mut Random, numbers: &mut [u64; COUNT]) -> Option<()> {
    let at = some_row(random, numbers)?;
    numbers[at + RANGE] = 1;
    numbers[at + LAST] = random.one_of(&[1, 7, GREATEST, u64::MAX]);
    Some(())
}

fn nowhere_has(random: &mut Random, numbers: &mut [u64; COUNT]) -> Option<()> {
    let at = any_row(random);
    let number = PLACE + 1 + random.below((OBJECT - PLACE) as u64) as usize;
    put(numbers, at + PLACE, &[0, 0, 0, 0]);
    numbers[at + number] = random.one_of(&[1, 7, GREATEST, u64::MAX]);
    Some(())
}
