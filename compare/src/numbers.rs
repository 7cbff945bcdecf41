//! A ledger as numbers: the 710 that `include/moq.h` lists, six of the ledger
//! and eleven of each of its rows.

use crate::ledger::{Ledger, Part, Place, Range, Row, ROWS};

/// The numbers before the rows.
pub const FIRST: usize = 6;
/// The numbers of a row.
pub const EACH: usize = 11;
/// The numbers of a ledger.
pub const COUNT: usize = FIRST + ROWS * EACH;

/// The numbers of a ledger.
pub fn of(ledger: &Ledger) -> [u64; COUNT] {
    let mut numbers = [0; COUNT];
    put(ledger, &mut numbers);
    numbers
}

/// Puts the numbers of a ledger. What isn't one could hold 2^64 - 1 as its
/// highest ID, which no numbers name; it is put as the ID before it.
pub fn put(ledger: &Ledger, numbers: &mut [u64; COUNT]) {
    let (first, rows) = numbers.split_at_mut(FIRST);
    first.copy_from_slice(&[
        match ledger.part {
            Part::Subscriber => 0,
            Part::Publisher => 1,
        },
        ledger.closed.map_or(0, u64::from),
        ledger.capacity,
        ledger.maximum,
        ledger
            .highest
            .map_or(0, |highest| highest.saturating_add(1)),
        ledger.used as u64,
    ]);
    for (row, eleven) in ledger.rows.iter().zip(rows.chunks_exact_mut(EACH)) {
        eleven.copy_from_slice(&of_row(row));
    }
}

fn of_row(row: &Row) -> [u64; EACH] {
    let (kind, start, last) = match row.range {
        Range::NotKnown => (0, Place::default(), 0),
        Range::Open(start) => (1, start, 0),
        Range::Closed(start, last) => (2, start, last),
    };
    let place = row.greatest.unwrap_or_default();
    [
        row.id,
        row.alias,
        u64::from(row.active),
        kind,
        start.group,
        start.object,
        last,
        u64::from(row.greatest.is_some()),
        place.group,
        place.object,
        row.count,
    ]
}

/// What the numbers name, be it a ledger or not ([`Ledger::is_ledger`]). None
/// where one of them names nothing: a part, session, state, range or place that
/// isn't listed, or a number other than 0 that its range or place doesn't have.
pub fn named(numbers: &[u64; COUNT]) -> Option<Ledger> {
    let (&[part, session, capacity, maximum, next, used], rows) =
        numbers.split_first_chunk::<FIRST>()?;
    let mut ledger = Ledger {
        part: match part {
            0 => Part::Subscriber,
            1 => Part::Publisher,
            _ => return None,
        },
        closed: match session {
            0 => None,
            1..=7 => Some(session as u8),
            _ => return None,
        },
        capacity,
        maximum,
        highest: next.checked_sub(1),
        used: usize::try_from(used).ok()?,
        rows: [Row::default(); ROWS],
    };
    for (row, eleven) in ledger.rows.iter_mut().zip(rows.chunks_exact(EACH)) {
        *row = named_row(eleven.first_chunk()?)?;
    }
    Some(ledger)
}

fn named_row(numbers: &[u64; EACH]) -> Option<Row> {
    let &[id, alias, state, kind, group, object, last, some, at_group, at_object, count] = numbers;
    let start = Place { group, object };
    let place = Place {
        group: at_group,
        object: at_object,
    };
    Some(Row {
        id,
        alias,
        active: match state {
            0 => false,
            1 => true,
            _ => return None,
        },
        range: match (kind, last) {
            (0, 0) if start == Place::default() => Range::NotKnown,
            (1, 0) => Range::Open(start),
            (2, last) => Range::Closed(start, last),
            _ => return None,
        },
        greatest: match some {
            0 if place == Place::default() => None,
            1 => Some(place),
            _ => return None,
        },
        count,
    })
}
