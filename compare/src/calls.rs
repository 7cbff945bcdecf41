//! The calls on a ledger that its caller holds as numbers, with each answer as
//! `include/moq.h` says it.

use crate::answer::{DONE, FORBIDDEN, NOT_A_LEDGER, SHORT, WHOLE};
use crate::ledger::{Answer, Ledger, Part};
use crate::message;
use crate::numbers::{self, COUNT};

/// A new ledger, of the subscriber's end for part 0 and the publisher's for 1.
pub fn start(part: u64, rows: u64, maximum: u64, numbers: &mut [u64]) -> u8 {
    let part = match part {
        0 => Part::Subscriber,
        1 => Part::Publisher,
        _ => return FORBIDDEN,
    };
    let ledger = match Ledger::start(part, rows, maximum) {
        Ok(ledger) => ledger,
        Err(number) => return number,
    };
    let Some(room) = numbers.first_chunk_mut() else {
        return SHORT;
    };
    numbers::put(&ledger, room);
    DONE
}

/// The message at the front of `s`. Into `info` the bytes used, and the rule
/// that is broken or 0.
pub fn take(s: &[u8], numbers: &mut [u64], info: &mut [u64]) -> u8 {
    let (message, used) = match message::read(s) {
        Ok(read) => read,
        Err(number) => return number,
    };
    let Some((mut ledger, numbers)) = checked(numbers) else {
        return NOT_A_LEDGER;
    };
    let Some([used_told, rule_told]) = info.first_chunk_mut() else {
        return SHORT;
    };
    let answer = ledger.step_message(&message);
    *used_told = used as u64;
    *rule_told = answer.rule.map_or(0, u64::from);
    numbers::put(&ledger, numbers);
    answer.number
}

/// The peer's bytes could not be read.
pub fn malformed(numbers: &mut [u64]) -> u8 {
    step(numbers, Ledger::step_malformed).number
}

/// An arrival.
pub fn arrival(alias: u64, group: u64, object: u64, numbers: &mut [u64]) -> u8 {
    step(numbers, |ledger| ledger.step_arrival(alias, group, object)).number
}

/// Arrivals, three numbers of `run` each. Into `answers` the number of each.
pub fn arrivals(run: &[u64], numbers: &mut [u64], answers: &mut [u8]) -> u8 {
    let Some((mut ledger, numbers)) = checked(numbers) else {
        return NOT_A_LEDGER;
    };
    let Some(room) = answers.get_mut(..run.len() / 3) else {
        return SHORT;
    };
    for (each, answer) in run.chunks_exact(3).zip(room) {
        *answer = ledger.step_arrival(each[0], each[1], each[2]).number;
    }
    numbers::put(&ledger, numbers);
    WHOLE
}

/// A step of the ledger that the numbers name; 14 where they are none's.
fn step(numbers: &mut [u64], step: impl FnOnce(&mut Ledger) -> Answer) -> Answer {
    let Some((mut ledger, numbers)) = checked(numbers) else {
        return Answer::plain(NOT_A_LEDGER);
    };
    let answer = step(&mut ledger);
    numbers::put(&ledger, numbers);
    answer
}

/// The ledger that the numbers are, and the part of them that it fills.
fn checked(numbers: &mut [u64]) -> Option<(Ledger, &mut [u64; COUNT])> {
    let numbers = numbers.first_chunk_mut()?;
    let ledger = numbers::named(numbers).filter(Ledger::is_ledger)?;
    Some((ledger, numbers))
}
