//! One call on a ledger's numbers, put to both: the answer, every one of the
//! numbers, every value that is told and every arrival's answer must agree.

use second::calls;
use second::generate::{Call, LedgerCase};
use second::hex;
use second::numbers::{EACH, FIRST};

use crate::compare::{BYTE, VALUE};
use crate::ours;

/// What is lent to be written: what is in it before a call, and then after it.
#[derive(Clone)]
struct Lent {
    numbers: Vec<u64>,
    info: Vec<u64>,
    answers: Vec<u8>,
}

/// How the two differ over a call, if they do: with room to spare for `info`
/// and `answers`, with just enough, and with too little.
pub fn difference(case: &LedgerCase) -> Option<String> {
    let (infos, answers) = match &case.call {
        Call::Take(_) => (vec![3, 2, 1, 0], vec![0]),
        Call::Arrivals(run) => {
            let count = run.len() / 3;
            (vec![0], vec![count + 3, count, count.saturating_sub(1)])
        }
        Call::Start(..) | Call::Malformed | Call::Arrival(_) => (vec![0], vec![0]),
    };
    let mut rooms = infos
        .iter()
        .flat_map(|info| answers.iter().map(move |answers| (*info, *answers)));
    rooms.find_map(|(info, answers)| with(case, info, answers))
}

/// One call with room for that many values and that many answers.
fn with(case: &LedgerCase, info: usize, answers: usize) -> Option<String> {
    let mut left = Lent {
        numbers: case.numbers.clone(),
        info: vec![VALUE; info],
        answers: vec![BYTE; answers],
    };
    let mut due = left.clone();
    let (number, due_number) = (ours(&case.call, &mut left), theirs(&case.call, &mut due));
    if number != due_number {
        return Some(format!("answers {number}, and {due_number} is due"));
    }
    if let Some((at, is, due)) = first_other(&left.numbers, &due.numbers) {
        let place = place(at);
        return Some(format!("leaves {is} as {place}, and {due} is due"));
    }
    if let Some((at, is, due)) = first_other(&left.info, &due.info) {
        return Some(format!("tells {is} as value {at}, and {due} is due"));
    }
    if let Some((at, is, due)) = first_other(&left.answers, &due.answers) {
        return Some(format!("answers {is} to arrival {at}, and {due} is due"));
    }
    None
}

fn ours(call: &Call, lent: &mut Lent) -> u64 {
    let numbers = &mut lent.numbers[..];
    match call {
        Call::Start(part, rows, maximum) => ours::ledger_start(*part, *rows, *maximum, numbers),
        Call::Take(s) => ours::ledger_take(s, numbers, &mut lent.info),
        Call::Malformed => ours::ledger_malformed(numbers),
        Call::Arrival([alias, group, object]) => {
            ours::ledger_arrival(*alias, *group, *object, numbers)
        }
        Call::Arrivals(run) => ours::ledger_arrivals(run, numbers, &mut lent.answers),
    }
}

fn theirs(call: &Call, lent: &mut Lent) -> u64 {
    let numbers = &mut lent.numbers[..];
    u64::from(match call {
        Call::Start(part, rows, maximum) => calls::start(*part, *rows, *maximum, numbers),
        Call::Take(s) => calls::take(s, numbers, &mut lent.info),
        Call::Malformed => calls::malformed(numbers),
        Call::Arrival([alias, group, object]) => calls::arrival(*alias, *group, *object, numbers),
        Call::Arrivals(run) => calls::arrivals(run, numbers, &mut lent.answers),
    })
}

/// Where two of the same length differ first, and what stands there.
fn first_other<T: Copy + PartialEq>(left: &[T], due: &[T]) -> Option<(usize, T, T)> {
    if left == due {
        return None;
    }
    let at = left.iter().zip(due).position(|(left, due)| left != due)?;
    Some((at, left[at], due[at]))
}

/// What a number of a ledger is called.
fn place(at: usize) -> String {
    match at.checked_sub(FIRST) {
        None => format!("number {at}"),
        Some(behind) => format!("number {} of row {}", behind % EACH, behind / EACH),
    }
}

/// The call, and the numbers up to the last that isn't 0.
pub fn text(case: &LedgerCase) -> String {
    let word = case.call.word();
    let told = match &case.call {
        Call::Start(part, rows, maximum) => format!("{part} {rows} {maximum}"),
        Call::Take(s) => hex::encode(s),
        Call::Malformed => String::new(),
        Call::Arrival(each) => format!("{each:?}"),
        Call::Arrivals(run) => format!("{run:?}"),
    };
    let all = &case.numbers;
    let count = all.len();
    let held = all.iter().rposition(|n| *n != 0).map_or(0, |at| at + 1);
    let (held, zeros) = (&all[..held], count - held);
    format!("ledger {word} {told}\n  of {count} numbers, {held:?} and {zeros} zeros")
}
