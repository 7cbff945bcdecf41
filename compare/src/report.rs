//! From a trace to its report, and to the answers given on the way (01, "The
//! report").
//!
//! 01: "Input fields of the trace: one-byte tag, two-byte length
//! (big-endian), value."

use std::io::Write;

use crate::answer::{DONE, MORE};
use crate::fields::Fields;
use crate::ledger::{Answer, Ledger, Part, Row, ROWS};
use crate::message;

/// 01: "`moqreport` [...] has 64 rows."
const CAPACITY: u64 = 64;
/// The names of the columns, which stand above the rows.
const COLUMNS: &str = "ID ALIAS STATE GROUP OBJECT COUNT";
/// No line is longer: six items, none longer than the columns, and a byte after
/// each.
pub const LONGEST_LINE: usize = 6 * (COLUMNS.len() + 1);
/// No report is longer: a line for the session, the columns, and each row.
pub const LONGEST_REPORT: usize = LONGEST_LINE * (2 + ROWS);

/// What a field of a trace was.
#[derive(Debug, Clone, Copy, PartialEq, Eq)]
pub enum What {
    /// Tag 1: the start.
    Start,
    /// Tag 2: a whole message, with its name.
    Message(&'static str),
    /// Tag 2: bytes that the reader refused, with its number.
    Malformed(u8),
    /// Tag 3: an arrival.
    Arrival,
}

/// A field of a trace.
pub(crate) struct Field<'a> {
    /// What it is: 1 a start, 2 a message, 3 an arrival.
    pub(crate) tag: u8,
    /// The bytes after its tag and length.
    pub(crate) value: &'a [u8],
}

/// The field at the front, and what follows it; none where it is cut.
#[inline]
pub(crate) fn next_field(trace: &[u8]) -> Option<(Field<'_>, &[u8])> {
    let (&[tag, high, low], rest) = trace.split_first_chunk::<3>()?;
    let length = usize::from(u16::from_be_bytes([high, low]));
    if rest.len() < length {
        return None;
    }
    let (value, rest) = rest.split_at(length);
    Some((Field { tag, value }, rest))
}

/// 01: "Tag 1, first and once: part (one byte: 0 subscriber, 1 publisher),
/// then the maximum", an integer that fills the rest of the value.
fn start(field: &Field<'_>) -> Option<Ledger> {
    if field.tag != 1 {
        return None;
    }
    let mut fields = Fields::in_whole(field.value);
    let part = match fields.byte().ok()? {
        0 => Part::Subscriber,
        1 => Part::Publisher,
        _ => return None,
    };
    let maximum = fields.integer().ok()?;
    if !fields.rest().is_empty() {
        return None;
    }
    Ledger::start(part, CAPACITY, maximum).ok()
}

/// 01: "Tag 2: one control message; answers 2 to 6 count as malformed,
/// whichever end would send it." 01: "a message answering 1, or a whole
/// message [...] that leaves bytes of its field" is a fault.
fn control(ledger: &mut Ledger, value: &[u8]) -> Option<(What, Answer)> {
    match message::read(value) {
        Ok((message, used)) => {
            if used != value.len() {
                return None;
            }
            let answer = ledger.step_message(&message);
            Some((What::Message(message.name()), answer))
        }
        Err(MORE) => None,
        Err(number) => Some((What::Malformed(number), ledger.step_malformed())),
    }
}

/// 01: "Tag 3: alias, group, object as integers", and no byte behind them.
#[inline]
fn arrival(ledger: &mut Ledger, value: &[u8]) -> Option<(What, Answer)> {
    let mut fields = Fields::in_whole(value);
    let alias = fields.integer().ok()?;
    let group = fields.integer().ok()?;
    let object = fields.integer().ok()?;
    if !fields.rest().is_empty() {
        return None;
    }
    let answer = ledger.step_arrival(alias, group, object);
    Some((What::Arrival, answer))
}

/// A field after the first; none where it is a fault.
#[inline]
fn step(ledger: &mut Ledger, field: &Field<'_>) -> Option<(What, Answer)> {
    match field.tag {
        2 => control(ledger, field.value),
        3 => arrival(ledger, field.value),
        _ => None,
    }
}

/// Runs a trace to its end: the last ledger, or the offset of the first
/// field that is a fault. `seen` is told of each field before that: the
/// offset of its tag, what it is, and the answer.
pub fn run(trace: &[u8], mut seen: impl FnMut(usize, What, Answer)) -> Result<Ledger, usize> {
    let (first, mut rest) = next_field(trace).ok_or(0usize)?;
    let mut ledger = start(&first).ok_or(0usize)?;
    seen(0, What::Start, Answer::plain(DONE));
    while !rest.is_empty() {
        let offset = trace.len() - rest.len();
        let (field, after) = next_field(rest).ok_or(offset)?;
        let (what, answer) = step(&mut ledger, &field).ok_or(offset)?;
        seen(offset, what, answer);
        rest = after;
    }
    Ok(ledger)
}

/// The report of a trace: what `moqreport` prints.
pub fn report(trace: &[u8]) -> Vec<u8> {
    let mut text = Vec::new();
    match run(trace, |_, _, _| ()) {
        Ok(ledger) => ledger_text(&ledger, &mut text),
        Err(offset) => fault_text(offset, &mut text),
    }
    text
}

/// The answers of a trace: what `moqanswers` prints. At a fault the lines
/// before it stand.
pub fn answers(trace: &[u8]) -> Vec<u8> {
    let mut text = Vec::new();
    let end = run(trace, |offset, what, answer| {
        let what = match what {
            What::Start => "start".to_string(),
            What::Message(name) => name.to_string(),
            What::Malformed(number) => format!("malformed {number}"),
            What::Arrival => "arrival".to_string(),
        };
        line(&mut text, format_args!("{offset} {what} {answer}"));
    });
    if let Err(offset) = end {
        fault_text(offset, &mut text);
    }
    text
}

/// Each line ends in one newline.
fn line(text: &mut Vec<u8>, content: std::fmt::Arguments<'_>) {
    writeln!(text, "{content}").expect("a vector takes all bytes");
}

/// 01: "prints only `trace fault at N`, N being the offset of that field's
/// tag, 0 for an empty input".
fn fault_text(offset: usize, text: &mut Vec<u8>) {
    line(text, format_args!("trace fault at {offset}"));
}

/// 01: "A closed session begins `closed R4 1` (rule, rows)."
fn ledger_text(ledger: &Ledger, text: &mut Vec<u8>) {
    match ledger.closed {
        None => line(text, format_args!("open {}", ledger.used)),
        Some(rule) => line(text, format_args!("closed R{rule} {}", ledger.used)),
    }
    line(text, format_args!("{COLUMNS}"));
    for row in ledger.rows_in_use() {
        row_text(row, text);
    }
}

/// 01: "A row with nothing counted shows `-` for group and object."
fn row_text(row: &Row, text: &mut Vec<u8>) {
    let state = if row.active { "active" } else { "pending" };
    let (id, alias, count) = (row.id, row.alias, row.count);
    match row.greatest {
        Some(place) => {
            let (group, object) = (place.group, place.object);
            line(
                text,
                format_args!("{id} {alias} {state} {group} {object} {count}"),
            );
        }
        None => line(text, format_args!("{id} {alias} {state} - - {count}")),
    }
}
