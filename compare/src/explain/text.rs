//! The lines of an explanation (docs/EXPLAIN.md, "A line").

use std::fmt::{Arguments, Write};

use super::walk::{Content, Part, Walked};
use crate::hex;
use crate::integer;
use crate::ledger::Answer;
use crate::message;

/// Of more bytes than these, these are shown in the column of bytes.
const MOST_IN_COLUMN: usize = 8;
/// Of more bytes than these, these are shown as what a part holds.
const MOST_HELD: usize = 24;

/// 01's words for its numbers. With a 13 the rule comes after them.
pub const WORDS: [&str; 20] = [
    "whole",
    "more bytes needed",
    "unknown type",
    "body over 65,000",
    "fields don't fill the body exactly",
    "forbidden value",
    "size",
    "output too short for the message",
    "done",
    "message the ledger doesn't keep",
    "session already closed",
    "all rows in use",
    "stale: no row, ID at or below the highest",
    "breaks rule",
    "not a ledger",
    "start refused",
    "arrival counted",
    "outside the range",
    "no row has this alias",
    "row still pending",
];

/// An explanation, line by line.
#[derive(Debug, Default)]
pub struct Text {
    text: String,
}

impl Text {
    /// All lines so far.
    pub fn into_bytes(self) -> Vec<u8> {
        self.text.into_bytes()
    }

    /// Each line ends in one newline.
    fn line(&mut self, content: Arguments<'_>) {
        writeln!(self.text, "{content}").expect("a string takes all text");
    }

    /// The three columns: five places and 26, at least one of each a space.
    fn columns(&mut self, offset: usize, bytes: &[u8], what: Arguments<'_>) {
        let bytes = column(bytes);
        self.line(format_args!("{offset:<4} {bytes:<25} {what}"));
    }

    /// What is said of a whole field stands under its bytes.
    fn note(&mut self, content: Arguments<'_>) {
        self.line(format_args!("     {content}"));
    }

    /// A field begins here.
    pub fn field(&mut self, offset: usize, head: &[u8], tag: u8, length: usize) {
        let length = count(length);
        match tag {
            1 => self.columns(offset, head, format_args!("start, {length}")),
            2 => self.columns(offset, head, format_args!("message, {length}")),
            3 => self.columns(offset, head, format_args!("arrival, {length}")),
            _ => self.columns(offset, head, format_args!("tag {tag}, {length}")),
        }
    }

    /// A field that isn't all there, in one line.
    pub fn cut_field(&mut self, offset: usize, bytes: &[u8]) {
        let length = count(bytes.len());
        self.columns(offset, bytes, format_args!("cut field, {length}"));
    }

    /// The parts of bytes that begin at this offset, and the mark under the
    /// refused one.
    pub fn parts(&mut self, offset: usize, walked: &Walked<'_>) {
        for part in &walked.parts {
            self.part(offset, part);
        }
        if let Err(number) = walked.answer {
            let words = WORDS[usize::from(number)];
            self.line(format_args!("{:33}^ {number}, {words}", ""));
        }
    }

    fn part(&mut self, offset: usize, part: &Part<'_>) {
        let (label, value) = (part.label, value(part));
        let what = format_args!("  {label}: {value}");
        self.columns(offset + part.offset, part.bytes, what);
    }

    /// Bytes of a field that no part takes, if there are any; without a mark.
    pub fn left_over(&mut self, offset: usize, bytes: &[u8]) {
        if bytes.is_empty() {
            return;
        }
        let part = Part {
            offset: 0,
            bytes,
            label: "left over",
            content: Content::LeftOver,
        };
        self.part(offset, &part);
    }

    /// What was answered, by 01's number and words.
    pub fn answered(&mut self, answer: Answer) {
        let number = answer.number;
        let words = WORDS[usize::from(number)];
        match answer.rule {
            None => self.note(format_args!("answered {number}, {words}")),
            Some(rule) => self.note(format_args!("answered {number}, {words} R{rule}")),
        }
    }

    /// Why the trace is at fault, and where.
    pub fn fault(&mut self, why: &str, offset: usize) {
        self.note(format_args!("fault: {why}"));
        self.line(format_args!("trace fault at {offset}"));
    }
}

/// A number of bytes.
fn count(bytes: usize) -> String {
    match bytes {
        1 => "1 byte".to_string(),
        _ => format!("{bytes} bytes"),
    }
}

/// Bytes in the column of bytes.
fn column(bytes: &[u8]) -> String {
    match bytes.get(..MOST_IN_COLUMN) {
        Some(first) if bytes.len() > MOST_IN_COLUMN => hex::spaced(first) + "..",
        _ => hex::spaced(bytes),
    }
}

/// What a part holds.
fn value(part: &Part<'_>) -> String {
    match part.content {
        Content::Type(kind) => type_name(kind) + &longer_form(part.bytes, kind),
        Content::Number(number) => number.to_string() + &longer_form(part.bytes, number),
        Content::Byte(byte) => byte.to_string(),
        Content::Bytes => held(part.bytes),
        Content::Cut => "cut".to_string(),
        Content::LeftOver => count(part.bytes.len()),
    }
}

/// A type by its number, and by its name if it has one.
fn type_name(kind: u64) -> String {
    match message::name(kind) {
        Some(name) => format!("{name} (0x{kind:X})"),
        None => format!("0x{kind:X}"),
    }
}

/// What is said of a number in a longer form than needed; nothing otherwise.
fn longer_form(bytes: &[u8], number: u64) -> String {
    let mut shortest = [0; 8];
    let size = integer::write(number, &mut shortest).expect("a number that was read");
    if size == bytes.len() {
        return String::new();
    }
    format!(", shortest form {}", hex::spaced(&shortest[..size]))
}

/// Bytes as text where each of them is printable, else in hexadecimal digits;
/// of many the first.
fn held(bytes: &[u8]) -> String {
    let first = &bytes[..bytes.len().min(MOST_HELD)];
    let is_text = bytes.iter().all(|byte| matches!(byte, 0x20..=0x7E));
    let mut shown = if is_text {
        format!("\"{}\"", String::from_utf8_lossy(first))
    } else {
        hex::spaced(first)
    };
    if bytes.len() > MOST_HELD {
        shown += &format!(".., {}", count(bytes.len()));
    }
    shown
}
