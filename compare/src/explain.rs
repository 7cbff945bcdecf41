//! A trace or a control stream byte by byte, and what came of each part of it:
//! what `moqexplain` prints (docs/EXPLAIN.md).

mod layouts;
pub mod text;
pub mod walk;

use crate::answer::WHOLE;
use crate::ledger::Answer;
use crate::report::{self, next_field};
use text::Text;
use walk::{walk, Walked};

/// The bytes of a field before its value: its tag and its length.
const HEAD: usize = 3;

/// The parts of one control message, as far as it can be read.
pub fn message(bytes: &[u8]) -> Walked<'_> {
    walk(bytes, layouts::message)
}

/// What `moqexplain` prints of a trace.
pub fn trace(bytes: &[u8]) -> Vec<u8> {
    let mut text = Text::default();
    let end = report::run(bytes, |offset, _, answer| {
        field(&mut text, bytes, offset);
        text.answered(answer);
    });
    if let Err(offset) = end {
        field(&mut text, bytes, offset);
        text.fault(why(bytes, offset), offset);
    }
    text.into_bytes()
}

/// What `moqexplain -c` prints of a control stream: messages one after the
/// other, up to the first that is refused.
pub fn stream(bytes: &[u8]) -> Vec<u8> {
    let mut text = Text::default();
    let mut offset = 0;
    while offset < bytes.len() {
        let walked = message(&bytes[offset..]);
        text.parts(offset, &walked);
        match walked.answer {
            Ok(used) => {
                text.answered(Answer::plain(WHOLE));
                offset += used;
            }
            Err(number) => {
                text.answered(Answer::plain(number));
                break;
            }
        }
    }
    text.into_bytes()
}

/// The field at this offset of a trace: its line, and the parts of its value.
/// Of a tag that isn't known there are none.
fn field(text: &mut Text, trace: &[u8], offset: usize) {
    let bytes = &trace[offset..];
    let Some((field, _)) = next_field(bytes) else {
        if !bytes.is_empty() {
            text.cut_field(offset, bytes);
        }
        return;
    };
    text.field(offset, &bytes[..HEAD], field.tag, field.value.len());
    let layout = match field.tag {
        1 => layouts::start,
        2 => layouts::message,
        3 => layouts::arrival,
        _ => return,
    };
    let walked = walk(field.value, layout);
    text.parts(offset + HEAD, &walked);
    if let Ok(used) = walked.answer {
        text.left_over(offset + HEAD + used, &field.value[used..]);
    }
}

/// Why a trace is at fault in the field at this offset. Of a field that is cut
/// nothing else is looked at.
fn why(trace: &[u8], offset: usize) -> &'static str {
    let Some(tag) = trace.get(offset) else {
        return "no bytes";
    };
    let is_first = offset == 0;
    if next_field(&trace[offset..]).is_none() {
        return "the trace ends inside this field";
    }
    match tag {
        0 | 4.. => "no tag of a trace",
        2 | 3 if is_first => "the first field is no start",
        1 if !is_first => "a second start",
        1 => "not one part, 0 or 1, and one maximum",
        2 => "not one whole message",
        3 => "not one alias, group and object",
    }
}
