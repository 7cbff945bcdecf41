//! Cases as lines of text: a kind and bytes in hexadecimal digits, and the
//! line that is answered. Where a byte stands many times in a row, it is
//! written once, with how often (`hex`).

use crate::answer::{MORE, WHOLE};
use crate::hex;
use crate::integer;
use crate::message;
use crate::report;
use crate::rewrite::{self, Rewritten};
use crate::script;

/// What a case's bytes are read as.
#[derive(Debug, Clone, Copy, PartialEq, Eq)]
pub enum Kind {
    /// One integer.
    Integer,
    /// A control message.
    Control,
    /// The beginning of a stream.
    Stream,
    /// A whole datagram.
    Datagram,
    /// An object header on a subgroup stream.
    SubgroupObject,
    /// An object header on a fetch stream.
    FetchObject,
    /// A trace, answered by its report.
    Trace,
    /// A trace, answered by its answers.
    Answers,
}

/// The kinds and their words.
pub const KINDS: [(Kind, &str); 8] = [
    (Kind::Integer, "integer"),
    (Kind::Control, "control"),
    (Kind::Stream, "stream"),
    (Kind::Datagram, "datagram"),
    (Kind::SubgroupObject, "subobj"),
    (Kind::FetchObject, "fetchobj"),
    (Kind::Trace, "trace"),
    (Kind::Answers, "answers"),
];

impl Kind {
    /// The kind's word.
    pub fn word(self) -> &'static str {
        let mut pairs = KINDS.iter();
        let pair = pairs.find(|(kind, _)| *kind == self);
        pair.expect("every kind is in the list").1
    }

    fn of_word(word: &str) -> Option<Kind> {
        let pair = KINDS.iter().find(|(_, each)| *each == word)?;
        Some(pair.0)
    }
}

/// What is answered to the bytes, as one line.
///
/// For a reader: the number, and with a 0 the bytes used and the shortest
/// form in lower-case hexadecimal digits. For an integer: the number
/// answered, and with a 0 the integer and the bytes used. For a trace: the
/// text with ` / ` for each newline.
pub fn answer(kind: Kind, bytes: &[u8]) -> String {
    match kind {
        Kind::Integer => match integer::read(bytes) {
            Ok((number, used)) => format!("{WHOLE} {number} {used}"),
            Err(integer::More) => MORE.to_string(),
        },
        Kind::Control => rewritten(rewrite::control(bytes)),
        Kind::Stream => rewritten(rewrite::stream(bytes)),
        Kind::Datagram => rewritten(rewrite::datagram(bytes)),
        Kind::SubgroupObject => rewritten(rewrite::subgroup_object(bytes)),
        Kind::FetchObject => rewritten(rewrite::fetch_object(bytes)),
        Kind::Trace => one_line(&report::report(bytes)),
        Kind::Answers => one_line(&report::answers(bytes)),
    }
}

fn rewritten(answer: Result<Rewritten, u8>) -> String {
    match answer {
        Ok((used, written, _)) => format!("{WHOLE} {used} {}", hex::encode(&written)),
        Err(number) => number.to_string(),
    }
}

fn one_line(text: &[u8]) -> String {
    let text = String::from_utf8_lossy(text);
    text.replace('\n', " / ").trim_end().to_string()
}

/// The place of a message's track name: a 0 and the offset of each of its
/// bytes, modulo 256; `-` where the bytes are no whole message.
fn name_places(bytes: &[u8]) -> String {
    let Ok((message, _)) = message::read(bytes) else {
        return "-".to_string();
    };
    let mut line = WHOLE.to_string();
    if let Some(name) = message.track_name() {
        let start = name.as_ptr() as usize - bytes.as_ptr() as usize;
        for offset in start..start + name.len() {
            line += &format!(" {}", offset % 256);
        }
    }
    line
}

/// The answer to a case's line; `ledger` and a script is a case too, and so is
/// `name` and a message. None for a line that is no case.
pub fn answer_line(line: &str) -> Option<String> {
    let line = line.trim();
    let (word, rest) = line.split_once(' ').unwrap_or((line, ""));
    if word == "ledger" {
        return script::run(rest);
    }
    if word == "name" {
        return Some(name_places(&hex::decode(rest)?));
    }
    let kind = Kind::of_word(word)?;
    Some(answer(kind, &hex::decode(rest)?))
}
