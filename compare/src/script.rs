//! Ledger calls as a line of text, for the tests and the program of cases:
//! `start 0 64 10; subscribe 3 7 1 2; ok 3 1 0; arrive 7 0 0`.
//!
//! The calls: `start PART CAPACITY MAXIMUM`, `subscribe ID ALIAS ORDER FILTER
//! [START_GROUP START_OBJECT [END_GROUP [PARAMETERS]]]` (how many it has), `ok
//! ID ORDER CONTENT [LARGEST_GROUP LARGEST_OBJECT]`, `error ID`, `done ID`,
//! `unsubscribe ID`, `max ID`, `malformed`, `arrive ALIAS GROUP OBJECT`, and
//! `other NAME` for a message that the ledger doesn't keep.

use crate::answer::DONE;
use crate::fields::{Namespace, Parameters, Track};
use crate::hex;
use crate::ledger::{Answer, Ledger, Part, Place};
use crate::message::{self, Message};
use crate::subscribe::{JustId, Subscribe, SubscribeDone, SubscribeError, SubscribeOk};

/// A whole message of each type that the ledger doesn't keep.
pub const OTHERS: [(&str, &str); 20] = [
    ("SUBSCRIBE_UPDATE", "02 06 05 09 00 05 80 00"),
    ("ANNOUNCE", "06 04 01 01 6D 00"),
    ("ANNOUNCE_OK", "07 03 01 01 6D"),
    ("ANNOUNCE_ERROR", "08 05 01 01 6D 00 00"),
    ("UNANNOUNCE", "09 03 01 01 6D"),
    ("ANNOUNCE_CANCEL", "0C 05 01 01 6D 00 00"),
    ("TRACK_STATUS_REQUEST", "0D 05 01 01 6D 01 61"),
    ("TRACK_STATUS", "0E 08 01 01 6D 01 61 01 00 00"),
    ("GOAWAY", "10 01 00"),
    ("SUBSCRIBE_ANNOUNCES", "11 04 01 01 6D 00"),
    ("SUBSCRIBE_ANNOUNCES_OK", "12 03 01 01 6D"),
    ("SUBSCRIBE_ANNOUNCES_ERROR", "13 05 01 01 6D 00 00"),
    ("UNSUBSCRIBE_ANNOUNCES", "14 03 01 01 6D"),
    ("FETCH", "16 07 05 80 01 02 03 04 00"),
    ("FETCH_CANCEL", "17 01 05"),
    ("FETCH_OK", "18 06 05 01 00 07 09 00"),
    ("FETCH_ERROR", "19 03 05 00 00"),
    ("SUBSCRIBES_BLOCKED", "1A 01 05"),
    ("CLIENT_SETUP", "40 40 03 01 01 00"),
    ("SERVER_SETUP", "40 41 02 01 00"),
];

const NO_PARAMETERS: Parameters<'static> = Parameters {
    count: 0,
    bytes: &[],
};

/// Runs the calls; the answers, separated by `, `. The first call is the
/// start, and a start refused ends the script. None for anything else.
pub fn run(script: &str) -> Option<String> {
    let mut calls = script.split(';').map(str::trim);
    let mut ledger = match start(calls.next()?)? {
        Ok(ledger) => ledger,
        Err(number) => return Some(number.to_string()),
    };
    let mut answers = DONE.to_string();
    for each in calls {
        let answer = call(&mut ledger, each)?;
        answers.push_str(&format!(", {answer}"));
    }
    Some(answers)
}

/// `start PART CAPACITY MAXIMUM`, part 0 for the subscriber and 1 for the
/// publisher.
fn start(text: &str) -> Option<Result<Ledger, u8>> {
    let [part, capacity, maximum] = numbers(text.strip_prefix("start ")?)?[..] else {
        return None;
    };
    let part = match part {
        0 => Part::Subscriber,
        1 => Part::Publisher,
        _ => return None,
    };
    Some(Ledger::start(part, capacity, maximum))
}

fn numbers(text: &str) -> Option<Vec<u64>> {
    text.split_whitespace()
        .map(|word| word.parse().ok())
        .collect()
}

fn call(ledger: &mut Ledger, text: &str) -> Option<Answer> {
    let (word, rest) = text.split_once(' ').unwrap_or((text, ""));
    if word == "other" {
        let (_, bytes) = OTHERS.iter().find(|(name, _)| *name == rest)?;
        let bytes = hex::decode(bytes)?;
        let (message, _) = message::read(&bytes).ok()?;
        return Some(ledger.take(&message));
    }
    let values = numbers(rest)?;
    if word == "malformed" && values.is_empty() {
        return Some(ledger.malformed());
    }
    if word == "arrive" {
        let [alias, group, object] = values[..] else {
            return None;
        };
        return Some(ledger.arrive(alias, group, object));
    }
    // Each subscription asks for a track of its own, which its ID names.
    let name = values.first().map(u64::to_string).unwrap_or_default();
    let message = match word {
        "subscribe" => subscribe(&values, name.as_bytes())?,
        "ok" => ok(&values)?,
        _ => by_id(word, &values)?,
    };
    Some(ledger.take(&message))
}

fn subscribe<'a>(values: &[u64], name: &'a [u8]) -> Option<Message<'a>> {
    let [subscribe_id, track_alias, group_order, filter_type, ref asked @ ..] = values[..] else {
        return None;
    };
    let (start, end_group, count) = match *asked {
        [] => (None, None, 0),
        [group, object] => (Some(Place { group, object }), None, 0),
        [group, object, end] => (Some(Place { group, object }), Some(end), 0),
        [group, object, end, count] => (Some(Place { group, object }), Some(end), count),
        _ => return None,
    };
    let namespace = Namespace {
        count: 1,
        bytes: b"\x01m",
    };
    Some(Message::Subscribe(Subscribe {
        subscribe_id,
        track_alias,
        track: Track { namespace, name },
        subscriber_priority: 128,
        group_order: u8::try_from(group_order).ok()?,
        filter_type,
        start,
        end_group,
        parameters: Parameters { count, bytes: &[] },
    }))
}

fn ok(values: &[u64]) -> Option<Message<'static>> {
    let [subscribe_id, group_order, content_exists, ref given @ ..] = values[..] else {
        return None;
    };
    let largest = match *given {
        [] => None,
        [group, object] => Some(Place { group, object }),
        _ => return None,
    };
    Some(Message::SubscribeOk(SubscribeOk {
        subscribe_id,
        expires: 0,
        group_order: u8::try_from(group_order).ok()?,
        content_exists: u8::try_from(content_exists).ok()?,
        largest,
        parameters: NO_PARAMETERS,
    }))
}

fn by_id(word: &str, values: &[u64]) -> Option<Message<'static>> {
    let [subscribe_id] = values[..] else {
        return None;
    };
    match word {
        "error" => Some(Message::SubscribeError(SubscribeError {
            subscribe_id,
            error_code: 0,
            reason_phrase: b"",
            track_alias: 0,
        })),
        "done" => Some(Message::SubscribeDone(SubscribeDone {
            subscribe_id,
            status_code: 0,
            stream_count: 0,
            reason_phrase: b"",
        })),
        "unsubscribe" => Some(Message::Unsubscribe(JustId { subscribe_id })),
        "max" => Some(Message::MaxSubscribeId(JustId { subscribe_id })),
        _ => None,
    }
}
