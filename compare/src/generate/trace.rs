//! Generated traces: histories that reach every rule, with and without faults.

use super::damage;
use super::filled;
use super::make::Make;
use super::message;
use super::track;
use crate::integer::GREATEST;

/// What the maker of a history believes of the subscriptions so far. It need
/// not be right: after a closing or a refusal the trace goes on all the same.
struct History {
    next_id: u64,
    next_alias: u64,
    maximum: u64,
    /// ID, alias, active.
    rows: Vec<(u64, u64, bool)>,
}

/// A whole trace; one in three is damaged.
pub fn trace(make: &mut Make) -> Vec<u8> {
    make.padded = make.random.one_in(3);
    let mut out = Vec::new();
    let mut history = start(make, &mut out);
    let fields = if make.random.one_in(12) {
        crowd(make, &mut history, &mut out);
        20
    } else {
        make.random.below(25)
    };
    // Some histories are polite throughout, so that they go on for long.
    let rude = make.random.one_in(2);
    make.shared = rude;
    for _ in 0..fields {
        let value = if rude && make.random.one_in(10) {
            broken_rule(make, &mut history)
        } else {
            polite(make, &mut history)
        };
        put_field(&mut out, &value);
    }
    if make.random.one_in(3) {
        fault(make, &mut out);
    }
    out
}

/// A tag and its value.
pub(super) type Value = (u8, Vec<u8>);

fn put_field(out: &mut Vec<u8>, (tag, value): &Value) {
    let length = u16::try_from(value.len()).expect("generated values are short");
    out.push(*tag);
    out.extend(length.to_be_bytes());
    out.extend(value);
}

fn start(make: &mut Make, out: &mut Vec<u8>) -> History {
    let maximum = make.random.one_of(&[0, 3, 10, 63, 64, 1_000, GREATEST]);
    let mut value = vec![make.random.below(2) as u8];
    make.integer(&mut value, maximum);
    put_field(out, &(1, value));
    History {
        next_id: make.random.below(3),
        next_alias: make.random.below(3),
        maximum,
        rows: Vec::new(),
    }
}

/// More SUBSCRIBEs than there are rows.
fn crowd(make: &mut Make, history: &mut History, out: &mut Vec<u8>) {
    for _ in 0..66 {
        let value = subscribe(make, history);
        put_field(out, &value);
    }
}

fn control(make: &mut Make, kind: u64, body: &[u8]) -> Value {
    (2, message::with_header(make, kind, body))
}

/// A message that holds an ID and, for ERROR and DONE, more after it.
pub(super) fn by_id(make: &mut Make, kind: u64, id: u64) -> Value {
    let mut body = Vec::new();
    make.integer(&mut body, id);
    match kind {
        0x4 => {
            make.any_integer(&mut body);
            let content = make.random.below(2) as u8;
            body.extend([1, content]);
            if content == 1 {
                small_place(make, &mut body);
            }
            body.push(0);
        }
        0x5 => body.extend([1, 0, 7]),
        0xB => body.extend([1, 2, 0]),
        _ => (),
    }
    control(make, kind, &body)
}

/// Groups and objects from a small field, so that they meet; groups about
/// 65,536 among them.
fn small_place(make: &mut Make, out: &mut Vec<u8>) {
    let few = make.random.below(6);
    let group = make
        .random
        .one_of(&[few, few, few, 65_535, 65_536, GREATEST]);
    make.integer(out, group);
    let object = make.random.below(5);
    make.integer(out, object);
}

/// A SUBSCRIBE with the next ID and alias, if the maximum permits.
fn subscribe(make: &mut Make, history: &mut History) -> Value {
    if history.next_id >= history.maximum && make.random.one_in(2) {
        return larger_maximum(make, history);
    }
    let (id, alias) = (history.next_id, history.next_alias);
    history.next_id += 1 + make.random.below(2);
    history.next_alias += 1;
    history.rows.push((id, alias, false));
    subscribe_as(make, id, alias)
}

pub(super) fn subscribe_as(make: &mut Make, id: u64, alias: u64) -> Value {
    let mut body = Vec::new();
    make.integer(&mut body, id);
    make.integer(&mut body, alias);
    track::track(make, id, &mut body);
    body.push(0x80);
    let filter = 2 + make.random.below(3);
    body.push(make.random.below(3) as u8);
    make.integer(&mut body, filter);
    if filter > 2 {
        let group = make.random.below(6);
        make.integer(&mut body, group);
        make.integer(&mut body, filter);
        if filter == 4 {
            let end = group + make.random.below(4);
            make.integer(&mut body, end);
        }
    }
    body.push(0);
    control(make, 0x3, &body)
}

fn larger_maximum(make: &mut Make, history: &mut History) -> Value {
    let larger = history.maximum + 1 + make.random.below(10);
    history.maximum = larger.min(GREATEST);
    by_id(make, 0x15, history.maximum)
}

fn arrival(make: &mut Make, alias: u64) -> Value {
    let mut value = Vec::new();
    make.integer(&mut value, alias);
    small_place(make, &mut value);
    (3, value)
}

/// A field that breaks no rule, as far as the history is right.
fn polite(make: &mut Make, history: &mut History) -> Value {
    if history.rows.is_empty() {
        return subscribe(make, history);
    }
    let at = make.random.below(history.rows.len() as u64) as usize;
    let (id, alias, active) = history.rows[at];
    match make.random.below(16) {
        0..=2 => subscribe(make, history),
        3 | 4 if !active => {
            history.rows[at].2 = true;
            by_id(make, 0x4, id)
        }
        3 => {
            history.rows.remove(at);
            by_id(make, 0xB, id)
        }
        5 if !active && make.random.one_in(3) => {
            history.rows.remove(at);
            by_id(make, 0x5, id)
        }
        6 if make.random.one_in(2) => {
            history.rows.remove(at);
            by_id(make, 0xA, id)
        }
        7 => larger_maximum(make, history),
        8 => {
            let alias = make.random.below(8);
            arrival(make, alias)
        }
        9 if make.random.one_in(2) => (2, message::any(make)),
        _ => arrival(make, alias),
    }
}

/// A field that breaks one of R1 to R7, or names a row that is gone.
fn broken_rule(make: &mut Make, history: &mut History) -> Value {
    let unused = history.next_id + 5;
    let last = history.rows.last().copied();
    let (id, alias, active) = last.unwrap_or((unused, 0, false));
    match make.random.below(10) {
        0 => malformed(make),
        1 => subscribe_as(make, id, history.next_alias),
        2 => subscribe_as(make, history.maximum, history.next_alias),
        3 => {
            let id = history.next_id;
            history.next_id += 1;
            subscribe_as(make, id, alias)
        }
        4 => {
            let kind = make.random.one_of(&[0x4, 0x5, 0xA, 0xB]);
            by_id(make, kind, unused)
        }
        5 => {
            let kind = make.random.one_of(&[0x4, 0x5]);
            let kind = if active { kind } else { 0xB };
            by_id(make, kind, id)
        }
        6 => {
            let less = make.random.below(3);
            by_id(make, 0x15, history.maximum.saturating_sub(less))
        }
        _ => {
            let kind = make.random.one_of(&[0x4, 0x5, 0xA, 0xB]);
            let stale = make.random.below(history.next_id + 1);
            by_id(make, kind, stale)
        }
    }
}

/// Bytes that the reader most often refuses.
pub(super) fn malformed(make: &mut Make) -> Value {
    let known = [
        b"\x3F".as_slice(),
        b"\x17\x80\x00\xFD\xE9",
        b"\x17\x80\x01\x00\x01\x05",
        b"\x17\x02\x05\x00",
        b"\x0E\x08\x01\x01m\x01a\x01\x00\x01",
        b"\x07\x01\x21",
        b"\x17\x02\x05\x00\xFF",
    ];
    let at = make.random.below(known.len() as u64 + 1) as usize;
    if let Some(bytes) = known.get(at) {
        return (2, bytes.to_vec());
    }
    let mut bytes = message::any(make);
    damage::message(make, &mut bytes);
    (2, bytes)
}

/// A field that is a fault, at the end or in the middle of the trace, a long
/// message that may be one, or a trace whose bytes are damaged anywhere.
fn fault(make: &mut Make, out: &mut Vec<u8>) {
    let shapes = [
        b"\x01\x00\x02\x00\x0A".as_slice(),
        b"\x00\x00\x00",
        b"\x04\x00\x01\x00",
        b"\x02\x00\x00",
        b"\x02\x00\x01\x40",
        b"\x02\x00\x02\x17\x01",
        b"\x02\x00\x04\x17\x01\x05\xFF",
        b"\x02\x00\x05\x17\x80\x00\x40\x00",
        b"\x02\x00\x05\x17\x80\x00\xFD\xE8",
        b"\x02\x00\x09\x17\x01",
        b"\x02\x00",
        b"\x02",
        b"\x03\x00\x00",
        b"\x03\x00\x02\x07\x00",
        b"\x03\x00\x04\x07\x00\x00\x00",
        b"\x03\xFF\xFF\x07\x00\x00",
    ];
    match make.random.below(8) {
        0 => damage::cut(&mut make.random, out),
        1 => damage::flip(&mut make.random, out),
        2 => damage::any(&mut make.random, out),
        3 => other_start(make, out),
        4 => long_message(make, out),
        _ => {
            let at = make.random.below(shapes.len() as u64) as usize;
            out.extend(shapes[at]);
            if make.random.one_in(2) {
                out.extend(b"\x03\x00\x03\x07\x00\x00");
            }
        }
    }
}

/// A long message with a byte after it, without its last one, damaged, or as it
/// is.
fn long_message(make: &mut Make, out: &mut Vec<u8>) {
    make.wild = make.random.one_in(2);
    let mut value = filled::message(make);
    match make.random.below(4) {
        0 => make.byte(&mut value),
        1 => value.truncate(value.len() - 1),
        2 => damage::message(make, &mut value),
        _ => (),
    }
    put_field(out, &(2, value));
}

/// A first field of another shape.
fn other_start(make: &mut Make, out: &mut Vec<u8>) {
    let starts = [
        b"".as_slice(),
        b"\x01",
        b"\x01\x00\x00",
        b"\x01\x00\x01\x00",
        b"\x01\x00\x02\x02\x0A",
        b"\x01\x00\x02\x00\x40",
        b"\x01\x00\x03\x00\x0A\x00",
        b"\x02\x00\x03\x17\x01\x05",
        b"\x03\x00\x03\x07\x00\x00",
    ];
    let at = make.random.below(starts.len() as u64) as usize;
    let mut other = starts[at].to_vec();
    if make.random.one_in(2) {
        other.extend(out.iter().skip(5));
    }
    *out = other;
}
