//! Generated control messages.

use super::filled;
use super::make::Make;
use crate::integer::GREATEST;

/// Every type with each of its variants: filter types of SUBSCRIBE, content
/// or none in SUBSCRIBE_OK, Fetch Types, track statuses. A variant of 0 is
/// that of a type without variants.
pub const VARIANTS: [(u64, u64); 36] = [
    (0x2, 0),
    (0x3, 2),
    (0x3, 3),
    (0x3, 4),
    (0x4, 0),
    (0x4, 1),
    (0x5, 0),
    (0x6, 0),
    (0x7, 0),
    (0x8, 0),
    (0x9, 0),
    (0xA, 0),
    (0xB, 0),
    (0xC, 0),
    (0xD, 0),
    (0xE, 0),
    (0xE, 1),
    (0xE, 2),
    (0xE, 3),
    (0xE, 4),
    (0x10, 0),
    (0x11, 0),
    (0x12, 0),
    (0x13, 0),
    (0x14, 0),
    (0x15, 0),
    (0x16, 1),
    (0x16, 2),
    (0x16, 3),
    (0x17, 0),
    (0x18, 0),
    (0x19, 0),
    (0x1A, 0),
    (0x40, 0),
    (0x41, 0),
    (0x40, 1),
];

/// A message of any type and variant whose Length is that of its body. One in
/// 25 is long.
pub fn any(make: &mut Make) -> Vec<u8> {
    if make.random.one_in(25) {
        return filled::message(make);
    }
    let at = make.random.below(VARIANTS.len() as u64);
    let (kind, variant) = VARIANTS[at as usize];
    message(make, kind, variant)
}

/// A message whose Length is that of its body.
pub fn message(make: &mut Make, kind: u64, variant: u64) -> Vec<u8> {
    let mut body = Vec::new();
    put_body(make, kind, variant, &mut body);
    with_header(make, kind, &body)
}

/// Type, Length and this body.
pub fn with_header(make: &mut Make, kind: u64, body: &[u8]) -> Vec<u8> {
    let mut out = Vec::new();
    make.integer(&mut out, kind);
    make.integer(&mut out, body.len() as u64);
    out.extend_from_slice(body);
    out
}

/// Writes the body of a message.
pub fn put_body(make: &mut Make, kind: u64, variant: u64, out: &mut Vec<u8>) {
    match kind {
        0x2 => {
            make.integers(out, 4);
            make.byte(out);
            make.parameters(out);
        }
        0x3 => subscribe(make, variant, out),
        0x4 => subscribe_ok(make, variant, out),
        0x5 => {
            make.integers(out, 2);
            make.counted(out);
            make.any_integer(out);
        }
        0x6 | 0x11 => {
            make.namespace(out);
            make.parameters(out);
        }
        0x7 | 0x9 | 0x12 | 0x14 => {
            make.namespace(out);
        }
        0x8 | 0xC | 0x13 => {
            make.namespace(out);
            make.any_integer(out);
            make.counted(out);
        }
        0xB | 0x19 => {
            let numbers = if kind == 0xB { 3 } else { 2 };
            make.integers(out, numbers);
            make.counted(out);
        }
        0xD => make.track(out),
        0xE => track_status(make, variant, out),
        0x10 => make.counted(out),
        _ => put_other_body(make, kind, variant, out),
    }
}

fn put_other_body(make: &mut Make, kind: u64, variant: u64, out: &mut Vec<u8>) {
    match kind {
        0x16 => fetch(make, variant, out),
        0x18 => {
            make.any_integer(out);
            let order = make.value(&[1, 2], &[0, 3, 255]);
            out.push(order as u8);
            make.byte(out);
            make.integers(out, 2);
            make.parameters(out);
        }
        0x40 => {
            let count = if variant == 0 {
                1
            } else {
                make.random.below(70)
            };
            make.integer(out, count);
            make.integers(out, count as usize);
            make.parameters(out);
        }
        0x41 => {
            make.any_integer(out);
            make.parameters(out);
        }
        // UNSUBSCRIBE, MAX_SUBSCRIBE_ID, FETCH_CANCEL, SUBSCRIBES_BLOCKED.
        _ => make.any_integer(out),
    }
}

fn subscribe(make: &mut Make, filter: u64, out: &mut Vec<u8>) {
    make.integers(out, 2);
    make.track(out);
    make.byte(out);
    let order = make.value(&[0, 1, 2], &[3, 4, 255]);
    out.push(order as u8);
    let filter = make.value(&[filter], &[0, 1, 5, GREATEST]);
    make.integer(out, filter);
    if filter == 3 || filter == 4 {
        let start = make.number();
        make.integer(out, start);
        make.any_integer(out);
        if filter == 4 {
            let later = (start + make.random.below(4)).min(GREATEST);
            let end = make.value(&[start, later, GREATEST], &[start.saturating_sub(1), 0]);
            make.integer(out, end);
        }
    }
    make.parameters(out);
}

fn subscribe_ok(make: &mut Make, content: u64, out: &mut Vec<u8>) {
    make.integers(out, 2);
    let order = make.value(&[1, 2], &[0, 3, 255]);
    out.push(order as u8);
    let content = make.value(&[content], &[2, 255]);
    out.push(content as u8);
    if content == 1 {
        make.integers(out, 2);
    }
    make.parameters(out);
}

fn track_status(make: &mut Make, status: u64, out: &mut Vec<u8>) {
    make.track(out);
    let status = make.value(&[status], &[5, 6, 64, GREATEST]);
    make.integer(out, status);
    for _ in 0..2 {
        let mut number = make.number();
        if status == 1 || status == 2 {
            number = make.value(&[0], &[1, GREATEST]);
        }
        make.integer(out, number);
    }
}

fn fetch(make: &mut Make, fetch_type: u64, out: &mut Vec<u8>) {
    make.any_integer(out);
    make.byte(out);
    let order = make.value(&[0, 1, 2], &[3, 255]);
    out.push(order as u8);
    let fetch_type = make.value(&[fetch_type], &[0, 4, 5, GREATEST]);
    make.integer(out, fetch_type);
    if fetch_type == 1 {
        make.track(out);
        make.integers(out, 4);
    } else {
        make.integers(out, 2);
    }
    make.parameters(out);
}
