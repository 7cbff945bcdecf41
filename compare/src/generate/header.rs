//! Generated data headers.

use super::make::Make;
use crate::integer::GREATEST;

const STATUSES: [u64; 4] = [0, 1, 3, 4];
const FORBIDDEN_STATUSES: [u64; 5] = [2, 5, 6, 64, GREATEST];

/// The beginning of a stream.
pub fn stream(make: &mut Make) -> Vec<u8> {
    let mut out = Vec::new();
    let kind = make.value(&[4, 5], &[0, 1, 2, 3, 6, 64]);
    make.integer(&mut out, kind);
    if kind == 5 {
        make.any_integer(&mut out);
    } else {
        make.integers(&mut out, 3);
        make.byte(&mut out);
    }
    out
}

/// A whole datagram, with a payload where it has one.
pub fn datagram(make: &mut Make) -> Vec<u8> {
    let mut out = Vec::new();
    let kind = make.value(&[1, 2], &[0, 3, 4, 5, 64]);
    make.integer(&mut out, kind);
    make.integers(&mut out, 3);
    make.byte(&mut out);
    make.counted(&mut out);
    if kind == 2 {
        let status = make.value(&STATUSES, &FORBIDDEN_STATUSES);
        make.integer(&mut out, status);
        if make.wild && make.random.one_in(2) {
            make.byte(&mut out);
        }
    } else {
        let payload = make.random.below(5);
        make.bytes(&mut out, payload);
    }
    out
}

/// An object header on a subgroup stream.
pub fn subgroup_object(make: &mut Make) -> Vec<u8> {
    let mut out = Vec::new();
    make.any_integer(&mut out);
    object(make, &mut out);
    out
}

/// An object header on a fetch stream.
pub fn fetch_object(make: &mut Make) -> Vec<u8> {
    let mut out = Vec::new();
    make.integers(&mut out, 3);
    make.byte(&mut out);
    object(make, &mut out);
    out
}

/// Extension headers, payload length, status; at times some payload.
fn object(make: &mut Make, out: &mut Vec<u8>) {
    if make.wild && make.random.one_in(6) {
        make.any_integer(out);
    } else {
        make.counted(out);
    }
    if make.random.one_in(2) {
        make.integer(out, 0);
        let status = make.value(&STATUSES, &FORBIDDEN_STATUSES);
        make.integer(out, status);
    } else {
        let length = 1 + make.number().min(GREATEST - 1);
        make.integer(out, length);
        let some = make.random.below(4);
        make.bytes(out, some);
    }
}
