//! Generated messages with long bodies: about the greatest Length, about the
//! greatest that is written in two bytes, and between.

use super::make::{integer_of_size, shortest, Make};
use super::message::{self, VARIANTS};

/// Lengths of bodies. 01's limit was 16,383; 02's K8 raises it to 65,000.
const LENGTHS: [u64; 8] = [
    16_382, 16_383, 16_384, 16_385, 64_999, 65_000, 65_001, 65_002,
];

/// A Length: one of these, or one between.
pub fn length(make: &mut Make) -> u64 {
    if make.random.one_in(4) {
        return 16_384 + make.random.below(48_616);
    }
    make.random.one_of(&LENGTHS)
}

/// A message whose body is so long, all of it there. One in three has a Type
/// and a Length of eight bytes each.
pub fn message(make: &mut Make) -> Vec<u8> {
    make.long = false;
    let length = length(make);
    let (kind, body) = if make.random.one_in(6) {
        (0x40, versions(make, length))
    } else {
        stretched(make, length)
    };
    if !make.random.one_in(3) {
        return message::with_header(make, kind, &body);
    }
    let mut out = Vec::new();
    integer_of_size(&mut out, kind, 8);
    integer_of_size(&mut out, length, 8);
    out.extend(body);
    out
}

/// A type, and a body whose last URI, reason or parameter's value is so long
/// that the body has this length. Types without such a field are passed over.
fn stretched(make: &mut Make, length: u64) -> (u64, Vec<u8>) {
    loop {
        let at = make.random.below(VARIANTS.len() as u64);
        let (kind, variant) = VARIANTS[at as usize];
        let mut body = Vec::new();
        make.counted_at = None;
        message::put_body(make, kind, variant, &mut body);
        if let Some((start, end)) = make.counted_at {
            let behind = body.split_off(end);
            body.truncate(start);
            let field = length - (body.len() + behind.len()) as u64;
            counted(make, field, &mut body);
            body.extend(behind);
            return (kind, body);
        }
    }
}

/// Writes a length and bytes, so many together; where wild, the length may be
/// one too small or too great.
fn counted(make: &mut Make, all: u64, out: &mut Vec<u8>) {
    let size = if make.padded && make.random.one_in(2) {
        8
    } else {
        shortest(all - 2)
    };
    let length = all - size as u64;
    let stated = make.value(&[length], &[length ^ 1]);
    integer_of_size(out, stated, size);
    make.field(out, length);
}

/// The body of a CLIENT_SETUP with so many versions that it has this length:
/// each of one byte, or half of them of eight.
fn versions(make: &mut Make, length: u64) -> Vec<u8> {
    let mut parameters = Vec::new();
    make.parameters(&mut parameters);
    let room = length as usize - 4 - parameters.len();
    let wide = make.random.one_in(2);
    let mut count = 0;
    let mut versions = Vec::new();
    while versions.len() < room {
        if wide && versions.len() + 8 <= room && make.random.one_in(2) {
            let version = make.number();
            integer_of_size(&mut versions, version, 8);
        } else {
            versions.push(make.random.below(64) as u8);
        }
        count += 1;
    }
    let mut body = Vec::new();
    integer_of_size(&mut body, count, 4);
    body.extend(versions);
    body.extend(parameters);
    body
}
