//! What is done to valid bytes so that they aren't any more.

use super::filled;
use super::make::{integer_of_size, Make};
use super::message;
use super::random::Random;
use crate::integer::{self, GREATEST};

/// Cuts the bytes somewhere.
pub fn cut(random: &mut Random, bytes: &mut Vec<u8>) {
    let length = random.below(bytes.len() as u64 + 1);
    bytes.truncate(length as usize);
}

/// Turns one bit over.
pub fn flip(random: &mut Random, bytes: &mut [u8]) {
    if bytes.is_empty() {
        return;
    }
    let at = random.below(bytes.len() as u64) as usize;
    bytes[at] ^= 1 << random.below(8);
}

/// Puts a byte in somewhere, takes one out, or sets one to any value.
pub fn any(random: &mut Random, bytes: &mut Vec<u8>) {
    let byte = random.number() as u8;
    let at = random.below(bytes.len() as u64 + 1) as usize;
    if at == bytes.len() || random.one_in(3) {
        bytes.insert(at, byte);
    } else if random.one_in(2) {
        bytes.remove(at);
    } else {
        bytes[at] = byte;
    }
}

/// Damages a message: cuts, flips, another Type, a Length that disagrees.
pub fn message(make: &mut Make, bytes: &mut Vec<u8>) {
    match make.random.below(10) {
        0 => cut(&mut make.random, bytes),
        1 => flip(&mut make.random, bytes),
        2 => any(&mut make.random, bytes),
        3 => {
            flip(&mut make.random, bytes);
            flip(&mut make.random, bytes);
        }
        // Bytes after the message are no fault.
        4 => make.bytes(bytes, 3),
        5 => other_type(make, bytes),
        6 => great_length(make, bytes),
        7 => cut_body(make, bytes),
        8 => longer_body(make, bytes),
        _ => other_length(make, bytes),
    }
}

/// Type, body and the bytes used before it; none where the header is cut.
fn parts(bytes: &[u8]) -> Option<(u64, Vec<u8>)> {
    let (kind, used) = integer::read(bytes).ok()?;
    let (_, more) = integer::read(&bytes[used..]).ok()?;
    Some((kind, bytes[used + more..].to_vec()))
}

/// A Type from a gap, beyond the last, or of another message.
fn other_type(make: &mut Make, bytes: &mut Vec<u8>) {
    let Some((_, body)) = parts(bytes) else {
        return;
    };
    let kinds = [0, 1, 0xF, 0x1B, 0x3F, 0x42, 0x4000, GREATEST];
    let mut kind = make.random.one_of(&kinds);
    if make.random.one_in(2) {
        kind = make.random.below(0x42);
    }
    *bytes = message::with_header(make, kind, &body);
}

/// A Length about the greatest permitted one, or one that would be the body's
/// if it were kept in 16 or 32 bits.
fn great_length(make: &mut Make, bytes: &mut Vec<u8>) {
    let Some((kind, body)) = parts(bytes) else {
        return;
    };
    let own = body.len() as u64;
    let lengths = [65_535, own + (1 << 16), own + (1 << 32), GREATEST];
    let length = match make.random.below(2) {
        0 => filled::length(make),
        _ => make.random.one_of(&lengths),
    };
    let mut out = Vec::new();
    make.integer(&mut out, kind);
    make.integer(&mut out, length);
    out.extend(body);
    *bytes = out;
}

/// A shorter body whose Length agrees with it.
fn cut_body(make: &mut Make, bytes: &mut Vec<u8>) {
    let Some((kind, mut body)) = parts(bytes) else {
        return;
    };
    cut(&mut make.random, &mut body);
    *bytes = message::with_header(make, kind, &body);
}

/// A body with bytes after its fields, or one byte changed.
fn longer_body(make: &mut Make, bytes: &mut Vec<u8>) {
    let Some((kind, mut body)) = parts(bytes) else {
        return;
    };
    if make.random.one_in(2) {
        let more = 1 + make.random.below(3);
        make.bytes(&mut body, more);
    } else {
        any(&mut make.random, &mut body);
    }
    *bytes = message::with_header(make, kind, &body);
}

/// A Length that is a little off, before the same body.
fn other_length(make: &mut Make, bytes: &mut Vec<u8>) {
    let Some((kind, body)) = parts(bytes) else {
        return;
    };
    let length = (body.len() as u64 + make.random.below(6)).saturating_sub(3);
    let mut out = Vec::new();
    make.integer(&mut out, kind);
    integer_of_size(&mut out, length, 8);
    out.extend(body);
    *bytes = out;
}
