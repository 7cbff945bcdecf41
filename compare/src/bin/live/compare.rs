//! One case, put to both: every answer, every byte of the buffers and every
//! value that is told must agree, and what may not be changed must stand as it
//! was.

use second::cases::Kind;
use second::integer;
use second::report;
use second::rewrite::{self, Rewritten};

use crate::ours;

/// What stands in the buffers before a call.
pub const BYTE: u8 = 0xA5;
pub const VALUE: u64 = 0x5A5A_5A5A_5A5A_5A5A;

type Call = fn(&[u8], &mut [u8], &mut [u64]) -> u64;

/// What a call must answer, the bytes that must be written and the values that
/// must be told; only with 0 are there any.
struct Expected {
    number: u64,
    bytes: Vec<u8>,
    values: Vec<u64>,
}

/// How the two differ over a case, if they do.
pub fn difference(kind: Kind, s: &[u8]) -> Option<String> {
    match kind {
        Kind::Integer => integer_difference(s),
        Kind::Control => rewritten(ours::control, s, rewrite::control(s)),
        Kind::Datagram => rewritten(ours::datagram, s, rewrite::datagram(s)),
        Kind::Stream => rewritten(ours::stream, s, rewrite::stream(s)),
        Kind::SubgroupObject => rewritten(ours::subgroup_object, s, rewrite::subgroup_object(s)),
        Kind::FetchObject => rewritten(ours::fetch_object, s, rewrite::fetch_object(s)),
        Kind::Trace | Kind::Answers => text(ours::report, s, report::report(s))
            .or_else(|| text(ours::answers, s, report::answers(s))),
    }
}

fn rewritten(call: Call, s: &[u8], theirs: Result<Rewritten, u8>) -> Option<String> {
    let expected = match theirs {
        Ok((used, bytes, kind)) => {
            let values = vec![used as u64, bytes.len() as u64, kind];
            Expected {
                number: 0,
                bytes,
                values,
            }
        }
        Err(number) => Expected {
            number: u64::from(number),
            bytes: Vec::new(),
            values: Vec::new(),
        },
    };
    rooms(call, s, &expected)
}

fn text(call: Call, s: &[u8], text: Vec<u8>) -> Option<String> {
    let values = vec![text.len() as u64];
    rooms(
        call,
        s,
        &Expected {
            number: 0,
            bytes: text,
            values,
        },
    )
}

/// With room to spare, with just enough, and with one too little of either.
fn rooms(call: Call, s: &[u8], expected: &Expected) -> Option<String> {
    let (bytes, values) = (expected.bytes.len(), expected.values.len());
    let one = |out, info, short| with(call, s, out, info, expected, short);
    one(bytes + 9, values + 1, false)
        .or_else(|| one(bytes, values, false))
        .or_else(|| {
            if expected.number != 0 {
                return None;
            }
            let less_bytes = if bytes > 0 {
                one(bytes - 1, values, true)
            } else {
                None
            };
            less_bytes.or_else(|| one(bytes, values - 1, true))
        })
}

/// One call with buffers of this length; 7 is due where one is too short.
fn with(
    call: Call,
    s: &[u8],
    out_len: usize,
    info_len: usize,
    expected: &Expected,
    short: bool,
) -> Option<String> {
    let mut out = vec![BYTE; out_len];
    let mut info = vec![VALUE; info_len];
    let number = call(s, &mut out, &mut info);
    let due = if short { 7 } else { expected.number };
    if number != due {
        return Some(format!("answers {number}, and {due} is due"));
    }
    let mut bytes = vec![BYTE; out_len];
    let mut values = vec![VALUE; info_len];
    if due == 0 {
        bytes[..expected.bytes.len()].copy_from_slice(&expected.bytes);
        values[..expected.values.len()].copy_from_slice(&expected.values);
    }
    if out != bytes {
        return Some(format!("leaves {out:02x?}, and {bytes:02x?} is due"));
    }
    if info != values {
        return Some(format!("tells {info:?}, and {values:?} is due"));
    }
    None
}

/// An integer is read; and what is read, the number after it, which may be in
/// the next row of RFC 9000's table or in none, and what its bytes are as a
/// number, is written.
fn integer_difference(s: &[u8]) -> Option<String> {
    let read = integer::read(s);
    let expected = match read {
        Ok((n, used)) => Expected {
            number: 0,
            bytes: Vec::new(),
            values: vec![n, used as u64],
        },
        Err(integer::More) => Expected {
            number: 1,
            bytes: Vec::new(),
            values: Vec::new(),
        },
    };
    let reading: Call = |s, _, info| ours::integer_read(s, info);
    let mut all = [0; 8];
    let count = s.len().min(8);
    all[..count].copy_from_slice(&s[..count]);
    rooms(reading, s, &expected)
        .or_else(|| read.ok().and_then(|(n, _)| written(n)))
        .or_else(|| read.ok().and_then(|(n, _)| written(n + 1)))
        .or_else(|| written(u64::from_le_bytes(all)))
}

fn written(n: u64) -> Option<String> {
    let mut bytes = vec![0; 8];
    let expected = match integer::write(n, &mut bytes) {
        Ok(used) => {
            bytes.truncate(used);
            Expected {
                number: 0,
                values: vec![used as u64],
                bytes,
            }
        }
        Err(number) => Expected {
            number: u64::from(number),
            bytes: Vec::new(),
            values: Vec::new(),
        },
    };
    let writing: Call = |s, out, info| {
        let mut n = [0; 8];
        n.copy_from_slice(s);
        ours::integer_write(u64::from_le_bytes(n), out, info)
    };
    rooms(writing, &n.to_le_bytes(), &expected)
}
