//! A whole report: ten million arrivals over 64 rows, from the bytes of the trace
//! to the text.

use second::ledger::ROWS;
use second::{integer, report};

use crate::{clock, ours};

const ARRIVALS: usize = 10_000_000;

pub fn measure() {
    let trace = trace();
    let mut text = vec![0; report::LONGEST_REPORT];
    let ours = || {
        let mut info = [0u64; 1];
        unsafe {
            ours::moq_report(
                trace.as_ptr(),
                trace.len(),
                text.as_mut_ptr(),
                text.len(),
                info.as_mut_ptr(),
                1,
            )
        };
        text[..info[0] as usize].to_vec()
    };
    clock::compare_times("report an arrival", ARRIVALS, 5, ours, || {
        report::report(&trace)
    });
}

/// A start, a SUBSCRIBE to a track of its own and a SUBSCRIBE_OK for each row,
/// and arrivals whose groups rise with noise.
fn trace() -> Vec<u8> {
    let mut trace = Vec::with_capacity(120 << 20);
    field(&mut trace, 1, &[&[0], &number(1_000)]);
    for id in 0..ROWS as u64 {
        let body = [
            &number(id)[..],
            &number(1_000 + id),
            b"\x01\x01m\x02c",
            &[id as u8],
            b"\x80\x01\x02\x00",
        ]
        .concat();
        field(&mut trace, 2, &[&[3], &number(body.len() as u64), &body]);
        let body = [&number(id)[..], &[0, 1, 0, 0]].concat();
        field(&mut trace, 2, &[&[4], &number(body.len() as u64), &body]);
    }
    let mut seed = 7u64;
    for at in 0..ARRIVALS as u64 {
        seed = seed.wrapping_mul(6_364_136_223_846_793_005).wrapping_add(1);
        let alias = 1_000 + (seed >> 33) % ROWS as u64;
        let group = at / 1_000 + (seed >> 40) % 100_000;
        field(
            &mut trace,
            3,
            &[&number(alias), &number(group), &number((seed >> 50) % 200)],
        );
    }
    trace
}

fn field(trace: &mut Vec<u8>, tag: u8, parts: &[&[u8]]) {
    let size: usize = parts.iter().map(|part| part.len()).sum();
    trace.push(tag);
    trace.extend_from_slice(&(size as u16).to_be_bytes());
    for part in parts {
        trace.extend_from_slice(part);
    }
}

fn number(n: u64) -> Vec<u8> {
    let mut bytes = vec![0; 8];
    let used = integer::write(n, &mut bytes).expect("it can be written");
    bytes.truncate(used);
    bytes
}
