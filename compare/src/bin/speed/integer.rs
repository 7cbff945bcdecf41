//! Integers, by the size of their shortest form and mixed: each a call across
//! the C boundary.

use std::hint::black_box;

use second::integer;

use crate::{clock, ours, quinn};

/// How many numbers a pass has.
const COUNT: usize = 65_536;

/// What the numbers of a pass take: 1, 2, 4 or 8 bytes each, or any of these.
const SIZES: [(&str, &[usize]); 5] = [
    ("1", &[1]),
    ("2", &[2]),
    ("4", &[4]),
    ("8", &[8]),
    ("mixed", &[1, 2, 4, 8]),
];

pub fn measure() {
    for (name, sizes) in SIZES {
        let numbers = numbers(sizes);
        let bytes = written(&numbers);
        read_calls(name, &bytes);
        write_calls(name, &numbers, bytes.len());
    }
}

/// Numbers whose shortest forms have these sizes, by turns that nothing could
/// foretell.
fn numbers(sizes: &[usize]) -> Vec<u64> {
    let mut seed = 0x9E37_79B9_7F4A_7C15_u64;
    let mut next = move || {
        seed ^= seed << 13;
        seed ^= seed >> 7;
        seed ^= seed << 17;
        seed
    };
    (0..COUNT)
        .map(|_| {
            let size = sizes[(next() >> 32) as usize % sizes.len()];
            let (least, greatest) = bounds(size);
            least + next() % (greatest - least + 1)
        })
        .collect()
}

/// The least and the greatest number whose shortest form has that many bytes.
fn bounds(size: usize) -> (u64, u64) {
    match size {
        1 => (0, 63),
        2 => (64, 16_383),
        4 => (16_384, 1_073_741_823),
        _ => (1_073_741_824, integer::GREATEST),
    }
}

fn written(numbers: &[u64]) -> Vec<u8> {
    let mut bytes = vec![0; 8 * numbers.len()];
    let mut at = 0;
    for &n in numbers {
        at += integer::write(n, &mut bytes[at..]).expect("the numbers can be written");
    }
    bytes.truncate(at);
    bytes
}

fn read_calls(name: &str, bytes: &[u8]) {
    let pass = |read: ours::Read| {
        let read = black_box(read);
        let (mut at, mut all, mut info) = (0, 0, [0u64; 2]);
        while at < bytes.len()
            && unsafe { read(bytes[at..].as_ptr(), bytes.len() - at, info.as_mut_ptr(), 2) } == 0
        {
            all ^= info[0];
            at += info[1] as usize;
        }
        (at, all)
    };
    clock::compare(
        &format!("integer read call {name}"),
        COUNT,
        || pass(ours::moq_integer_read),
        || pass(quinn::read),
    );
}

fn write_calls(name: &str, numbers: &[u64], len: usize) {
    let pass = |write: ours::Write, out: &mut [u8]| {
        let write = black_box(write);
        let (mut at, mut info) = (0, [0u64; 2]);
        for &n in numbers {
            let room = &mut out[at..];
            if unsafe { write(n, room.as_mut_ptr(), room.len(), info.as_mut_ptr(), 2) } != 0 {
                break;
            }
            at += info[0] as usize;
        }
        at
    };
    let (mut mine, mut other) = (vec![0; len], vec![0; len]);
    let (ours, theirs) = (
        || pass(ours::moq_integer_write, &mut mine),
        || pass(quinn::write, &mut other),
    );
    clock::compare(&format!("integer write call {name}"), COUNT, ours, theirs);
    assert!(mine == other, "what is written differs");
}
