//! Messages by family, and data headers: each is read, and written again in its
//! shortest form. The output is not cleared between.

use std::hint::black_box;

use second::cases::Kind;
use second::generate::Cases;
use second::rewrite::{self, Written};

use crate::{clock, ours};

/// How many messages or headers a pass has.
const COUNT: usize = 512;

/// The longest that is taken: what is longer would measure how fast bytes are
/// copied.
const LONGEST: usize = 200;

type Theirs = fn(&[u8], &mut [u8]) -> Result<Written, u8>;

pub fn measure() {
    let families: [(&str, &[u64]); 4] = [
        ("subscription", &[0x2, 0x3, 0x4, 0x5, 0xA, 0xB, 0x15, 0x1A]),
        ("fetch", &[0xD, 0xE, 0x16, 0x17, 0x18, 0x19]),
        (
            "announce",
            &[0x6, 0x7, 0x8, 0x9, 0xC, 0x11, 0x12, 0x13, 0x14],
        ),
        ("session", &[0x10, 0x40, 0x41]),
    ];
    for (name, types) in families {
        let all = wholes(Kind::Control, rewrite::control_into, |kind| {
            types.contains(&kind)
        });
        line(name, &all, ours::moq_control_rewrite, rewrite::control_into);
    }
    let any = |_| true;
    let all = wholes(Kind::Datagram, rewrite::datagram_into, any);
    line(
        "datagram",
        &all,
        ours::moq_datagram_rewrite,
        rewrite::datagram_into,
    );
    let all = wholes(Kind::Stream, rewrite::stream_into, any);
    line(
        "stream",
        &all,
        ours::moq_stream_rewrite,
        rewrite::stream_into,
    );
    let all = wholes(Kind::SubgroupObject, rewrite::subgroup_object_into, any);
    line(
        "subgroup object",
        &all,
        ours::moq_subgroup_object_rewrite,
        rewrite::subgroup_object_into,
    );
    let all = wholes(Kind::FetchObject, rewrite::fetch_object_into, any);
    line(
        "fetch object",
        &all,
        ours::moq_fetch_object_rewrite,
        rewrite::fetch_object_into,
    );
}

/// Generated ones that are whole, of the types asked for.
fn wholes(kind: Kind, theirs: Theirs, wanted: impl Fn(u64) -> bool) -> Vec<Vec<u8>> {
    let mut cases = Cases::new(7);
    let mut found = Vec::new();
    let mut out = vec![0; LONGEST];
    while found.len() < COUNT {
        let (made, bytes) = cases.next_case();
        if made == kind && bytes.len() <= LONGEST {
            if let Ok((_, _, number)) = theirs(&bytes, &mut out) {
                if wanted(number) {
                    found.push(bytes);
                }
            }
        }
    }
    found
}

fn line(name: &str, all: &[Vec<u8>], ours: ours::Rewrite, theirs: Theirs) {
    let (ours, theirs) = (black_box(ours), black_box(theirs));
    let (mut mine, mut other) = (vec![0; LONGEST], vec![0; LONGEST]);
    let my_pass = || {
        let (mut sum, mut info) = (0, [0u64; 3]);
        for s in all {
            unsafe {
                ours(
                    s.as_ptr(),
                    s.len(),
                    mine.as_mut_ptr(),
                    mine.len(),
                    info.as_mut_ptr(),
                    3,
                )
            };
            sum += info[0] + info[1] + info[2];
        }
        sum
    };
    let other_pass = || {
        let mut sum = 0;
        for s in all {
            if let Ok((used, written, kind)) = theirs(s, &mut other) {
                sum += used as u64 + written as u64 + kind;
            }
        }
        sum
    };
    clock::compare(&format!("rewrite {name}"), COUNT, my_pass, other_pass);
}
