//! What must hold of every generated case.

use std::collections::BTreeSet;

use second::cases::{self, Kind};
use second::generate::Cases;
use second::rewrite::{self, Rewritten};
use second::{header, hex, integer, message, report, script};

/// How many cases each test makes.
const COUNT: usize = 40_000;

type Rewrite = fn(&[u8]) -> Result<Rewritten, u8>;

fn rewriting(kind: Kind) -> Option<Rewrite> {
    match kind {
        Kind::Control => Some(rewrite::control),
        Kind::Stream => Some(rewrite::stream),
        Kind::Datagram => Some(rewrite::datagram),
        Kind::SubgroupObject => Some(rewrite::subgroup_object),
        Kind::FetchObject => Some(rewrite::fetch_object),
        Kind::Integer | Kind::Trace | Kind::Answers => None,
    }
}

#[test]
fn first_cases_are_whole_messages() {
    for seed in 0..50 {
        let mut all = Cases::new(seed);
        let mut types = BTreeSet::new();
        for _ in 0..36 {
            let (kind, bytes) = all.next_case();
            assert_eq!(kind, Kind::Control);
            let (used, _, number) = rewrite::control(&bytes).expect("a whole message");
            assert_eq!(used, bytes.len());
            types.insert(number);
        }
        assert_eq!(types.len(), 26);
    }
}

#[test]
fn the_same_seed_gives_the_same_cases() {
    let (mut one, mut two) = (Cases::new(7), Cases::new(7));
    for _ in 0..1_000 {
        assert_eq!(one.next_case(), two.next_case());
    }
}

/// What is written is not longer, reads as the same message, and is written
/// again as it is; every byte before its end is needed.
#[test]
fn rewriting_is_stable() {
    let mut all = Cases::new(1);
    for _ in 0..COUNT {
        let (kind, bytes) = all.next_case();
        let Some(rewrite) = rewriting(kind) else {
            continue;
        };
        let Ok((used, written, number)) = rewrite(&bytes) else {
            continue;
        };
        assert!(written.len() <= used && used <= bytes.len());
        let again = rewrite(&written);
        assert_eq!(again, Ok((written.len(), written.clone(), number)));
        let missing = if kind == Kind::Datagram { 4 } else { 1 };
        assert_eq!(rewrite(&bytes[..used - 1]), Err(missing));
        if kind == Kind::Control {
            let (one, _) = message::read(&bytes).expect("whole");
            let (two, _) = message::read(&written).expect("whole");
            assert_eq!(one, two);
        }
        if kind == Kind::Stream {
            let one = header::read_stream(&bytes).expect("whole").0;
            let two = header::read_stream(&written).expect("whole").0;
            assert_eq!(one, two);
        }
    }
}

/// A message that is written into less than it needs leaves the output.
#[test]
fn short_outputs_stay() {
    let mut all = Cases::new(2);
    for _ in 0..COUNT / 4 {
        let (kind, bytes) = all.next_case();
        if kind != Kind::Control {
            continue;
        }
        let Ok((message, _)) = message::read(&bytes) else {
            continue;
        };
        let mut out = vec![0xEE; bytes.len() + 2];
        let written = message::write(&message, &mut out).expect("room");
        assert!(out[written..].iter().all(|byte| *byte == 0xEE));
        let mut short = vec![0xEE; written - 1];
        assert_eq!(message::write(&message, &mut short), Err(7));
        assert!(short.iter().all(|byte| *byte == 0xEE));
    }
}

/// Every answer that a kind of reader can give is given.
#[test]
fn every_answer_is_reached() {
    let mut all = Cases::new(3);
    let mut seen = BTreeSet::new();
    let mut lines = BTreeSet::new();
    for _ in 0..COUNT {
        let (kind, bytes) = all.next_case();
        let answer = cases::answer(kind, &bytes);
        if kind == Kind::Trace {
            let text = String::from_utf8(report::answers(&bytes)).expect("text");
            for line in text.lines() {
                let (_, rest) = line.split_once(' ').expect("a line");
                lines.insert(rest.to_string());
            }
        }
        let first = answer.split(' ').next().expect("a word").to_string();
        seen.insert((kind.word(), first));
    }
    let expected = [
        ("control", "0 1 2 3 4 5 6"),
        ("datagram", "0 2 4 5"),
        ("fetchobj", "0 1 5"),
        ("integer", "0 1"),
        ("stream", "0 1 2"),
        ("subobj", "0 1 5"),
        ("trace", "closed open trace"),
    ];
    for (kind, answers) in expected {
        let given = seen.iter().filter(|(word, _)| *word == kind);
        let given: Vec<&str> = given.map(|(_, answer)| answer.as_str()).collect();
        assert_eq!(given.join(" "), answers, "{kind}");
    }
    reached_in_traces(&lines);
}

fn reached_in_traces(lines: &BTreeSet<String>) {
    let mut expected: Vec<String> = [16, 17, 18, 19, 10]
        .iter()
        .map(|number| format!("arrival {number}"))
        .collect();
    for number in 2..=6 {
        expected.push(format!("malformed {number} 13 R1"));
        expected.push(format!("malformed {number} 10"));
    }
    for (name, _) in script::OTHERS {
        expected.push(format!("{name} 9"));
        expected.push(format!("{name} 10"));
    }
    for ends in ["8", "10", "11", "13 R2", "13 R3", "13 R4"] {
        expected.push(format!("SUBSCRIBE {ends}"));
    }
    for name in ["SUBSCRIBE_OK", "SUBSCRIBE_ERROR", "SUBSCRIBE_DONE"] {
        for ends in ["8", "10", "12", "13 R5", "13 R6"] {
            expected.push(format!("{name} {ends}"));
        }
    }
    for ends in ["8", "10", "12", "13 R5"] {
        expected.push(format!("UNSUBSCRIBE {ends}"));
    }
    for ends in ["8", "10", "13 R7"] {
        expected.push(format!("MAX_SUBSCRIBE_ID {ends}"));
    }
    for line in expected {
        assert!(lines.contains(&line), "not reached: {line}");
    }
}

/// Type and Length of a message, and the bytes that they take.
fn type_and_length(bytes: &[u8]) -> Option<(u64, u64, usize)> {
    let (kind, used) = integer::read(bytes).ok()?;
    let (length, more) = integer::read(&bytes[used..]).ok()?;
    Some((kind, length, used + more))
}

/// Long bodies come, whole ones of every type that may have one, and such as
/// are over the limit with all their bytes there.
#[test]
fn long_bodies_are_reached() {
    let mut all = Cases::new(4);
    let mut seen = BTreeSet::new();
    let mut types = BTreeSet::new();
    let mut longest = 0;
    for _ in 0..COUNT {
        let (kind, bytes) = all.next_case();
        let header = type_and_length(&bytes);
        let Some((number, length, used)) = header.filter(|_| kind == Kind::Control) else {
            continue;
        };
        if length < 16_383 || (bytes.len() - used) as u64 != length {
            continue;
        }
        let answer = rewrite::control(&bytes).map_or_else(|refused| refused, |_| 0);
        if answer == 0 {
            types.insert(number);
            longest = longest.max(bytes.len());
        }
        let between = (16_385..65_000).contains(&length);
        seen.insert((if between { 20_000 } else { length }, answer));
    }
    for (length, answer) in [
        (16_383, 0),
        (16_384, 0),
        (20_000, 0),
        (20_000, 4),
        (20_000, 5),
        (20_000, 6),
        (65_000, 0),
        (65_000, 4),
        (65_001, 3),
    ] {
        assert!(seen.contains(&(length, answer)), "{length}: {answer}");
    }
    assert_eq!(longest, 65_016);
    let expected = [
        0x2, 0x3, 0x4, 0x5, 0x6, 0x8, 0xB, 0xC, 0x10, 0x11, 0x13, 0x16, 0x18, 0x19, 0x40, 0x41,
    ];
    assert!(types.iter().eq(&expected), "{types:x?}");
}

/// The messages of a trace's fields, up to a field that is cut.
fn messages(mut trace: &[u8]) -> Vec<&[u8]> {
    let mut all = Vec::new();
    while let [tag, high, low, rest @ ..] = trace {
        let length = usize::from(u16::from_be_bytes([*high, *low]));
        let Some((value, behind)) = rest.split_at_checked(length) else {
            break;
        };
        if *tag == 2 {
            all.push(value);
        }
        trace = behind;
    }
    all
}

/// Long bodies come in traces too: whole, with a byte left in the field, with
/// bytes missing, broken, and over the limit.
#[test]
fn long_bodies_are_reached_in_traces() {
    let mut all = Cases::new(5);
    let mut seen = BTreeSet::new();
    for _ in 0..COUNT {
        let (kind, bytes) = all.next_case();
        if kind != Kind::Trace {
            continue;
        }
        for value in messages(&bytes) {
            let Some((_, length, _)) = type_and_length(value) else {
                continue;
            };
            if value.len() < 16_384 {
                continue;
            }
            let answer = match message::read(value) {
                Ok((_, used)) if used < value.len() => "left".to_string(),
                Ok(_) => value.len().to_string(),
                Err(number) => number.to_string(),
            };
            seen.insert((length, answer));
        }
    }
    for (length, answer) in [
        (16_384, "16389"),
        (65_000, "65005"),
        (65_000, "65016"),
        (65_000, "left"),
        (65_000, "1"),
        (65_000, "4"),
        (65_001, "3"),
    ] {
        let pair = (length, answer.to_string());
        assert!(seen.contains(&pair), "{pair:?}");
    }
}

#[test]
fn lines_of_cases() {
    let pairs = [
        ("integer 9d7f3e7d", "0 494878333 4"),
        ("integer 40", "1"),
        ("integer", "1"),
        ("control 17 02 40 05", "0 4 170105"),
        ("control 3F", "2"),
        (
            "control 10 80 00 FD E8 80 00 FD E4 61*64996",
            "0 65005 108000fde88000fde4 61*64996",
        ),
        ("stream 40 05 09", "0 3 0509"),
        ("datagram 01 02 03 04 80 00 AA BB", "0 6 010203048000"),
        ("subobj 01 00 00 00", "0 4 01000000"),
        ("fetchobj 07 00 01 80 00 00 01", "0 7 07000180000001"),
        (
            "trace 010002000a",
            "open 0 / ID ALIAS STATE GROUP OBJECT COUNT /",
        ),
        ("answers 010002000a", "0 start 8 /"),
        ("ledger start 0 64 10; max 10", "8, 13 R7"),
    ];
    for (line, answer) in pairs {
        assert_eq!(cases::answer_line(line).as_deref(), Some(answer), "{line}");
    }
    for line in ["control 1", "control xy", "other 00", ""] {
        assert_eq!(cases::answer_line(line), None, "{line}");
    }
    assert_eq!(hex::encode(&[0x0A, 0xF1]), "0af1");
    assert_eq!(integer::read(&[0x40]), Err(integer::More));
}

/// Text, the bytes that it stands for, each as often as the number says, and the
/// text that is written of them.
const RUNS: [(&str, &[(u8, usize)], &str); 10] = [
    ("61*1", &[(0x61, 1)], "61"),
    ("61*15", &[(0x61, 15)], "616161616161616161616161616161"),
    ("61*16", &[(0x61, 16)], "61*16"),
    ("6161*15", &[(0x61, 16)], "61*16"),
    ("61*8 61*8", &[(0x61, 16)], "61*16"),
    ("10 61*16", &[(0x10, 1), (0x61, 16)], "10 61*16"),
    ("61*16 10", &[(0x61, 16), (0x10, 1)], "61*16 10"),
    ("00*16 FF*300", &[(0, 16), (0xFF, 300)], "00*16 ff*300"),
    (
        "1 7 00*2 10 61*64996 05 05*2",
        &[(0x17, 1), (0, 2), (0x10, 1), (0x61, 64_996), (5, 3)],
        "17000010 61*64996 050505",
    ),
    ("", &[], ""),
];

#[test]
fn runs_of_bytes() {
    for (text, runs, written) in RUNS {
        let bytes: Vec<u8> = runs
            .iter()
            .flat_map(|(byte, count)| vec![*byte; *count])
            .collect();
        assert_eq!(hex::decode(text).as_deref(), Some(&bytes[..]), "{text}");
        assert_eq!(hex::encode(&bytes), written, "{text}");
        assert_eq!(hex::decode(written), Some(bytes), "{written}");
    }
    for text in [
        "*3",
        "6*3",
        "61*",
        "61*0",
        "61* 3",
        "61*+3",
        "61*3a",
        "61*3*3",
        "61*99999999999",
        "61**3",
    ] {
        assert_eq!(hex::decode(text), None, "{text}");
    }
    let mut all = Cases::new(6);
    for _ in 0..COUNT / 4 {
        let (_, bytes) = all.next_case();
        assert_eq!(hex::decode(&hex::encode(&bytes)), Some(bytes));
    }
}
