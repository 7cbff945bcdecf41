//! How the project reads what the documents leave open: the example lines of
//! docs/DECISIONS.md, Part I, each as a row of a table under its label there;
//! 01's lines checked on the blackboard and its report; RFC 9000's sample
//! integers; 004's worked examples.

use second::answer::{BODY, FILL, FORBIDDEN, MORE, SHORT, SIZE};
use second::fields::{Namespace, Parameters, Track, Versions};
use second::integer::{self, More};
use second::ledger::{close_code, Ledger, Part, Place, Range, Row};
use second::message::{self, Message};
use second::setup::{ClientSetup, Goaway};
use second::subscribe::{JustId, Subscribe};
use second::track::{TrackStatus, TrackStatusRequest};
use second::{header, hex, report, rewrite, script};

/// Bytes of a control message and the number answered.
const CONTROL: &[(&str, &str, u8)] = &[
    ("A3", "40 17 40 01 05", 0),
    (
        "A3",
        "C0 00 00 00 00 00 00 17 C0 00 00 00 00 00 00 01 05",
        0,
    ),
    ("B1", "3F", 2),
    ("B1", "C0 FF", 1),
    ("B1", "40 3F", 2),
    ("B2", "17 80 00 40 00", 1),
    ("B2", "17 80 00 FD E8", 1),
    ("B2", "17 80 00 FD E9", 3),
    ("B2", "17 80 01 00 01 05", 3),
    ("B2", "17 80 00 FD", 1),
    ("B2", "17 80 00 40", 1),
    ("B3", "03 0A 03 07 00", 1),
    ("B3", "03 03 03 07 00", 6),
    ("B4", "07 01 21", 6),
    ("B4", "07 03 01 50 01", 6),
    ("B4", "07 03 01 50 00", 4),
    ("B5", "19 04 05 05 7F FF", 4),
    ("B5", "40 40 05 BF FF FF FF 00", 4),
    ("B6", "0D 05 01 01 6D 50 00", 6),
    ("B6", "0D 05 01 01 6D 4F FF", 4),
    ("B6", "07 07 02 02 61 61 4F FF 00", 6),
    ("B7", "09 03 01 50 01", 6),
    ("B8", "12 01 00", 6),
    ("B8", "14 02 40 21", 6),
    ("B9", "0D 03 02 01 6D", 4),
    ("B9", "0D 02 21 05", 6),
    ("B10", "40 41 03 01 40 41", 6),
    ("B12", "17 01 40 05", 4),
    ("B13", "00", 2),
    ("B13", "01", 2),
    ("C1", "16 07 05 80 03 02 03 04 00", 5),
    ("C1", "18 06 05 00 01 07 09 00", 5),
    ("C2", "18 06 05 01 02 07 09 00", 0),
    ("C2", "18 06 05 01 FF 07 09 00", 0),
    ("C3", "16 0E 05 80 00 01 01 01 6D 01 61 09 02 03 04 00", 0),
    ("C4", "02 06 05 09 00 05 80 00", 0),
    ("C5", "10 05 04 6D 6F 71 74", 0),
    ("C6", "40 40 02 00 00", 0),
    ("C6", "40 41 09 FF FF FF FF FF FF FF FF 00", 0),
    ("C10", "0E 07 01 01 6D 01 61 01 01", 5),
    ("C10", "0E 07 01 01 6D 01 61 01 00", 4),
    ("C11", "03 0E 03 07 01 01 6D 02 63 65 80 02 04 09 05 08", 5),
    ("C11", "03 0E 03 07 01 01 6D 02 63 65 80 02 04 09 05 09", 4),
    ("C12", "15 01 00", 0),
    ("C12", "1A 01 00", 0),
    ("C16", "0D 03 01 00 00", 0),
];

/// The beginning of a stream and the number answered.
const STREAM: &[(&str, &str, u8)] = &[
    ("A3", "40 05 09", 0),
    ("E1", "04 02 00 00 00", 0),
    ("E2", "01 02 03 04 80 00", 2),
    ("E2", "00", 2),
    ("E3", "", 1),
];

/// A whole datagram and the number answered.
const DATAGRAM: &[(&str, &str, u8)] = &[
    ("C7", "02 02 03 04 80 00 02", 5),
    ("E1", "01 02 03 04 80 00", 0),
    ("E2", "04 02 00 00 00", 2),
    ("E2", "03", 2),
    ("E3", "", 4),
    ("E3", "40", 4),
    ("E4", "01 02 03 04 80 00 AA BB", 0),
    ("E5", "02 02 03 04 80 00 02 00", 5),
    ("E5", "02 02 03 04 80 00 03 00", 4),
    ("E8", "01 02 03 04 80 05 AA", 4),
];

/// An object header on a subgroup stream and the number answered.
const SUBOBJ: &[(&str, &str, u8)] = &[
    ("C7", "01 00 00 05", 5),
    ("E7", "00 01 FF 04", 0),
    ("E8", "01 FF FF FF FF FF FF FF FF", 1),
    ("E10", "01 00 00", 1),
    ("E10", "01 00 00 00", 0),
];

/// An object header on a fetch stream and the number answered.
const FETCHOBJ: &[(&str, &str, u8)] = &[("C7", "07 00 01 80 00 00 01", 0)];

/// A trace and its whole report, lines ended by `/`.
const TRACE: &[(&str, &str, &str)] = &[
    (
        "F3",
        "01 00 02 00 0A 02 00 03 03 01 03",
        "closed R1 0 / ID ALIAS STATE GROUP OBJECT COUNT /",
    ),
    ("H2", "01 00 02 00 0A 09 00 00 03 00", "trace fault at 5 /"),
    (
        "H3",
        "01 00 02 00 0A 02 00 01 3F 02 00 01 40",
        "trace fault at 9 /",
    ),
    (
        "H4",
        "01 00 02 00 0A 02 00 05 17 02 05 00 FF",
        "closed R1 0 / ID ALIAS STATE GROUP OBJECT COUNT /",
    ),
    (
        "H4",
        "01 00 02 00 0A 02 00 04 17 01 05 FF",
        "trace fault at 5 /",
    ),
    ("H5", "01 00 02 00 0A 02 00 00", "trace fault at 5 /"),
    ("H6", "01 00 02 00 0A 03 00 02 07 00", "trace fault at 5 /"),
    (
        "H6",
        "01 00 02 00 0A 03 00 04 07 00 00 00",
        "trace fault at 5 /",
    ),
    ("H7", "01 00 02 02 0A", "trace fault at 0 /"),
    ("H7", "01 00 03 00 0A 00", "trace fault at 0 /"),
    ("H7", "01 00 01 00", "trace fault at 0 /"),
    ("H8", "02 00 03 17 01 05", "trace fault at 0 /"),
    ("H8", "01 00 02 00 0A 01 00 02 00 0A", "trace fault at 5 /"),
    ("H8", "01 00 02 00 0A 00 00 00", "trace fault at 5 /"),
    ("H8", "01 00 02 00 0A 02 00", "trace fault at 5 /"),
    ("H8", "", "trace fault at 0 /"),
    (
        "H9",
        "01 00 02 00 0A",
        "open 0 / ID ALIAS STATE GROUP OBJECT COUNT /",
    ),
    (
        "H18",
        "01 00 02 00 0A 02 00 05 17 80 00 40 00",
        "trace fault at 5 /",
    ),
    (
        "H18",
        "01 00 02 00 0A 02 00 05 17 80 00 FD E9",
        "closed R1 0 / ID ALIAS STATE GROUP OBJECT COUNT /",
    ),
];

/// Ledger calls and their answers.
const LEDGER: &[(&str, &str, &str)] = &[
    ("F1", "start 1 64 10; subscribe 3 7 1 2; subscribe 4 7 1 2; subscribe 5 8 1 2", "8, 8, 13 R4, 10"),
    ("F1", "start 0 64 10; subscribe 3 7 1 2; subscribe 4 7 1 2; subscribe 5 8 1 2", "8, 8, 13 R4, 8"),
    ("F4", "start 1 64 10; subscribe 10 7 1 2; malformed", "8, 13 R3, 10"),
    ("F5", "start 0 64 10; malformed; other GOAWAY", "8, 13 R1, 10"),
    ("F6", "start 0 64 10; subscribe 3 7 1 9", "8, 5"),
    ("F6", "start 1 64 10; subscribe 3 7 3 2; subscribe 3 7 1 2", "8, 5, 8"),
    ("F6", "start 0 64 10; malformed; arrive 4611686018427387904 0 0; arrive 0 0 0", "8, 13 R1, 5, 10"),
    ("F13", "start 0 64 10; subscribe 3 7 1 4 5 5 6; arrive 8 0 0; arrive 7 0 0; ok 3 1 0; arrive 7 0 0; arrive 7 6 9", "8, 8, 18, 19, 8, 17, 16"),
    ("F15", "start 0 1 10; subscribe 1 1 1 2; subscribe 2 2 1 2; ok 2 1 0; arrive 1 0 0", "8, 8, 11, 13 R5, 10"),
    ("G6", "start 0 64 10; subscribe 3 7 1 2; ok 3 1 1 8 9; arrive 7 8 8; arrive 7 8 9", "8, 8, 8, 17, 16"),
    ("G7", "start 0 64 10; subscribe 3 7 1 3 5 6; ok 3 1 1 5 99; arrive 7 5 6", "8, 8, 8, 16"),
    ("G8", "start 0 64 10; subscribe 3 7 1 4 5 6 7; ok 3 1 1 8 3; arrive 7 8 3; arrive 7 7 9", "8, 8, 8, 17, 17"),
];
fn bytes(text: &str) -> Vec<u8> {
    hex::decode(text).expect("hexadecimal digits")
}

/// The number that a rewriting answers, 0 for a whole one.
fn number(answer: Result<rewrite::Rewritten, u8>) -> u8 {
    match answer {
        Ok(_) => 0,
        Err(number) => number,
    }
}

fn check(table: &[(&str, &str, u8)], reader: fn(&[u8]) -> Result<rewrite::Rewritten, u8>) {
    for (reading, input, expected) in table {
        let answered = number(reader(&bytes(input)));
        assert_eq!(answered, *expected, "{reading}: {input}");
    }
}

#[test]
fn control_lines() {
    check(CONTROL, rewrite::control);
}

#[test]
fn stream_lines() {
    check(STREAM, rewrite::stream);
}

#[test]
fn datagram_lines() {
    check(DATAGRAM, rewrite::datagram);
}

#[test]
fn object_lines() {
    check(SUBOBJ, rewrite::subgroup_object);
    check(FETCHOBJ, rewrite::fetch_object);
}

/// The report as a single line, each of its lines ended by `/`.
fn report_line(trace: &str) -> String {
    let text = String::from_utf8(report::report(&bytes(trace))).expect("text");
    text.replace('\n', " / ").trim_end().to_string()
}

#[test]
fn trace_lines() {
    for (reading, input, expected) in TRACE {
        assert_eq!(report_line(input), *expected, "{reading}: {input}");
    }
}

#[test]
fn ledger_lines() {
    for (reading, calls, expected) in LEDGER {
        let answers = script::run(calls).expect("a script");
        assert_eq!(answers, *expected, "{reading}: {calls}");
    }
}

#[test]
fn rfc_9000_sample_integers() {
    let samples = [
        ("c2197c5eff14e88c", 151_288_809_941_952_652, 8),
        ("9d7f3e7d", 494_878_333, 4),
        ("7bbd", 15_293, 2),
        ("25", 37, 1),
        ("4025", 37, 2),
    ];
    for (text, number, used) in samples {
        assert_eq!(integer::read(&bytes(text)), Ok((number, used)), "{text}");
        let mut out = [0; 8];
        let written = integer::write(number, &mut out).expect("writable");
        let shortest = if text == "4025" { "25" } else { text };
        assert_eq!(hex::encode(&out[..written]), shortest);
    }
}

/// P1 to P5.
#[test]
fn blackboard_integers() {
    assert_eq!(integer::read(&[]), Err(More));
    let pairs = [
        ("3f", 63),
        ("4040", 64),
        ("7fff", 16_383),
        ("80004000", 16_384),
        ("8000ffff", 65_535),
        ("80010000", 65_536),
        ("ffffffffffffffff", 4_611_686_018_427_387_903),
    ];
    for (text, number) in pairs {
        let input = bytes(text);
        assert_eq!(integer::read(&input), Ok((number, input.len())), "{text}");
        assert_eq!(integer::size(number), Some(input.len()), "{text}");
        let mut out = [0xEE; 9];
        assert_eq!(integer::write(number, &mut out), Ok(input.len()));
        assert_eq!(&out[..input.len()], input);
        assert!(out[input.len()..].iter().all(|byte| *byte == 0xEE));
        let mut short = vec![0xEE; input.len() - 1];
        assert_eq!(integer::write(number, &mut short), Err(SHORT));
        assert!(short.iter().all(|byte| *byte == 0xEE));
        assert_eq!(integer::read(&input[..input.len() - 1]), Err(More));
    }
    let beyond = integer::GREATEST + 1;
    assert_eq!(integer::size(beyond), None);
    assert_eq!(integer::write(beyond, &mut [0; 8]), Err(FORBIDDEN));
    assert_eq!(integer::write(beyond, &mut []), Err(FORBIDDEN));
}

/// P6 to P10, as 02's K8 has it, and the two lines after P12.
#[test]
fn blackboard_messages() {
    let input = bytes("17 01 05");
    let cancel = Message::FetchCancel(JustId { subscribe_id: 5 });
    assert_eq!(message::read(&input), Ok((cancel, 3)));
    let longer = rewrite::control(&bytes("17 02 40 05"));
    assert_eq!(longer, Ok((4, input, 0x17)));
    let refused = [
        ("17 02 05 00", 4),
        ("17 00", 4),
        ("3F", 2),
        ("17 7F FF", 1),
        ("17 80 00 40 00", 1),
        ("17 80 00 FD E8", 1),
        ("17 80 00 FD E9", 3),
        ("0E 08 01 01 6D 01 61 01 00 00", 0),
        ("0E 08 01 01 6D 01 61 01 00 01", 5),
    ];
    for (text, expected) in refused {
        assert_eq!(number(rewrite::control(&bytes(text))), expected, "{text}");
    }
}

/// P11, and the last two lines.
#[test]
fn blackboard_ledger() {
    let scripts = [
        ("start 0 64 10; subscribe 9 1 1 2", "8, 8"),
        ("start 0 64 10; subscribe 10 1 1 2", "8, 13 R3"),
        (
            "start 0 64 10; subscribe 9 1 1 2; subscribe 9 1 1 2",
            "8, 8, 13 R2",
        ),
        (
            "start 0 64 0; subscribe 0 1 1 2; subscribe 4611686018427387903 1 1 2",
            "8, 13 R3, 13 R3",
        ),
    ];
    for (calls, expected) in scripts {
        assert_eq!(script::run(calls).as_deref(), Some(expected), "{calls}");
    }
}

/// 01's report, and the answers of the same trace.
const EXAMPLE: &str = "01 00 02 00 0A  02 00 0E 03 0C 03 07 01 01 6D 02 63 65 80 01 02 00 \
    02 00 07 04 05 03 00 01 00 00  03 00 06 07 80 01 00 00 00  03 00 06 07 80 00 FF FF 02";

#[test]
fn report_example() {
    let expected = "open 1\nID ALIAS STATE GROUP OBJECT COUNT\n3 7 active 65536 0 2\n";
    assert_eq!(report::report(&bytes(EXAMPLE)), expected.as_bytes());
    let expected = "0 start 8\n5 SUBSCRIBE 8\n22 SUBSCRIBE_OK 8\n32 arrival 16\n41 arrival 16\n";
    assert_eq!(report::answers(&bytes(EXAMPLE)), expected.as_bytes());
}

#[test]
fn answers_of_refusals() {
    // A publisher's ledger: SUBSCRIBE, the same alias for another track, then
    // bytes that are malformed, and a fault.
    let trace = "01 00 02 01 0A  02 00 0E 03 0C 03 07 01 01 6D 02 63 65 80 01 02 00 \
        02 00 0E 03 0C 04 07 01 01 6D 02 63 66 80 01 02 00  02 00 01 3F  02 00 01 03";
    let expected =
        "0 start 8\n5 SUBSCRIBE 8\n22 SUBSCRIBE 13 R4\n39 malformed 2 10\ntrace fault at 43\n";
    assert_eq!(report::answers(&bytes(trace)), expected.as_bytes());
    let trace = "01 00 02 01 0A  02 00 04 17 02 05 00  03 00 03 00 00 00";
    let expected = "0 start 8\n5 malformed 4 13 R1\n12 arrival 10\n";
    assert_eq!(report::answers(&bytes(trace)), expected.as_bytes());
    assert_eq!(report::answers(&[]), b"trace fault at 0\n");
}

/// 004, section 9.5: a subgroup on one stream, and a group whose first object
/// has two extension headers of 33 bytes.
#[test]
fn worked_examples() {
    let stream = bytes("04 02 00 00 00  00 00 04 61626364  01 00 04 65666768");
    assert_eq!(rewrite::stream(&stream), Ok((5, bytes("0402000000"), 4)));
    let first = rewrite::subgroup_object(&stream[5..]);
    assert_eq!(first, Ok((3, bytes("000004"), 0)));
    let second = rewrite::subgroup_object(&stream[12..]);
    assert_eq!(second, Ok((3, bytes("010004"), 0)));

    let mut object = bytes("00 21  04 C0 00 00 00 82 57 DC D3  40 4D 15");
    object.extend(b"traceID:123456");
    object.extend([0; 7]);
    object.extend(bytes("04 61626364"));
    let (read, used) = header::read_subgroup_object(&object).expect("whole");
    assert_eq!(used, 2 + 33 + 1);
    assert_eq!(read.object.extension_headers.len(), 33);
    assert_eq!(integer::read(&object[3..]), Ok((2_186_796_243, 8)));
    assert_eq!(read.object.payload_length, 4);
    assert_eq!(read.object.object_status, None);
}

const NO_PARAMETERS: Parameters<'static> = Parameters {
    count: 0,
    bytes: &[],
};

fn request<'a>(count: u64, bytes: &'a [u8], name: &'a [u8]) -> Message<'a> {
    let namespace = Namespace { count, bytes };
    let track = Track { namespace, name };
    Message::TrackStatusRequest(TrackStatusRequest { track })
}

/// D2, D4: 5, 6, 3, 7 in that order, each over the whole message.
#[test]
fn writer_refusals() {
    let fields_32 = [0; 32];
    let fields_33 = [0; 33];
    let mut padded_4096 = bytes("80 00 10 00");
    padded_4096.resize(4 + 4096, 0x6D);
    let cases = [
        (request(33, &fields_32, b"a"), Err(FORBIDDEN)),
        (request(33, &fields_33, b"a"), Err(SIZE)),
        (request(0, &[], b"a"), Err(SIZE)),
        (request(0, &[0], b"a"), Err(FORBIDDEN)),
        (request(1, &[2, 0x6D], b"a"), Err(FORBIDDEN)),
        (request(1, &[0, 0], b"a"), Err(FORBIDDEN)),
        (request(u64::MAX, &[0, 0], b"a"), Err(FORBIDDEN)),
        (request(32, &fields_32, b"a"), Ok(2 + 33 + 2)),
        (request(1, &padded_4096, b"a"), Err(SIZE)),
        (request(1, &padded_4096, b""), Ok(3 + 1 + 2 + 4096 + 1)),
    ];
    for (message, expected) in cases {
        let mut out = vec![0xEE; 5000];
        assert_eq!(message::write(&message, &mut out), expected);
        let written = expected.unwrap_or(0);
        assert!(out[written..].iter().all(|byte| *byte == 0xEE));
    }
    let track = Track {
        namespace: Namespace {
            count: 33,
            bytes: &fields_33,
        },
        name: b"a",
    };
    let status = Message::TrackStatus(TrackStatus {
        track,
        status_code: 5,
        largest: Place::default(),
    });
    assert_eq!(message::write(&status, &mut []), Err(FORBIDDEN));
}

/// 3 counts the shortest body; 7 the whole message.
#[test]
fn writer_lengths() {
    let uri = vec![0x61; 64_997];
    for (length, expected) in [
        (16_380, Ok(16_385)),
        (16_381, Ok(16_386)),
        (16_382, Ok(16_389)),
        (64_995, Ok(65_004)),
        (64_996, Ok(65_005)),
        (64_997, Err(BODY)),
    ] {
        let goaway = Message::Goaway(Goaway {
            new_session_uri: &uri[..length],
        });
        let mut out = vec![0; 65_005];
        assert_eq!(message::write(&goaway, &mut out), expected);
        if let Ok(total) = expected {
            assert_eq!(message::write(&goaway, &mut out[..total - 1]), Err(SHORT));
            assert_eq!(message::read(&out[..total]), Ok((goaway, total)));
        } else {
            assert_eq!(message::write(&goaway, &mut []), Err(BODY));
        }
    }
    let versions = Versions {
        count: 2,
        bytes: &[0x40, 0x01, 0x02],
    };
    let setup = Message::ClientSetup(ClientSetup {
        supported_versions: versions,
        parameters: NO_PARAMETERS,
    });
    let mut out = [0xEE; 8];
    assert_eq!(message::write(&setup, &mut out), Ok(7));
    assert_eq!(out[..], bytes("40 40 04 02 01 02 00 EE"));
}

/// GOAWAY with this Type and Length, a URI length and so many bytes after it.
fn goaway(header: &str, uri: usize) -> Vec<u8> {
    let mut all = bytes(header);
    all.resize(all.len() + uri, 0x61);
    all
}

/// K8: a body of 65,000 bytes is read, with Type and Length in any form.
#[test]
fn longest_messages() {
    let shortest = goaway("10 80 00 FD E8 80 00 FD E4", 64_996);
    assert_eq!(shortest.len(), 65_005);
    let read = Message::Goaway(Goaway {
        new_session_uri: &shortest[9..],
    });
    assert_eq!(message::read(&shortest), Ok((read, 65_005)));
    let padded = "C0 00 00 00 00 00 00 10 C0 00 00 00 00 00 FD E8 80 00 FD E4";
    let longest = goaway(padded, 64_996);
    assert_eq!(message::read(&longest), Ok((read, 65_016)));
    let rewritten = rewrite::control(&longest);
    assert_eq!(rewritten, Ok((65_016, shortest.clone(), 0x10)));
    assert_eq!(message::read(&longest[..65_015]), Err(MORE));
    // Over the limit, with its body and without; what the padding takes counts.
    for (header, uri) in [
        ("10 80 00 FD E9 80 00 FD E5", 64_997),
        ("10 80 00 FD E9 80 00 FD E5", 0),
        ("10 80 00 FD E9 C0 00 00 00 00 00 FD E1", 64_993),
    ] {
        assert_eq!(message::read(&goaway(header, uri)), Err(BODY), "{header}");
    }
    // Within it, and not filled, or the URI ends after it.
    for header in ["10 80 00 FD E8 80 00 FD E3", "10 80 00 FD E8 80 00 FD E5"] {
        assert_eq!(message::read(&goaway(header, 64_996)), Err(FILL));
    }
}

/// K8: such a message as a field of a trace. 01: "a message answering 1, or a
/// whole message [...] that leaves bytes of its field" is a fault.
#[test]
fn longest_messages_in_traces() {
    let shortest = goaway("10 80 00 FD E8 80 00 FD E4", 64_996);
    let mut left = shortest.clone();
    left.push(0x61);
    let padded = "C0 00 00 00 00 00 00 10 C0 00 00 00 00 00 FD E8 80 00 FD E4";
    for (message, last) in [
        (goaway(padded, 64_996), "5 GOAWAY 9"),
        (shortest.clone(), "5 GOAWAY 9"),
        (shortest[..65_004].to_vec(), "trace fault at 5"),
        (left, "trace fault at 5"),
        (
            goaway("10 80 00 FD E8 80 00 FD E3", 64_996),
            "5 malformed 4 13 R1",
        ),
        (
            goaway("10 80 00 FD E9 80 00 FD E5", 64_997),
            "5 malformed 3 13 R1",
        ),
    ] {
        let mut trace = bytes("01 00 02 00 0A 02");
        trace.extend((message.len() as u16).to_be_bytes());
        trace.extend(message);
        let answers = String::from_utf8(report::answers(&trace)).expect("text");
        assert_eq!(answers, format!("0 start 8\n{last}\n"));
    }
}

/// D3: fields that don't belong.
#[test]
fn writer_shapes() {
    let place = Some(Place {
        group: 5,
        object: 6,
    });
    let cases = [
        (2, None, None, 0),
        (2, place, None, 5),
        (2, None, Some(9), 5),
        (3, place, None, 0),
        (3, None, None, 5),
        (3, place, Some(9), 5),
        (4, place, Some(5), 0),
        (4, place, Some(4), 5),
        (4, place, None, 5),
        (1, None, None, 5),
    ];
    for (filter_type, start, end_group, expected) in cases {
        let subscribe = subscribe(filter_type, start, end_group);
        let mut out = [0; 64];
        let answered = message::write(&subscribe, &mut out).err().unwrap_or(0);
        assert_eq!(answered, expected, "filter {filter_type}");
        if expected == 0 {
            assert_eq!(message::read(&out).map(|(read, _)| read), Ok(subscribe));
        }
    }
}

fn subscribe(filter_type: u64, start: Option<Place>, end_group: Option<u64>) -> Message<'static> {
    let namespace = Namespace {
        count: 1,
        bytes: b"\x01m",
    };
    Message::Subscribe(Subscribe {
        subscribe_id: 3,
        track_alias: 7,
        track: Track {
            namespace,
            name: b"a",
        },
        subscriber_priority: 128,
        group_order: 1,
        filter_type,
        start,
        end_group,
        parameters: NO_PARAMETERS,
    })
}

/// C9, D3, E15: data headers, 5 before 7.
#[test]
fn header_refusals() {
    let cases = [
        (0, Some(0), Ok(4)),
        (0, Some(4), Ok(4)),
        (0, Some(2), Err(FORBIDDEN)),
        (0, Some(u64::MAX), Err(FORBIDDEN)),
        (0, None, Err(FORBIDDEN)),
        (1, Some(0), Err(FORBIDDEN)),
        (1, None, Ok(3)),
        (integer::GREATEST, None, Ok(10)),
        (integer::GREATEST + 1, None, Err(FORBIDDEN)),
    ];
    for (payload_length, object_status, expected) in cases {
        let object = header::SubgroupObject {
            object_id: 9,
            object: header::ObjectFields {
                extension_headers: &[],
                payload_length,
                object_status,
            },
        };
        let mut out = [0xEE; 16];
        assert_eq!(header::write(&object, &mut out), expected);
        let short = expected.map_or(0, |written| written - 1);
        let refusal = expected.err().unwrap_or(SHORT);
        let mut out = [0xEE; 16];
        assert_eq!(header::write(&object, &mut out[..short]), Err(refusal));
        assert_eq!(out, [0xEE; 16]);
    }
}

/// D11: the name handed back is the same part of the caller's bytes.
#[test]
fn name_is_the_same_part() {
    let input = bytes("0D 05 01 01 6D 01 61");
    let (Message::TrackStatusRequest(request), _) = message::read(&input).expect("whole") else {
        panic!("another message");
    };
    assert!(std::ptr::eq(request.track.name, &input[6..]));
}

/// D1: entries in order; the forms of integers are no part of a message.
#[test]
fn equality() {
    let one = request(2, b"\x01a\x01b", b"n");
    assert_eq!(one, request(2, b"\x40\x01a\x01b", b"n"));
    assert_ne!(one, request(1, b"\x02ab", b"n"));
    assert_ne!(one, request(2, b"\x01b\x01a", b"n"));
}

/// A ledger with one active row and one pending row.
fn sample() -> Ledger {
    let mut ledger = Ledger::start(Part::Subscriber, 2, 10).expect("a start");
    let place = Place {
        group: 1,
        object: 2,
    };
    ledger.rows[0] = Row {
        id: 3,
        alias: 7,
        active: true,
        range: Range::Open(Place::default()),
        greatest: Some(place),
        count: 4_294_967_294,
    };
    ledger.rows[1] = Row {
        id: 4,
        alias: 8,
        ..Row::default()
    };
    ledger.used = 2;
    ledger.highest = Some(4);
    ledger
}

/// Each condition that 01 lists, broken alone.
const BREAKS: [fn(&mut Ledger); 24] = [
    |l| l.capacity = 0,
    |l| l.capacity = 65,
    |l| l.capacity = 1,
    |l| l.maximum = integer::GREATEST + 1,
    |l| l.highest = Some(3),
    |l| l.highest = None,
    |l| l.highest = Some(integer::GREATEST + 1),
    |l| l.closed = Some(0),
    |l| l.closed = Some(8),
    |l| l.used = 1,
    |l| l.used = 3,
    |l| l.used = usize::MAX,
    |l| l.rows[1].id = 3,
    |l| l.rows[0].id = 9,
    |l| l.rows[1].alias = 7,
    |l| l.rows[1].alias = u64::MAX,
    |l| l.rows[0].range = Range::NotKnown,
    |l| l.rows[0].range = Range::Closed(Place::default(), integer::GREATEST + 1),
    |l| l.rows[0].greatest = None,
    |l| l.rows[0].count = 0,
    |l| l.rows[0].count = 4_294_967_296,
    |l| l.rows[0].active = false,
    |l| l.rows[2].alias = 1,
    |l| l.rows[63].active = true,
];

/// 14, whatever the call.
#[test]
fn not_a_ledger() {
    assert!(sample().is_ledger());
    for (at, change) in BREAKS.iter().enumerate() {
        let mut ledger = sample();
        change(&mut ledger);
        let before = ledger.clone();
        assert!(!ledger.is_ledger(), "condition {at}");
        assert_eq!(ledger.arrive(u64::MAX, 0, 0).number, 14);
        assert_eq!(ledger.malformed().number, 14);
        let max = Message::MaxSubscribeId(JustId { subscribe_id: 99 });
        assert_eq!(ledger.take(&max).number, 14);
        assert_eq!(ledger, before);
    }
}

/// G1, G17: what is still a ledger; the count's top.
#[test]
fn still_a_ledger() {
    let mut ledger = sample();
    ledger.rows[0].range = Range::Closed(Place::default(), 0);
    ledger.maximum = 0;
    ledger.closed = Some(7);
    assert!(ledger.is_ledger());
    let mut ledger = sample();
    for (object, count) in [(9, 4_294_967_295), (12, 4_294_967_295), (1, 4_294_967_295)] {
        assert_eq!(ledger.arrive(7, 1, object).number, 16);
        assert_eq!(ledger.rows[0].count, count);
    }
    let greatest = Some(Place {
        group: 1,
        object: 12,
    });
    assert_eq!(ledger.rows[0].greatest, greatest);
}

#[test]
fn starts_and_steps() {
    let scripts = [
        ("start 0 0 10", "15"),
        ("start 1 65 10", "15"),
        ("start 0 64 4611686018427387904", "15"),
        ("start 0 64 4611686018427387903", "8"),
        ("start 1 64 10; max 10; max 11; max 4611686018427387904", "8, 13 R7, 8, 5"),
        ("start 0 64 10; max 10; max 11; max 4611686018427387904", "8, 13 R7, 10, 5"),
        ("start 0 64 10; ok 3 1 0", "8, 13 R5"),
        ("start 1 64 10; ok 3 1 0; done 3; error 3", "8, 13 R5, 13 R5, 13 R5"),
        ("start 1 64 10; unsubscribe 3; other FETCH", "8, 13 R5, 10"),
        ("start 1 64 10; subscribe 3 7 1 2; done 3", "8, 8, 13 R6"),
        (
            "start 1 64 10; subscribe 3 7 1 2; ok 3 1 0; error 3; ok 3 1 0; done 3; done 3",
            "8, 8, 8, 13 R6, 13 R6, 8, 12",
        ),
        (
            "start 0 64 10; subscribe 3 7 1 2; error 3; subscribe 4 7 1 2; unsubscribe 4; unsubscribe 4",
            "8, 8, 8, 8, 8, 12",
        ),
        (
            "start 0 1 10; subscribe 1 1 1 2; subscribe 2 2 1 2; unsubscribe 1; subscribe 2 2 1 2",
            "8, 8, 11, 8, 8",
        ),
        ("start 0 64 10; other GOAWAY; malformed; other GOAWAY", "8, 9, 13 R1, 10"),
        // F7: a count of entries is a number of the message
        (
            "start 0 64 10; subscribe 3 7 1 4 5 6 7 4611686018427387904; subscribe 3 7 1 4 5 6 7 4611686018427387903",
            "8, 5, 8",
        ),
    ];
    for (calls, expected) in scripts {
        assert_eq!(script::run(calls).as_deref(), Some(expected), "{calls}");
    }
    for (name, _) in script::OTHERS {
        let calls = format!("start 1 64 10; other {name}");
        assert_eq!(script::run(&calls).as_deref(), Some("8, 9"), "{name}");
    }
}

/// 004's table 1.
#[test]
fn close_codes() {
    let codes: Vec<_> = (0..=8).map(close_code).collect();
    let three = Some(0x3);
    let expected = [
        None,
        three,
        three,
        Some(0x6),
        Some(0x4),
        three,
        three,
        three,
        None,
    ];
    assert_eq!(codes, expected);
}
