//! What `moqexplain` prints: the example and the words of docs/EXPLAIN.md,
//! each kind of line, each reason of a fault, control streams; and what must be
//! so for everything that is generated.

use std::collections::BTreeSet;
use std::fs;

use second::cases::Kind;
use second::explain::walk::Content;
use second::explain::{self, text::WORDS};
use second::generate::Cases;
use second::{hex, message, report};

/// How many cases each test makes.
const COUNT: usize = 20_000;

/// A start, and the lines that it is shown by.
const START: &str = "01 00 02 00 0A";
const STARTED: &str = "\
0    01 00 02                  start, 2 bytes
3    00                          Part: 0
4    0A                          Maximum Subscribe ID: 10
     answered 8, done
";

fn bytes(text: &str) -> Vec<u8> {
    hex::decode(text).expect("hexadecimal digits")
}

fn trace(bytes: &[u8]) -> String {
    String::from_utf8(explain::trace(bytes)).expect("text")
}

fn stream(bytes: &[u8]) -> String {
    String::from_utf8(explain::stream(bytes)).expect("text")
}

/// The lines of what comes after a start.
fn after_start(text: &str) -> String {
    let text = trace(&bytes(&format!("{START}{text}")));
    let rest = text.strip_prefix(STARTED).expect("the lines of the start");
    rest.to_string()
}

/// What is said of a control message on its own: labels, marks and answers.
fn said(text: &str) -> Vec<String> {
    let text = stream(&bytes(text));
    let lines = text.lines().map(|line| match line.get(..5) {
        Some("     ") => line.trim_start().to_string(),
        _ => line[33..].to_string(),
    });
    lines.collect()
}

// ---- the document

fn document(name: &str) -> String {
    let path = format!("{}/../docs/{name}", env!("CARGO_MANIFEST_DIR"));
    fs::read_to_string(&path).unwrap_or_else(|error| panic!("{path}: {error}"))
}

#[test]
fn example_of_the_document() {
    let document = document("EXPLAIN.md");
    let command = "xxd -r -p docs/example.hex | ./moqexplain\n```\n\n```\n";
    let (_, after) = document.split_once(command).expect("the command");
    let (block, _) = after.split_once("```\n").expect("the end of the block");
    assert_eq!(trace(&bytes(&self::document("example.hex"))), block);
}

#[test]
fn words_of_the_document() {
    let document = document("EXPLAIN.md");
    for (number, words) in WORDS.iter().enumerate().take(7).skip(1) {
        let row = format!("| {number} | {words} |\n");
        assert!(document.contains(&row), "{row}");
    }
    let (_, answers) = document.split_once("The ledger's answers: ").expect("them");
    let (answers, _) = answers.split_once(".\n").expect("their end");
    let answers = answers.replace('\n', " ");
    let mut numbers = Vec::new();
    for answer in answers.split("; ") {
        let (number, words) = answer.split_once(' ').expect("a number");
        let number: usize = number.parse().expect("a number");
        let rule = if number == 13 { " R4" } else { "" };
        assert_eq!(words, format!("`{}{rule}`", WORDS[number]));
        numbers.push(number);
    }
    assert_eq!(numbers, [8, 9, 10, 11, 12, 13, 15, 16, 17, 18, 19]);
}

// ---- fields and parts of a trace

/// A body of six bytes whose fields end after five, and what comes after it.
#[test]
fn broken_subscribe_ok() {
    let expected = "\
5    02 00 08                  message, 8 bytes
8    04                          Type: SUBSCRIBE_OK (0x4)
9    06                          Length: 6
10   03                          Subscribe ID: 3
11   00                          Expires: 0
12   01                          Group Order: 1
13   00                          ContentExists: 0
14   00                          Number of Parameters: 0
15   00                          left over: 1 byte
                                 ^ 4, fields don't fill the body exactly
     answered 13, breaks rule R1
16   02 00 04                  message, 4 bytes
19   3F                          Type: 0x3F
                                 ^ 2, unknown type
     answered 10, session already closed
23   03 00 03                  arrival, 3 bytes
26   07                          Track Alias: 7
27   00                          Group ID: 0
28   00                          Object ID: 0
     answered 10, session already closed
";
    let input = "02 00 08 04 06 03 00 01 00 00 00 02 00 04 3F 01 02 03 03 00 03 07 00 00";
    assert_eq!(after_start(input), expected);
}

#[test]
fn longer_forms() {
    let expected = "\
0    01 00 09                  start, 9 bytes
3    01                          Part: 1
4    C0 00 00 00 00 00 00 40     Maximum Subscribe ID: 64, shortest form 40 40
     answered 8, done
12   02 00 09                  message, 9 bytes
15   80 00 00 15                 Type: MAX_SUBSCRIBE_ID (0x15), shortest form 15
19   40 03                       Length: 3, shortest form 03
21   40 41                       Subscribe ID: 65
23   00                          left over: 1 byte
                                 ^ 4, fields don't fill the body exactly
     answered 13, breaks rule R1
24   03 00 07                  arrival, 7 bytes
27   40 07                       Track Alias: 7, shortest form 07
29   80 00 40 00                 Group ID: 16384
33   05                          Object ID: 5
     answered 10, session already closed
";
    let input = "01 00 09 01 C0 00 00 00 00 00 00 40
        02 00 09 80 00 00 15 40 03 40 41 00
        03 00 07 40 07 80 00 40 00 05";
    assert_eq!(trace(&bytes(input)), expected);
}

/// A one-byte field is no integer: it has no longer form, and no greater bits.
#[test]
fn one_byte_fields() {
    let lines = said("02 06 05 09 00 05 C0 00");
    assert_eq!(lines[6], "Subscriber Priority: 192");
    let lines = said("18 06 05 01 40 07 09 00");
    assert_eq!(lines[4], "End Of Track: 64");
}

#[test]
fn types() {
    let unknown = "^ 2, unknown type";
    let answered = "answered 2, unknown type";
    for (input, line) in [
        ("00", "Type: 0x0"),
        ("3F 01 05", "Type: 0x3F"),
        ("40 3F", "Type: 0x3F, shortest form 3F"),
        ("C0 00 00 00 00 00 00 42", "Type: 0x42, shortest form 40 42"),
        ("FF FF FF FF FF FF FF FF", "Type: 0x3FFFFFFFFFFFFFFF"),
    ] {
        assert_eq!(said(input), [line, unknown, answered], "{input}");
    }
    assert_eq!(said("1A 01 05")[0], "Type: SUBSCRIBES_BLOCKED (0x1A)");
    let padded = "Type: CLIENT_SETUP (0x40), shortest form 40 40";
    assert_eq!(said("80 00 00 40 02 00 00")[0], padded);
}

/// A control message, the part that is refused, and the number of its mark.
const MARKS: &[(&str, &str, usize)] = &[
    // Type and Length.
    ("C0 FF", "Type: cut", 1),
    ("17", "Length: cut", 1),
    ("17 80 00 40", "Length: cut", 1),
    ("17 02 05", "Length: 2", 1),
    ("17 7F FF", "Length: 16383", 1),
    ("17 80 00 40 00", "Length: 16384", 1),
    ("17 80 00 FD E8", "Length: 65000", 1),
    ("17 80 00 FD E9", "Length: 65001", 3),
    ("17 80 01 00 01 05", "Length: 65537", 3),
    // Cut by the end of the body, or not filling it.
    ("17 00", "Subscribe ID: cut", 4),
    ("17 01 40 05", "Subscribe ID: cut", 4),
    ("17 02 05 00", "left over: 1 byte", 4),
    ("02 04 05 09 00 05", "Subscriber Priority: cut", 4),
    ("19 04 05 05 7F FF", "Reason Phrase: cut", 4),
    ("40 40 05 BF FF FF FF 00", "Supported Version: cut", 4),
    ("07 03 01 50 00", "Track Namespace Field: cut", 4),
    ("0D 03 02 01 6D", "Track Namespace Field Length: cut", 4),
    ("40 41 04 01 01 05 03", "Parameter Value: cut", 4),
    // Sizes.
    ("07 01 21", "Number of Track Namespace Fields: 33", 6),
    ("12 01 00", "Number of Track Namespace Prefix Fields: 0", 6),
    ("07 03 01 50 01", "Track Namespace Field Length: 4097", 6),
    (
        "14 03 01 50 01",
        "Track Namespace Prefix Field Length: 4097",
        6,
    ),
    ("0D 05 01 01 6D 50 00", "Track Name Length: 4096", 6),
    ("40 41 03 01 40 41", "Number of Parameters: 65", 6),
    // Forbidden values.
    ("16 07 05 80 03 02 03 04 00", "Group Order: 3", 5),
    ("16 07 05 80 02 04 03 04 00", "Fetch Type: 4", 5),
    ("18 06 05 00 01 07 09 00", "Group Order: 0", 5),
    ("04 05 03 00 02 02 00", "ContentExists: 2", 5),
    ("0E 06 01 01 6D 01 61 05", "Status Code: 5", 5),
    ("0E 07 01 01 6D 01 61 01 01", "Largest Group ID: 1", 5),
    ("0E 08 01 01 6D 01 61 02 00 01", "Largest Object ID: 1", 5),
    ("03 09 03 07 01 00 00 80 02 01 09", "Filter Type: 1", 5),
    ("03 0B 03 07 01 00 00 80 02 04 09 05 08", "EndGroup: 8", 5),
];

/// The part that is refused stands last, and its mark under it.
#[test]
fn marks() {
    for (input, refused, mark) in MARKS {
        let lines = said(input);
        let words = WORDS[*mark];
        let end = [
            refused.to_string(),
            format!("^ {mark}, {words}"),
            format!("answered {mark}, {words}"),
        ];
        assert_eq!(lines[lines.len() - 3..], end, "{input}");
    }
}

/// What there is of a cut part is shown, be it nothing.
#[test]
fn cut_parts() {
    let expected = "\
0    19                          Type: FETCH_ERROR (0x19)
1    05                          Length: 5
2    05                          Subscribe ID: 5
3    05                          Error Code: 5
4    04                          Reason Phrase Length: 4
5    61 62                       Reason Phrase: cut
                                 ^ 4, fields don't fill the body exactly
     answered 4, fields don't fill the body exactly
";
    assert_eq!(stream(&bytes("19 05 05 05 04 61 62 63 64")), expected);
    let expected = "\
0    17                          Type: FETCH_CANCEL (0x17)
1    00                          Length: 0
2                                Subscribe ID: cut
                                 ^ 4, fields don't fill the body exactly
     answered 4, fields don't fill the body exactly
";
    assert_eq!(stream(&bytes("17 00 05")), expected);
}

/// Bytes, how they are shown in the column of bytes, and as what a part holds.
const HELD: &[(&[u8], &str, &str)] = &[
    (b"", "", r#""""#),
    (b"abcdefgh", "61 62 63 64 65 66 67 68", r#""abcdefgh""#),
    (b"abcdefghi", "61 62 63 64 65 66 67 68..", r#""abcdefghi""#),
    (
        b"abcdefghijklmnopqrstuvwx",
        "61 62 63 64 65 66 67 68..",
        r#""abcdefghijklmnopqrstuvwx""#,
    ),
    (
        b"abcdefghijklmnopqrstuvwxy",
        "61 62 63 64 65 66 67 68..",
        r#""abcdefghijklmnopqrstuvwx".., 25 bytes"#,
    ),
    // The first and the last that are printable; two that stand as they are.
    (b" ~\"\\", "20 7E 22 5C", r#"" ~"\""#),
    (b"a\x1F", "61 1F", "61 1F"),
    (b"\x7Fa", "7F 61", "7F 61"),
    // Every byte decides, those that are not shown too.
    (
        b"abcdefghijklmnopqrstuvwx\x80\xFF",
        "61 62 63 64 65 66 67 68..",
        "61 62 63 64 65 66 67 68 69 6A 6B 6C 6D 6E 6F 70 71 72 73 74 75 76 77 78.., 26 bytes",
    ),
];

/// More than eight bytes in the column, more than 24 as text or digits.
#[test]
fn long_bytes() {
    for (uri, column, held) in HELD {
        let length = u8::try_from(uri.len()).expect("a short URI");
        let goaway = [&[0x10, 0x40, length + 2, 0x40, length], *uri].concat();
        let text = stream(&goaway);
        let line = text.lines().nth(3).expect("the URI");
        assert_eq!(line, format!("5    {column:<26}  New Session URI: {held}"));
    }
}

/// A longer offset moves what stands after it, and one space is left.
#[test]
fn long_offsets() {
    let mut bytes = Vec::new();
    while bytes.len() < 9_999 {
        bytes.extend([0x17, 0x01, 0x05]);
    }
    let text = stream(&bytes);
    assert!(text.contains("\n9998 05                          Subscribe ID: 5\n"));
    bytes.extend([0x17, 0x01, 0x06]);
    let text = stream(&bytes);
    assert!(text.contains("\n9999 17                          Type: FETCH_CANCEL (0x17)\n"));
    assert!(text.ends_with(
        "\n10001 06                          Subscribe ID: 6\n     answered 0, whole\n"
    ));
}

// ---- labels

/// The labels of every body, by an example of it: those of 004's figures.
const LABELS: &[(&str, &str)] = &[
    (
        "40 40 07 02 01 01 01 05 01 61",
        "Number of Supported Versions, Supported Version, Supported Version, Number of Parameters, \
         Parameter Type, Parameter Length, Parameter Value",
    ),
    ("40 41 02 01 00", "Selected Version, Number of Parameters"),
    ("10 01 00", "New Session URI Length, New Session URI"),
    ("15 01 05", "Subscribe ID"),
    ("1A 01 05", "Maximum Subscribe ID"),
    (
        "03 0C 03 07 01 00 00 80 02 04 09 05 09 00",
        "Subscribe ID, Track Alias, Number of Track Namespace Fields, \
         Track Namespace Field Length, Track Namespace Field, Track Name Length, Track Name, \
         Subscriber Priority, Group Order, Filter Type, StartGroup, StartObject, EndGroup, \
         Number of Parameters",
    ),
    (
        "04 07 03 00 01 01 07 09 00",
        "Subscribe ID, Expires, Group Order, ContentExists, Largest Group ID, Largest Object ID, \
         Number of Parameters",
    ),
    (
        "05 04 05 01 00 07",
        "Subscribe ID, Error Code, Reason Phrase Length, Reason Phrase, Track Alias",
    ),
    (
        "02 06 05 09 00 05 80 00",
        "Subscribe ID, StartGroup, StartObject, EndGroup, Subscriber Priority, \
         Number of Parameters",
    ),
    ("0A 01 05", "Subscribe ID"),
    (
        "0B 04 05 01 02 00",
        "Subscribe ID, Status Code, Stream Count, Reason Phrase Length, Reason Phrase",
    ),
    (
        "16 0C 05 80 00 01 01 00 00 09 02 03 04 00",
        "Subscribe ID, Subscriber Priority, Group Order, Fetch Type, \
         Number of Track Namespace Fields, Track Namespace Field Length, Track Namespace Field, \
         Track Name Length, Track Name, StartGroup, StartObject, EndGroup, EndObject, \
         Number of Parameters",
    ),
    (
        "16 07 05 80 01 03 03 04 00",
        "Subscribe ID, Subscriber Priority, Group Order, Fetch Type, Joining Subscribe ID, \
         Joining Start, Number of Parameters",
    ),
    (
        "18 06 05 01 00 07 09 00",
        "Subscribe ID, Group Order, End Of Track, Largest Group ID, Largest Object ID, \
         Number of Parameters",
    ),
    (
        "19 03 05 00 00",
        "Subscribe ID, Error Code, Reason Phrase Length, Reason Phrase",
    ),
    ("17 01 05", "Subscribe ID"),
    (
        "0E 06 01 00 00 01 00 00",
        "Number of Track Namespace Fields, Track Namespace Field Length, Track Namespace Field, \
         Track Name Length, Track Name, Status Code, Largest Group ID, Largest Object ID",
    ),
    (
        "0C 05 01 01 6D 00 00",
        "Number of Track Namespace Fields, Track Namespace Field Length, Track Namespace Field, \
         Error Code, Reason Phrase Length, Reason Phrase",
    ),
    (
        "11 04 01 01 6D 00",
        "Number of Track Namespace Prefix Fields, Track Namespace Prefix Field Length, \
         Track Namespace Prefix Field, Number of Parameters",
    ),
    (
        "13 05 01 01 6D 00 00",
        "Number of Track Namespace Prefix Fields, Track Namespace Prefix Field Length, \
         Track Namespace Prefix Field, Error Code, Reason Phrase Length, Reason Phrase",
    ),
];

#[test]
fn labels() {
    for (input, expected) in LABELS {
        let input = bytes(input);
        let walked = explain::message(&input);
        assert_eq!(walked.answer, Ok(input.len()), "{expected}");
        let labels: Vec<&str> = walked.parts.iter().map(|part| part.label).collect();
        assert_eq!(labels.join(", "), format!("Type, Length, {expected}"));
    }
    for kind in [0x06, 0x07, 0x08, 0x09, 0x0C, 0x11, 0x12, 0x13, 0x14] {
        let prefix = if kind < 0x11 { "" } else { " Prefix" };
        let label = format!("Number of Track Namespace{prefix} Fields");
        let input = [kind, 0x01, 0x01];
        assert_eq!(explain::message(&input).parts[2].label, label, "{kind}");
    }
}

#[test]
fn names_of_types() {
    for kind in 0..0x1000 {
        assert_eq!(message::name(kind).is_some(), message::is_known(kind));
    }
}

// ---- faults of a trace

/// A trace whose first field is at fault, how the field is shown, and why.
const FIRST_FAULTS: &[(&str, &str, &str)] = &[
    ("", "", "no bytes"),
    (
        "09 00 01 05",
        "0    09 00 01                  tag 9, 1 byte\n",
        "no tag of a trace",
    ),
    (
        "00",
        "0    00                        cut field, 1 byte\n",
        "the trace ends inside this field",
    ),
    (
        "03 00 02 07 40",
        "0    03 00 02                  arrival, 2 bytes
3    07                          Track Alias: 7
4    40                          Group ID: cut
                                 ^ 1, more bytes needed\n",
        "the first field is no start",
    ),
    (
        "02 00 09 17",
        "0    02 00 09 17               cut field, 4 bytes\n",
        "the trace ends inside this field",
    ),
    (
        "02 00 01 3F 01 00 02 00 0A",
        "0    02 00 01                  message, 1 byte
3    3F                          Type: 0x3F
                                 ^ 2, unknown type\n",
        "the first field is no start",
    ),
    (
        "01 00 07 00 0A 00 00 00 00",
        "0    01 00 07 00 0A 00 00 00.. cut field, 9 bytes\n",
        "the trace ends inside this field",
    ),
    (
        "01 00 00",
        "0    01 00 00                  start, 0 bytes
3                                Part: cut
                                 ^ 1, more bytes needed\n",
        "not one part, 0 or 1, and one maximum",
    ),
    (
        "01 00 01 00",
        "0    01 00 01                  start, 1 byte
3    00                          Part: 0
4                                Maximum Subscribe ID: cut
                                 ^ 1, more bytes needed\n",
        "not one part, 0 or 1, and one maximum",
    ),
    (
        "01 00 02 02 0A 02 00",
        "0    01 00 02                  start, 2 bytes
3    02                          Part: 2
4    0A                          Maximum Subscribe ID: 10\n",
        "not one part, 0 or 1, and one maximum",
    ),
    (
        "01 00 04 00 0A 00 00",
        "0    01 00 04                  start, 4 bytes
3    00                          Part: 0
4    0A                          Maximum Subscribe ID: 10
5    00 00                       left over: 2 bytes\n",
        "not one part, 0 or 1, and one maximum",
    ),
];

/// What comes after a start, how it is shown, and why it is at fault.
const LATER_FAULTS: &[(&str, &str, &str)] = &[
    (
        "04 FF FF",
        "5    04 FF FF                  cut field, 3 bytes\n",
        "the trace ends inside this field",
    ),
    (
        "01 00 02 00 0A 09",
        "5    01 00 02                  start, 2 bytes
8    00                          Part: 0
9    0A                          Maximum Subscribe ID: 10\n",
        "a second start",
    ),
    (
        "01 00 02 00",
        "5    01 00 02 00               cut field, 4 bytes\n",
        "the trace ends inside this field",
    ),
    (
        "02 00 00",
        "5    02 00 00                  message, 0 bytes
8                                Type: cut
                                 ^ 1, more bytes needed\n",
        "not one whole message",
    ),
    (
        "02 00 03 17 02 05",
        "5    02 00 03                  message, 3 bytes
8    17                          Type: FETCH_CANCEL (0x17)
9    02                          Length: 2
                                 ^ 1, more bytes needed\n",
        "not one whole message",
    ),
    (
        "02 00 04 17 01 05 FF 03 00",
        "5    02 00 04                  message, 4 bytes
8    17                          Type: FETCH_CANCEL (0x17)
9    01                          Length: 1
10   05                          Subscribe ID: 5
11   FF                          left over: 1 byte\n",
        "not one whole message",
    ),
    (
        "03 00 04 07 00 00 00",
        "5    03 00 04                  arrival, 4 bytes
8    07                          Track Alias: 7
9    00                          Group ID: 0
10   00                          Object ID: 0
11   00                          left over: 1 byte\n",
        "not one alias, group and object",
    ),
    (
        "03 00 02 07 00",
        "5    03 00 02                  arrival, 2 bytes
8    07                          Track Alias: 7
9    00                          Group ID: 0
10                               Object ID: cut
                                 ^ 1, more bytes needed\n",
        "not one alias, group and object",
    ),
    (
        "02",
        "5    02                        cut field, 1 byte\n",
        "the trace ends inside this field",
    ),
];

#[test]
fn faults() {
    for (input, shown, why) in FIRST_FAULTS {
        let expected = format!("{shown}     fault: {why}\ntrace fault at 0\n");
        assert_eq!(trace(&bytes(input)), expected, "{input}");
    }
    for (input, shown, why) in LATER_FAULTS {
        let expected = format!("{shown}     fault: {why}\ntrace fault at 5\n");
        assert_eq!(after_start(input), expected, "{input}");
    }
}

/// The bytes after a malformed message are no part of what is shown.
#[test]
fn bytes_after_a_malformed_message() {
    let expected = "\
5    02 00 05                  message, 5 bytes
8    17                          Type: FETCH_CANCEL (0x17)
9    02                          Length: 2
10   05                          Subscribe ID: 5
11   00                          left over: 1 byte
                                 ^ 4, fields don't fill the body exactly
     answered 13, breaks rule R1
";
    assert_eq!(after_start("02 00 05 17 02 05 00 FF"), expected);
}

// ---- control streams

#[test]
fn control_streams() {
    assert_eq!(stream(&[]), "");
    let cancel = "\
0    17                          Type: FETCH_CANCEL (0x17)
1    01                          Length: 1
2    05                          Subscribe ID: 5
     answered 0, whole
";
    assert_eq!(stream(&bytes("17 01 05")), cancel);
    let refused = "\
3    09                          Type: UNANNOUNCE (0x9)
4    02                          Length: 2
5    40 21                       Number of Track Namespace Fields: 33, shortest form 21
                                 ^ 6, size
     answered 6, size
";
    let text = stream(&bytes("17 01 05 09 02 40 21 17 01 05"));
    assert_eq!(text, format!("{cancel}{refused}"));
    let cut = "\
3    17                          Type: FETCH_CANCEL (0x17)
4    02                          Length: 2
                                 ^ 1, more bytes needed
     answered 1, more bytes needed
";
    assert_eq!(
        stream(&bytes("17 01 05 17 02 05")),
        format!("{cancel}{cut}")
    );
    let cut = "\
3    40                          Type: cut
                                 ^ 1, more bytes needed
     answered 1, more bytes needed
";
    assert_eq!(stream(&bytes("17 01 05 40")), format!("{cancel}{cut}"));
}

// ---- what must be so for everything that is generated

/// The parts lie one after the other; they stop at the number that the reader
/// answers, and use as many bytes as it does.
fn check_message(bytes: &[u8]) {
    let walked = explain::message(bytes);
    let read = message::read(bytes);
    assert_eq!(
        walked.answer,
        read.map(|(_, used)| used),
        "{}",
        hex::encode(bytes)
    );
    let mut offset = 0;
    for part in &walked.parts {
        assert_eq!(part.offset, offset);
        assert_eq!(part.bytes, &bytes[offset..offset + part.bytes.len()]);
        offset += part.bytes.len();
    }
    let (last, before) = walked.parts.split_last().expect("a Type, if only cut");
    let is_short = |content| matches!(content, Content::Cut | Content::LeftOver);
    assert!(!before.iter().any(|part| is_short(part.content)));
    match walked.answer {
        Ok(used) => assert_eq!(offset, used),
        Err(1) => assert!(last.content == Content::Cut || last.label == "Length"),
        Err(4) => assert!(is_short(last.content)),
        Err(_) => assert!(!is_short(last.content)),
    }
    if let Ok((message, _)) = read {
        let Content::Type(kind) = walked.parts[0].content else {
            panic!("{message:?} begins with its type");
        };
        assert_eq!(message::name(kind), Some(message.name()));
    }
}

#[test]
fn generated_messages() {
    let mut all = Cases::new(11);
    let mut seen = BTreeSet::new();
    for _ in 0..COUNT {
        let (kind, bytes) = all.next_case();
        if kind == Kind::Control {
            check_message(&bytes);
            seen.insert(explain::message(&bytes).answer.err());
        }
    }
    let numbers = (1..=6).map(Some);
    assert!(numbers.chain([None]).all(|number| seen.contains(&number)));
}

/// No line ends in a space, and all of the text is printable.
fn check_lines(text: &str) {
    assert!(text.is_empty() || text.ends_with('\n'));
    for line in text.lines() {
        assert!(!line.ends_with(' ') && !line.is_empty());
        assert!(line.bytes().all(|byte| (0x20..=0x7E).contains(&byte)));
    }
}

/// Whether a line is that of a field. No part is called so.
fn begins_field(line: &str) -> bool {
    let what = line.get(31..).unwrap_or("").trim_start();
    let fields = ["start, ", "message, ", "arrival, "];
    fields.iter().any(|field| what.starts_with(field))
}

/// The offsets of the fields, their answers and the fault of an explanation, as
/// `report::answers` would have them, but without what a field is.
fn answers_of(text: &str) -> Vec<String> {
    let mut lines = Vec::new();
    let mut offset = "";
    for line in text.lines() {
        if let Some(answer) = line.strip_prefix("     answered ") {
            let (number, words) = answer.split_once(", ").expect("words");
            let rule = words.strip_prefix("breaks rule");
            lines.push(format!("{offset} {number}{}", rule.unwrap_or("")));
        } else if line.starts_with("trace fault") {
            lines.push(line.to_string());
        } else if begins_field(line) {
            offset = line.split(' ').next().expect("an offset");
        }
    }
    lines
}

/// The lines of `report::answers`, without what a field is.
fn answers(bytes: &[u8]) -> Vec<String> {
    let text = String::from_utf8(report::answers(bytes)).expect("text");
    let lines = text.lines().map(|line| {
        let words: Vec<&str> = line.split(' ').collect();
        match words[1] {
            "fault" => line.to_string(),
            "malformed" => format!("{} {}", words[0], words[3..].join(" ")),
            _ => format!("{} {}", words[0], words[2..].join(" ")),
        }
    });
    lines.collect()
}

#[test]
fn generated_traces() {
    let mut all = Cases::new(12);
    let mut faults = BTreeSet::new();
    for _ in 0..COUNT / 4 {
        let bytes = all.next_trace();
        let text = trace(&bytes);
        check_lines(&text);
        assert_eq!(
            answers_of(&text),
            answers(&bytes),
            "{}",
            hex::encode(&bytes)
        );
        let last = text.lines().last().expect("a line");
        let report = String::from_utf8(report::report(&bytes)).expect("text");
        assert_eq!(
            last.starts_with("trace fault"),
            report == format!("{last}\n")
        );
        let reasons = text
            .lines()
            .filter_map(|line| line.strip_prefix("     fault: "));
        faults.extend(reasons.map(str::to_string));
    }
    assert_eq!(faults.len(), 8, "{faults:?}");
    let document = document("EXPLAIN.md");
    for fault in faults {
        let row = format!("| `fault: {fault}` |");
        assert!(document.contains(&row), "{row}");
    }
}

/// Each message of a stream is shown as on its own, up to the first that is
/// refused.
#[test]
fn generated_streams() {
    let mut all = Cases::new(13);
    let mut answered = BTreeSet::new();
    for _ in 0..COUNT / 4 {
        let bytes = all.next_stream();
        let text = stream(&bytes);
        check_lines(&text);
        let mut rest = &bytes[..];
        let mut numbers = Vec::new();
        while !rest.is_empty() {
            check_message(rest);
            match message::read(rest) {
                Ok((_, used)) => {
                    rest = &rest[used..];
                    numbers.push(0);
                }
                Err(number) => {
                    rest = &[];
                    numbers.push(number);
                }
            }
        }
        let expected = numbers
            .iter()
            .map(|number| format!("     answered {number}, {}", WORDS[usize::from(*number)]));
        let lines = text
            .lines()
            .filter(|line| line.starts_with("     answered "));
        assert!(expected.eq(lines), "{}", hex::encode(&bytes));
        answered.extend(numbers.last().copied());
    }
    assert!((0..=6).eq(answered));
}

// ---- what the proved program is held to

/// The trace that the gate runs `moqexplain` on prints what this prints.
#[test]
fn trace_of_the_gate() {
    let folder = concat!(env!("CARGO_MANIFEST_DIR"), "/../crates/moqexplain");
    let input = fs::read(format!("{folder}/stdin")).expect("its input");
    let printed = fs::read_to_string(format!("{folder}/stdout")).expect("its text");
    assert_eq!(trace(&input), printed);
}
