//! Ledgers as numbers, and the calls on them, as `include/moq.h` says.

use std::collections::{BTreeMap, BTreeSet};

use second::generate::damaged::DAMAGES;
use second::generate::{Call, LedgerCase, Ledgers, Random};
use second::integer::GREATEST;
use second::ledger::{Ledger, Part, Place, Range, Row, ROWS};
use second::message::MOST_BODY_BYTES;
use second::numbers::{self, COUNT, EACH, FIRST};
use second::report::{LONGEST_LINE, LONGEST_REPORT};
use second::{calls, hex};

/// How many calls each test makes.
const CALLS: usize = 40_000;

fn ledger_of(numbers: &[u64]) -> Option<Ledger> {
    numbers::named(numbers.first_chunk()?).filter(Ledger::is_ledger)
}

fn bytes(text: &str) -> Vec<u8> {
    hex::decode(text).expect("hexadecimal digits")
}

/// Numbers that begin so, and are 0 after.
fn beginning(first: &[u64]) -> [u64; COUNT] {
    let mut numbers = [0; COUNT];
    numbers[..first.len()].copy_from_slice(first);
    numbers
}

/// The number that `include/moq.h` gives a name.
fn defined(header: &str, name: &str) -> usize {
    let start = format!("#define {name} ");
    let line = header.lines().find_map(|line| line.strip_prefix(&start));
    line.and_then(|value| value.parse().ok()).expect("a number")
}

/// C's names, for the parts of a ledger, for the longest text of a report and
/// for the longest message, are the numbers that this side has.
#[test]
fn names_in_c() {
    let header = include_str!("../../include/moq.h");
    assert_eq!(defined(header, "MOQ_ROWS"), ROWS);
    assert_eq!(defined(header, "MOQ_OWN_NUMBERS"), FIRST);
    assert_eq!(defined(header, "MOQ_ROW_NUMBERS"), EACH);
    let whole = "(MOQ_OWN_NUMBERS + MOQ_ROW_NUMBERS * MOQ_ROWS)";
    assert!(header.contains(&format!("#define MOQ_LEDGER_NUMBERS {whole}")));
    let line = defined(header, "MOQ_LONGEST_LINE");
    assert_eq!((line, line * (2 + ROWS)), (LONGEST_LINE, LONGEST_REPORT));
    let whole = "(MOQ_LONGEST_LINE * (2 + MOQ_ROWS))";
    assert!(header.contains(&format!("#define MOQ_LONGEST_REPORT {whole}")));
    let body = defined(header, "MOQ_LONGEST_BODY");
    assert_eq!(body as u64, MOST_BODY_BYTES);
    let whole = "(8 + 8 + MOQ_LONGEST_BODY)";
    assert!(header.contains(&format!("#define MOQ_LONGEST_MESSAGE {whole}")));
}

/// The calls of 01's report, one by one, with the numbers after each.
#[test]
fn report_example() {
    let mut numbers = [u64::MAX; COUNT];
    let mut info = [9; 2];
    assert_eq!(calls::start(0, 64, 10, &mut numbers), 8);
    assert_eq!(numbers, beginning(&[0, 0, 64, 10]));

    let subscribe = bytes("03 0C 03 07 01 01 6D 02 63 65 80 01 02 00");
    assert_eq!(calls::take(&subscribe, &mut numbers, &mut info), 8);
    assert_eq!(info, [14, 0]);
    assert_eq!(numbers, beginning(&[0, 0, 64, 10, 4, 1, 3, 7]));

    let ok = bytes("04 05 03 00 01 00 00");
    assert_eq!(calls::take(&ok, &mut numbers, &mut info), 8);
    assert_eq!(info, [7, 0]);
    assert_eq!(numbers, beginning(&[0, 0, 64, 10, 4, 1, 3, 7, 1, 1]));

    let (run, mut answers) = ([7, 65_536, 0, 7, 65_535, 2, 7], [99; 3]);
    assert_eq!(calls::arrivals(&run, &mut numbers, &mut answers), 0);
    assert_eq!(answers, [16, 16, 99]);
    let row = [3, 7, 1, 1, 0, 0, 0, 1, 65_536, 0, 2];
    let all = [&[0, 0, 64, 10, 4, 1][..], &row].concat();
    assert_eq!(numbers, beginning(&all));

    // The same SUBSCRIBE again is this end's, and nothing is done.
    assert_eq!(calls::take(&subscribe, &mut numbers, &mut info), 13);
    assert_eq!(info, [14, 2]);
    assert_eq!(numbers, beginning(&all));
    assert_eq!(calls::malformed(&mut numbers), 13);
    assert_eq!(numbers[1], 1);
    assert_eq!(calls::arrival(7, 0, 0, &mut numbers), 10);
}

/// Every number of a ledger at its place.
#[test]
fn all_numbers() {
    let mut ledger = Ledger::start(Part::Publisher, 2, GREATEST).expect("it starts");
    let place = |group, object| Place { group, object };
    ledger.highest = Some(8);
    ledger.closed = Some(7);
    ledger.used = 2;
    ledger.rows[0] = Row {
        id: 5,
        alias: 9,
        active: true,
        range: Range::Closed(place(1, 2), 3),
        greatest: Some(place(2, 4)),
        count: 6,
    };
    ledger.rows[1] = Row {
        id: 8,
        alias: 0,
        range: Range::Open(place(10, 11)),
        ..Row::default()
    };
    let numbers = beginning(&[
        1, 7, 2, GREATEST, 9, 2, 5, 9, 1, 2, 1, 2, 3, 1, 2, 4, 6, 8, 0, 0, 1, 10, 11,
    ]);
    assert_eq!(numbers::of(&ledger), numbers);
    assert_eq!(numbers::named(&numbers), Some(ledger));
}

/// What has numbers is named by them; and what isn't damaged is a ledger.
#[test]
fn numbers_and_back() {
    let mut all = Ledgers::new(4);
    let mut named = 0;
    for _ in 0..CALLS {
        let case = all.next_case();
        let Some(first) = case.numbers.first_chunk() else {
            continue;
        };
        if let Some(ledger) = numbers::named(first) {
            assert_eq!(numbers::of(&ledger), *first);
            named += 1;
        }
    }
    assert!(named > CALLS / 2);
}

/// Each number that names nothing, by itself.
#[test]
fn names_nothing() {
    let row = [3, 7, 1, 1, 0, 0, 0, 1, 65_536, 0, 2];
    let ledger = beginning(&[&[0, 0, 64, 10, 4, 1][..], &row].concat());
    assert!(numbers::named(&ledger).is_some());
    let (used, unused) = (FIRST, FIRST + 63 * EACH);
    let wrong = [
        (0, 2),
        (1, 8),
        (1, 257),
        (used + 2, 2),
        (used + 2, 256),
        (used + 3, 0x1_0000_0001),
        (used + 3, 3),
        (used + 6, 1),
        (used + 7, 0),
        (used + 7, 2),
        (unused + 2, u64::MAX),
        (unused + 4, 1),
        (unused + 5, 1),
        (unused + 6, 1),
        (unused + 8, 1),
        (unused + 9, 1),
    ];
    for (at, number) in wrong {
        let mut numbers = ledger;
        numbers[at] = number;
        assert_eq!(numbers::named(&numbers), None, "{number} at {at}");
        let before = numbers;
        assert_eq!(calls::malformed(&mut numbers), 14);
        assert_eq!(numbers, before);
    }
}

/// Every damage is done, and leaves what is no ledger; what can't be done
/// leaves the numbers.
#[test]
fn damages() {
    let mut all = Ledgers::new(5);
    let mut random = Random::new(5);
    let mut done = BTreeMap::new();
    for _ in 0..CALLS / 10 {
        let LedgerCase { numbers, .. } = all.next_case();
        if ledger_of(&numbers).is_none() {
            continue;
        }
        for (name, damage) in DAMAGES {
            let mut other = *numbers.first_chunk().expect("it is a ledger");
            if damage(&mut random, &mut other).is_some() {
                assert_eq!(ledger_of(&other), None, "{name}");
                *done.entry(name).or_insert(0) += 1;
            } else {
                assert_eq!(other[..], numbers[..COUNT], "{name}");
            }
        }
    }
    assert_eq!(done.len(), DAMAGES.len());
    assert!(done.values().all(|count| *count > 100), "{done:?}");
}

/// Puts a call to this implementation: its answer, the numbers, the values and
/// the arrivals' answers after it.
fn put(case: &LedgerCase) -> (u8, Vec<u64>, [u64; 2], Vec<u8>) {
    let (mut numbers, mut info) = (case.numbers.clone(), [99; 2]);
    let mut answers = Vec::new();
    let answer = match &case.call {
        Call::Start(part, rows, maximum) => calls::start(*part, *rows, *maximum, &mut numbers),
        Call::Take(s) => calls::take(s, &mut numbers, &mut info),
        Call::Malformed => calls::malformed(&mut numbers),
        Call::Arrival([alias, group, object]) => {
            calls::arrival(*alias, *group, *object, &mut numbers)
        }
        Call::Arrivals(run) => {
            answers.resize(run.len() / 3, 99);
            calls::arrivals(run, &mut numbers, &mut answers)
        }
    };
    (answer, numbers, info, answers)
}

/// Every number that a call can answer is answered; what is handed back is a
/// ledger where one was handed in, and stays where none was.
#[test]
fn every_answer_is_reached() {
    let mut all = Ledgers::new(6);
    let mut seen = BTreeSet::new();
    for _ in 0..CALLS {
        let case = all.next_case();
        let word = case.call.word();
        let (answer, numbers, info, answers) = put(&case);
        seen.insert((word, answer, if info[0] == 99 { 0 } else { info[1] }));
        if answer == 0 {
            seen.extend(answers.iter().map(|answer| ("each", *answer, 0)));
        }
        let was = ledger_of(&case.numbers).is_some();
        assert_eq!(numbers.get(COUNT..), case.numbers.get(COUNT..));
        if was || answer == 8 {
            assert!(ledger_of(&numbers).is_some(), "{word} {answer}");
        } else {
            assert_eq!(numbers, case.numbers);
        }
    }
    let expected = [
        ("arrival", "5 10 14 16 17 18 19"),
        ("arrivals", "0 14"),
        ("each", "5 10 16 17 18 19"),
        ("malformed", "10 13 14"),
        ("start", "5 7 8 15"),
        (
            "take",
            "1 2 3 4 5 6 8 9 10 11 12 13R2 13R3 13R4 13R5 13R6 13R7 14",
        ),
    ];
    for (word, answers) in expected {
        let given = seen.iter().filter(|(each, ..)| *each == word);
        let given: Vec<String> = given
            .map(|(_, answer, rule)| told(*answer, *rule))
            .collect();
        assert_eq!(given.join(" "), answers, "{word}");
    }
}

fn told(answer: u8, rule: u64) -> String {
    if rule == 0 {
        answer.to_string()
    } else {
        format!("{answer}R{rule}")
    }
}

/// Histories reach every closing rule, full ledgers, and none of either.
#[test]
fn every_session_is_reached() {
    let mut all = Ledgers::new(7);
    let (mut sessions, mut rows) = (BTreeSet::new(), BTreeSet::new());
    for _ in 0..CALLS {
        if let Some(ledger) = ledger_of(&all.next_case().numbers) {
            sessions.insert(ledger.closed);
            rows.insert(ledger.used);
        }
    }
    assert_eq!(sessions.len(), 8);
    assert!(rows.contains(&0) && rows.contains(&63) && rows.contains(&64));
}

/// Too few numbers answer 14, and 7 at a start; a ledger answers 7 where there
/// is too little room. Neither changes anything.
#[test]
fn rooms() {
    let mut short = [0; COUNT - 1];
    assert_eq!(calls::start(0, 1, 0, &mut short), 7);
    assert_eq!(calls::start(0, 0, 0, &mut short), 15);
    assert_eq!(calls::start(2, 0, 0, &mut short), 5);
    assert_eq!(calls::malformed(&mut short), 14);
    assert_eq!(calls::arrival(u64::MAX, 0, 0, &mut short), 14);
    let cancel = bytes("17 01 05 FF");
    let mut info = [99; 3];
    assert_eq!(calls::take(&cancel, &mut short, &mut info[..1]), 14);
    assert_eq!(calls::take(&cancel[..2], &mut short, &mut info[..1]), 1);
    assert_eq!(calls::take(&cancel, &mut short, &mut info), 14);
    let mut answers = [99; 2];
    assert_eq!(calls::arrivals(&[0; 9], &mut short, &mut answers), 14);
    assert_eq!(calls::arrivals(&[0; 5], &mut short, &mut answers), 14);
    assert_eq!(short, [0; COUNT - 1]);

    let ledger = beginning(&[0, 0, 64, 10]);
    let mut numbers = ledger;
    assert_eq!(calls::take(&cancel, &mut numbers, &mut info[..1]), 7);
    assert_eq!(calls::arrivals(&[0; 9], &mut numbers, &mut answers), 7);
    assert_eq!((numbers, info, answers), (ledger, [99; 3], [99; 2]));
    assert_eq!(calls::take(&cancel, &mut numbers, &mut info), 9);
    assert_eq!(calls::arrivals(&[0; 5], &mut numbers, &mut answers), 0);
    assert_eq!((info, answers), ([3, 0, 99], [18, 99]));
}
