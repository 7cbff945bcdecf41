//! docs/LESSON.md: what the programs print; its table of integers; and the
//! lines of the code and of the definitions that stand beside RFC 9000's table.

use std::fs;

use second::answer::FORBIDDEN;
use second::{explain, hex, integer, report};

/// A file of the repository.
fn file(name: &str) -> String {
    let path = format!("{}/../{name}", env!("CARGO_MANIFEST_DIR"));
    fs::read_to_string(&path).unwrap_or_else(|error| panic!("{path}: {error}"))
}

/// The blocks of the lesson, without the four spaces before each line.
fn blocks() -> Vec<String> {
    let mut blocks = vec![String::new()];
    for line in file("docs/LESSON.md").lines() {
        match line.strip_prefix("    ") {
            Some(line) => *blocks.last_mut().expect("a block") += &format!("{line}\n"),
            None => blocks.push(String::new()),
        }
    }
    blocks.retain(|block| !block.is_empty());
    blocks
}

fn number(text: &str) -> u64 {
    text.replace(',', "").parse().expect("a number")
}

// ---- commands

/// What a command prints: a program on bytes in hexadecimal, and what is kept
/// of its lines.
fn printed(command: &str) -> String {
    let (digits, command) = command
        .strip_prefix("echo '")
        .and_then(|rest| rest.split_once("' | xxd -r -p | ./"))
        .expect("bytes and a program");
    let bytes = hex::decode(digits).expect("hexadecimal digits");
    let (program, kept) = command.split_once(" | ").unwrap_or((command, ""));
    let text = match program {
        "moqreport" => report::report(&bytes),
        "moqexplain" => explain::trace(&bytes),
        "moqexplain -c" => explain::stream(&bytes),
        _ => panic!("{program}"),
    };
    let text = String::from_utf8(text).expect("text");
    let mut lines: Vec<&str> = text.lines().collect();
    match kept {
        "" => {}
        "grep ID" => lines.retain(|line| line.contains("ID")),
        "tail -n 11" => drop(lines.drain(..lines.len() - 11)),
        _ => panic!("{kept}"),
    }
    lines.iter().map(|line| format!("{line}\n")).collect()
}

#[test]
fn commands() {
    let mut count = 0;
    for pair in blocks().windows(2) {
        if pair[0].starts_with("echo ") {
            assert_eq!(printed(pair[0].trim_end()), pair[1], "{}", pair[0]);
            count += 1;
        }
    }
    assert_eq!(count, 7);
}

// ---- RFC 9000's table

/// The first and the last number of each row, and the first that is in none.
#[test]
fn table_of_integers() {
    let lesson = file("docs/LESSON.md");
    let head = "| Row | First | Written | Last | Written |\n|---|---|---|---|---|\n";
    let (_, table) = lesson.split_once(head).expect("the table");
    let mut next = 0;
    for line in table.lines().take(4) {
        let cells: Vec<&str> = line.trim_matches(['|', ' ']).split(" | ").collect();
        let [bits, first, first_form, last, last_form] = cells[..] else {
            panic!("{line}");
        };
        assert_eq!(number(first), next, "{line}");
        next = number(last) + 1;
        for (text, form) in [(first, first_form), (last, last_form)] {
            let mut out = [0; 8];
            let used = integer::write(number(text), &mut out).expect("it can be written");
            assert_eq!(format!("`{}`", hex::spaced(&out[..used])), form, "{line}");
            assert_eq!(format!("`{:02b}`", out[0] >> 6), bits, "{line}");
            assert_eq!(
                integer::read(&out[..used]),
                Ok((number(text), used)),
                "{line}"
            );
        }
    }
    let line = table.lines().nth(4).expect("a last line");
    assert_eq!(
        line,
        "| none | 4,611,686,018,427,387,904 | nothing: 5 | | |"
    );
    assert_eq!(next, 4_611_686_018_427_387_904);
    assert_eq!(integer::write(next, &mut [0; 8]), Err(FORBIDDEN));
    assert_eq!(FORBIDDEN, 5);
}

/// The lines of a file, without the spaces around them and the `_` in numbers.
fn lines_of(name: &str) -> String {
    let lines = file(name);
    let lines: Vec<&str> = lines.lines().map(str::trim).collect();
    lines.join("\n").replace('_', "")
}

/// Each row of the table stands beside the two lines of the code that it
/// became. These lines, with the two that begin the matches and the two for a
/// number in no row, stand in the code one behind the other, and the rows do in
/// the definitions.
#[test]
fn rows_side_by_side() {
    let blocks = blocks();
    let block = blocks
        .iter()
        .find(|block| block.starts_with("2MSB "))
        .expect("the rows");
    let (mut sizes, mut writes, mut rows) = (Vec::new(), Vec::new(), Vec::new());
    for line in block.lines() {
        let cells = line.split("  ").map(str::trim);
        let cells: Vec<&str> = cells.filter(|cell| !cell.is_empty()).collect();
        let [row @ .., size, write] = &cells[..] else {
            panic!("{line}");
        };
        sizes.push(*size);
        writes.push(*write);
        if let [bits @ ("00" | "01" | "10" | "11"), length, usable, range] = row {
            let greatest = number(range.strip_prefix("0-").expect("a range from 0"));
            assert_eq!(greatest, (1 << number(usable)) - 1, "{line}");
            assert_eq!(number(usable), 8 * number(length) - 2, "{line}");
            rows.push(format!("row 0b{bits} {length} {usable} {greatest}"));
        }
    }
    assert_eq!((sizes.len(), writes.len(), rows.len()), (6, 6, 4));
    let code = lines_of("crates/integer/src/writer.rt");
    for lines in [sizes, writes] {
        let lines = lines.join("\n").replace('_', "");
        assert!(code.contains(&lines), "{lines}");
    }
    let table = lines_of("crates/integer/specs/Integer.antt");
    let rows = rows.join("\n∷ ") + "\n∷ []\n";
    assert!(table.contains(&rows), "{rows}");
}
