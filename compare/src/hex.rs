//! Bytes as hexadecimal text, for the tests and the program of cases.

/// From how many equal bytes on a run of them is written with its count.
const RUN: usize = 16;

/// The bytes that hexadecimal digits name; white space is passed over. A byte
/// followed by `*` and a decimal number stands that many times: `61*300`. White
/// space or the end comes after the number, which is not 0.
///
/// None where a character is no digit, a digit is left alone, or `*` has no
/// byte before it or no such number after it.
pub fn decode(text: &str) -> Option<Vec<u8>> {
    let mut bytes = Vec::new();
    let mut high = None;
    let mut rest = text.trim_start();
    while let Some(character) = rest.chars().next() {
        rest = &rest[character.len_utf8()..];
        if character == '*' && high.is_none() {
            let end = rest.find(char::is_whitespace).unwrap_or(rest.len());
            let more = times(&rest[..end])? - 1;
            let last = *bytes.last()?;
            bytes.resize(bytes.len() + more, last);
            rest = &rest[end..];
        } else {
            let digit = character.to_digit(16)? as u8;
            match high.take() {
                None => high = Some(digit),
                Some(left) => bytes.push(left << 4 | digit),
            }
        }
        rest = rest.trim_start();
    }
    if high.is_some() {
        return None;
    }
    Some(bytes)
}

/// How many times a byte stands: a decimal number that is not 0.
fn times(digits: &str) -> Option<usize> {
    if !digits.bytes().all(|digit| digit.is_ascii_digit()) {
        return None;
    }
    let number: u32 = digits.parse().ok()?;
    (number > 0).then_some(number as usize)
}

/// The bytes in lower-case hexadecimal digits. A run of 16 or more equal bytes
/// is written as `decode` reads it, with a space between it and what stands
/// before and after it.
pub fn encode(bytes: &[u8]) -> String {
    let mut text = String::with_capacity(2 * bytes.len());
    let mut is_behind_run = false;
    for run in bytes.chunk_by(|one, next| one == next) {
        let is_run = run.len() >= RUN;
        if !text.is_empty() && (is_run || is_behind_run) {
            text.push(' ');
        }
        if is_run {
            push_byte(&mut text, run[0]);
            text += &format!("*{}", run.len());
        } else {
            run.iter().for_each(|byte| push_byte(&mut text, *byte));
        }
        is_behind_run = is_run;
    }
    text
}

fn push_byte(text: &mut String, byte: u8) {
    const DIGITS: &[u8; 16] = b"0123456789abcdef";
    text.push(char::from(DIGITS[usize::from(byte >> 4)]));
    text.push(char::from(DIGITS[usize::from(byte & 0x0F)]));
}

/// The bytes in upper-case hexadecimal digits, with a space between two.
pub fn spaced(bytes: &[u8]) -> String {
    let each: Vec<String> = bytes.iter().map(|byte| format!("{byte:02X}")).collect();
    each.join(" ")
}
