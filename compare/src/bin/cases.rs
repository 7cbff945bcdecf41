//! Reads cases from standard input, one on each line (`control 17 01 05`), and
//! prints the line that is answered to each (`0 3 170105`).

use std::io::{self, BufRead, BufWriter, Write};
use std::process::ExitCode;

use second::cases;

fn main() -> ExitCode {
    match run() {
        Ok(()) => ExitCode::SUCCESS,
        Err(error) => {
            eprintln!("cases: {error}");
            ExitCode::FAILURE
        }
    }
}

/// A line that begins with `#` is a heading and is printed as it is, so that
/// cases and answers can be read side by side. Empty lines are passed over.
fn run() -> io::Result<()> {
    let mut out = BufWriter::new(io::stdout().lock());
    for (at, line) in io::stdin().lock().lines().enumerate() {
        let line = line?;
        if line.is_empty() {
            continue;
        }
        if line.starts_with('#') {
            writeln!(out, "{line}")?;
            continue;
        }
        let Some(answer) = cases::answer_line(&line) else {
            let message = format!("line {} is no case", at + 1);
            return Err(io::Error::new(io::ErrorKind::InvalidData, message));
        };
        writeln!(out, "{answer}")?;
    }
    out.flush()
}
