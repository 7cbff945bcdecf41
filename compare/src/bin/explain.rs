//! `explain [-c] [FILE]` prints what `moqexplain` must print of the trace in
//! FILE, or on standard input; with -c, of a control stream.

use std::ffi::OsString;
use std::fs;
use std::io::{self, Read, Write};
use std::process::ExitCode;

use second::explain;

fn main() -> ExitCode {
    let mut arguments: Vec<OsString> = std::env::args_os().skip(1).collect();
    let mut explained: fn(&[u8]) -> Vec<u8> = explain::trace;
    if arguments.first().is_some_and(|word| word == "-c") {
        explained = explain::stream;
        arguments.remove(0);
    }
    let file = arguments.first();
    if arguments.len() > 1 || file.is_some_and(|word| word.to_string_lossy().starts_with('-')) {
        eprintln!("usage: explain [-c] [FILE]");
        return ExitCode::FAILURE;
    }
    match input(file).and_then(|bytes| io::stdout().write_all(&explained(&bytes))) {
        Ok(()) => ExitCode::SUCCESS,
        // The reader of the lines may have enough of them.
        Err(error) if error.kind() == io::ErrorKind::BrokenPipe => ExitCode::SUCCESS,
        Err(error) => {
            eprintln!("explain: {error}");
            ExitCode::FAILURE
        }
    }
}

fn input(file: Option<&OsString>) -> io::Result<Vec<u8>> {
    if let Some(file) = file {
        return fs::read(file);
    }
    let mut bytes = Vec::new();
    io::stdin().read_to_end(&mut bytes)?;
    Ok(bytes)
}
