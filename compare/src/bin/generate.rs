//! `generate SEED COUNT` prints COUNT cases, the same for the same seed.

use std::io::{self, BufWriter, Write};
use std::process::ExitCode;

use second::generate::Cases;
use second::hex;

fn main() -> ExitCode {
    let arguments: Vec<String> = std::env::args().skip(1).collect();
    let numbers: Option<Vec<u64>> = arguments.iter().map(|word| word.parse().ok()).collect();
    let Some([seed, count]) = numbers.as_deref() else {
        eprintln!("usage: generate SEED COUNT");
        return ExitCode::FAILURE;
    };
    match print(*seed, *count) {
        Ok(()) => ExitCode::SUCCESS,
        // The reader of the cases may have enough of them.
        Err(error) if error.kind() == io::ErrorKind::BrokenPipe => ExitCode::SUCCESS,
        Err(error) => {
            eprintln!("generate: {error}");
            ExitCode::FAILURE
        }
    }
}

fn print(seed: u64, count: u64) -> io::Result<()> {
    let mut out = BufWriter::new(io::stdout().lock());
    let mut cases = Cases::new(seed);
    for _ in 0..count {
        let (kind, bytes) = cases.next_case();
        writeln!(out, "{} {}", kind.word(), hex::encode(&bytes))?;
    }
    out.flush()
}
